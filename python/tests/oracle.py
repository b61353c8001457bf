"""Well-formedness once more, with document 02's pages and header of fixed blocks,
as plainly as can be; and the rules of a mill's limits.

It is slow and names no rule; the tests hold the package's answer against it.
"""

from typing import List, Optional, Tuple


def _at(b: bytes, offset: int, width: int) -> int:
    value = 0
    for byte in b[offset:offset + width]:
        value = value * 256 + byte
    return value


def _blocks(b: bytes, start: int,
            stop: int) -> Optional[List[Tuple[int, int, int]]]:
    """(offset, type, size) of the blocks that tile start to stop, or None."""
    found = []
    while start != stop:
        if start > stop:
            return None
        kind = b[start] // 64
        words = _at(b, start, 4) if kind == 0 else _at(b, start, 2) % 16384
        if words < (4 if kind == 3 else 2) or words % 2:
            return None
        found.append((start, kind, 2 * words))
        start += 2 * words
    return found


def well_formed(image: bytes) -> bool:
    b = bytes(image)
    if len(b) < 16 or b[15]:
        return False
    length, bk_fst, m = _at(b, 0, 4), _at(b, 4, 4), _at(b, 8, 4)
    head = _at(b, 12, 2)
    if length % 4 or length > len(b) or length > 1048576 or m > 8188:
        return False
    if bk_fst != 16 + 4 * m or bk_fst > length:
        return False
    masters = [16 + 4 * i for i in range(m)]
    blocks = _blocks(b, bk_fst, length)
    if blocks is None:
        return False
    for (_, first, _), (_, second, _) in zip(blocks, blocks[1:]):
        if first == second == 0:
            return False
    for offset, kind, size in blocks:
        if kind == 0 and any(b[offset + 4:offset + size]):
            return False
        if kind == 1 and any(b[offset + 2:offset + 4]):
            return False
        if kind == 2:
            handle = _at(b, offset + 2, 2)
            if handle not in masters or _at(b, handle, 4) != offset + 4:
                return False
    names = [_at(b, offset + 2, 4) for offset, kind, _ in blocks if kind == 3]
    if len(names) != len(set(names)):
        return False
    if any(b[offset + 6] % 64 for offset, kind, _ in blocks if kind == 3):
        return False
    steps = 0
    while head != 0:
        if head not in masters or steps > m:
            return False
        head = _at(b, head, 4)
        steps += 1
    return sum(kind == 2 for _, kind, _ in blocks) + steps == m


def are_limits(lent: bytes) -> bool:
    """Whether a mill may lend these bytes (document 02, U7), length 0 apart."""
    if len(lent) != 76:
        return False
    limits = [_at(lent, 4 * i, 4) for i in range(19)]
    for lower, higher in zip(limits, limits[1:]):
        if not lower < higher:
            return False
    return 1 <= limits[0] <= 2 and limits[18] <= 524288
