"""Zones for the tests, built from documents 01 and 02 without the package.

A Plan lists the blocks of a zone; its image is laid down byte by byte. The
tests compare what the package reads with what the plan says.
"""

import random
from typing import (
    Dict,
    Iterable,
    List,
    NamedTuple,
    Optional,
    Sequence,
    Tuple,
)

FREE, FIXED, RELOCATABLE, PAGE = 0, 1, 2, 3
DIRTY, LOCK = 0x8000, 0x4000


class Part(NamedTuple):
    """A block of the plan: data for live ones, a size in bytes for all.

    A fixed block has 0 where a relocatable one has its handle.
    """

    kind: int
    size: int
    handle: int = 0
    data: bytes = b""
    name: int = 0
    status: int = 0


class Plan(NamedTuple):
    m: int
    parts: Tuple[Part, ...]
    chain: Tuple[int, ...]
    beyond: bytes = b""
    clock: int = 0

    @property
    def bk_fst(self) -> int:
        return 16 + 4 * self.m

    @property
    def length(self) -> int:
        return self.bk_fst + sum(part.size for part in self.parts)

    def offsets(self) -> List[int]:
        offsets, at = [], self.bk_fst
        for part in self.parts:
            offsets.append(at)
            at += part.size
        return offsets

    def image(self) -> bytearray:
        """The zone's bytes, then those beyond L."""
        masters = self._masters()
        head = self.chain[0] if self.chain else 0
        out = bytearray()
        for value in (self.length, self.bk_fst, self.m):
            out += value.to_bytes(4, "big")
        out += head.to_bytes(2, "big") + bytes([self.clock, 0])
        for i in range(self.m):
            out += masters.get(16 + 4 * i, 0).to_bytes(4, "big")
        for part in self.parts:
            out += block_bytes(part)
        return out + self.beyond

    def _masters(self) -> Dict[int, int]:
        masters = dict(zip(self.chain, self.chain[1:] + (0,)))
        for offset, part in zip(self.offsets(), self.parts):
            if part.kind == RELOCATABLE:
                masters[part.handle] = offset + 4
        return masters


def block_bytes(part: Part) -> bytes:
    words = part.size // 2
    if part.kind == FREE:
        return words.to_bytes(4, "big") + bytes(part.size - 4)
    head = (part.kind << 14 | words).to_bytes(2, "big")
    if part.kind in (FIXED, RELOCATABLE):
        head += part.handle.to_bytes(2, "big")
    if part.kind == PAGE:
        head += part.name.to_bytes(4, "big") + part.status.to_bytes(2, "big")
    return head + part.data


def roster_bytes(records: Iterable[Tuple[int, int]]) -> bytes:
    """The records as a roster has them: handle, data size, 4 bytes each."""
    return b"".join(number.to_bytes(4, "big")
                    for record in records for number in record)


def limits_bytes(limits: Iterable[int]) -> bytes:
    """A mill's limits as they are lent."""
    return b"".join(limit.to_bytes(4, "big") for limit in limits)


def _rising(rng: random.Random, first: int,
            words: Sequence[int]) -> List[int]:
    """Nineteen limits from `first` on, close together or far apart, some of
    them about these numbers of words."""
    reach = rng.choice((20, 100, 524_288))
    later = {524_288} if rng.random() < 0.2 else set()
    while len(later) < 18:
        near = rng.choice(list(words) or [4]) + rng.randrange(4)
        limit = rng.choice((near, first + rng.randint(1, reach)))
        if first < limit <= 524_288:
            later.add(limit)
    return [first, *sorted(later)]


def random_limits(rng: random.Random, words: Sequence[int] = ()) -> bytes:
    """Limits within the rules (document 02, U7)."""
    return limits_bytes(_rising(rng, rng.choice((1, 2)), words))


def broken_limits(rng: random.Random) -> bytes:
    """The same with one rule broken."""
    limits, place = _rising(rng, rng.choice((1, 2)), ()), rng.randrange(1, 19)
    pick = rng.randrange(4)
    if pick == 0:
        length = rng.choice((1, 4, 72, 75, 77, 152, rng.randrange(1, 76)))
        return (2 * limits_bytes(limits))[:length]
    if pick == 1:
        limits = _rising(rng, rng.choice((0, 3, 100)), ())
    elif pick == 2:
        limits[place] = rng.choice((limits[place - 1],
                                    rng.randrange(limits[place - 1])))
    else:
        limits[18] = rng.choice((524_289, 2**32 - 1))
    return limits_bytes(limits)


def free(size: int) -> Part:
    return Part(FREE, size)


def fixed(data: bytes) -> Part:
    return Part(FIXED, 4 + len(data), 0, data)


def relocatable(handle: int, data: bytes) -> Part:
    return Part(RELOCATABLE, 4 + len(data), handle, data)


def page(name: int, data: bytes, status: int = 0) -> Part:
    """The status word has the flags and the stamp."""
    return Part(PAGE, 8 + len(data), 0, data, name, status)


def cache_and_dropped() -> Tuple[Plan, Plan]:
    """Pages of every kind in two bays, beside blocks of the other types; and
    the same after page 102 is clean and page 103 was created, whose place it
    had: it was the oldest that is not locked (document 02, U5)."""
    recipe = page(101, b"GRADE A 70 GSM..", 6)
    profile = relocatable(16, b"PROFILE 01..")
    mark = page(0, b"", LOCK | 7)
    hardware = fixed(bytes(range(10, 14)))
    kept = page(7, b"GRADE C 120 GSM.", DIRTY | LOCK | 5), free(20)
    old, new = page(102, b"GRADE B 80 GSM..", DIRTY | 2), page(103, bytes(16), 8)
    cache = Plan(2, (recipe, profile, old, free(12), mark, hardware, *kept),
                 (20,), b"", 7)
    dropped = Plan(2, (recipe, profile, new, free(12), mark, hardware, *kept),
                   (20,), b"", 8)
    return cache, dropped


def full_and_grown() -> Tuple[Plan, Plan]:
    """A zone whose masters are all in use, and the same after an allocation
    of 16 bytes, which are written: eight masters more (document 02, U3)."""
    recipe = relocatable(20, b"\x00\x01\x39\x7aRECIPE A")
    mark = relocatable(24, b"MARK")
    one = relocatable(28, b"SP222222")
    two = relocatable(16, b"P1111111111Z")
    hardware = fixed(bytes(range(10, 14)))
    new = relocatable(32, b"P" + b"3" * 15)
    full = Plan(4, (free(8), recipe, mark, free(40), one, two, free(20),
                    hardware), ())
    grown = Plan(12, (recipe, mark, one, two, new, free(16), hardware),
                 (36, 40, 44, 48, 52, 56, 60))
    return full, grown


def random_plan(rng: random.Random, blocks: int, largest: int = 64,
                fixed_blocks: int = 0, spare: int = 3,
                length: Optional[int] = None, pages: int = 0) -> Plan:
    """A random zone of about so many blocks.

    `fixed_blocks` of them are fixed, `pages` are pages, `spare` masters are
    free. With `length` the last block is a free one that fills the zone up to
    it, if it can.
    """
    kinds = [FIXED] * fixed_blocks + [PAGE] * pages
    kinds += rng.choices((FREE, RELOCATABLE), (1, 2),
                         k=max(0, blocks - fixed_blocks - pages))
    rng.shuffle(kinds)
    kinds = [kind for i, kind in enumerate(kinds)
             if kind != FREE or i == 0 or kinds[i - 1] != FREE]
    m = kinds.count(RELOCATABLE) + spare
    masters = [16 + 4 * i for i in range(m)]
    rng.shuffle(masters)
    names = [0, 0xFFFFFFFF] + rng.sample(range(1, 2**32 - 1), pages)
    rng.shuffle(names)
    parts = [_random_part(rng, kind, largest, masters, names)
             for kind in kinds]
    if length is not None:
        _fill(parts, length - 16 - 4 * m)
    beyond = rng.randbytes(rng.choice((0, 0, 1, 7, 64)))
    clock = rng.randrange(256) if pages else 0
    return Plan(m, tuple(parts), tuple(masters), beyond, clock)


def _random_part(rng: random.Random, kind: int, largest: int,
                 masters: List[int], names: List[int]) -> Part:
    size = 4 * rng.randint(1, max(1, largest // 4))
    if kind == FREE:
        return free(size)
    if kind == FIXED:
        return fixed(rng.randbytes(size - 4))
    if kind == PAGE:
        status = rng.choice((0, DIRTY, LOCK, DIRTY | LOCK)) | rng.randrange(256)
        return page(names.pop(), rng.randbytes(max(0, size - 8)), status)
    return relocatable(masters.pop(), rng.randbytes(size - 4))


def _fill(parts: List[Part], room: int) -> None:
    rest = room - sum(part.size for part in parts)
    if rest <= 0:
        return
    if parts and parts[-1].kind == FREE:
        rest += parts.pop().size
    parts.append(free(rest))
