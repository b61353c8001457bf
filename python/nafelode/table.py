"""The zone as text: header, blocks, bays, free bytes, scatter and census."""

from typing import (
    Callable,
    Iterable,
    Iterator,
    List,
    NamedTuple,
    Optional,
    Sequence,
)

from .check import Image
from .content import Content
from .format import Block, BlockType
from .zone import Zone

FIRST_BYTES = 16  # data bytes shown of each block
LONGEST_BAR = 40  # of the census, in characters

SCATTER_COUNT = (
    "scatter is counted as the free bytes outside the largest free block of\n"
    "their own bay: 0 when every bay's sum lies in one piece")


def lines(zone: Zone, limits: Optional[Image] = None) -> Iterator[str]:
    """All lines of the print, without line ends.

    `limits` are a mill's own, which the census then goes by.
    """
    yield header_line(zone)
    yield from _master_lines(zone)
    yield ""
    yield from block_lines(zone, "blocks")
    yield ""
    yield from _bay_lines(zone)
    yield ""
    yield from _free_lines(zone)
    yield ""
    yield from _census_lines(zone, limits)


def header_line(zone: Content) -> str:
    return (f"zone: L {zone.length}, bkFst {zone.bk_fst}, m {zone.m}, "
            f"hFstFree {zone.h_fst_free}, clock {zone.clock}")


def _master_lines(zone: Zone) -> Iterator[str]:
    yield (f"masters: {zone.live_handles} live, {len(zone.chain)} in the "
           f"chain{_chain_words(zone.chain)}")


def _chain_words(chain: Sequence[int], shown: int = 8) -> str:
    if not chain:
        return ""
    words = " ".join(str(master) for master in chain[:shown])
    return f" ({words}{' ...' if len(chain) > shown else ''})"


def block_lines(zone: Content, title: str) -> Iterator[str]:
    counts = ", ".join(f"{zone.count(kind)} {words}"
                       for kind, words in _KINDS)
    yield f"{title}: {len(zone.blocks)} ({counts})"
    if zone.blocks:
        columns = _columns(zone)
        rows = ([column.cell(block) for column in columns]
                for block in zone.blocks)
        yield from table([column.head for column in columns], rows,
                          left=(i for i, column in enumerate(columns)
                                if column.left))


_KINDS = ((BlockType.RELOCATABLE, "relocatable"), (BlockType.PAGE, "pages"),
          (BlockType.FIXED, "fixed"), (BlockType.FREE, "free"))


class _Column(NamedTuple):
    head: str
    cell: Callable[[Block], str]
    left: bool = False  # flush left


def _columns(zone: Content) -> List[_Column]:
    """Ages and flags have columns only where there are pages."""
    columns = [_Column("offset", lambda block: str(block.offset)),
               _Column("type", lambda block: block.type.name.lower(), True),
               _Column("size", lambda block: str(block.size)),
               _Column("handle, pointer or name",
                       lambda block: block.target, True)]
    if zone.pages:
        columns += [_Column("age", _age), _Column("flags", _flags, True)]
    return columns + [
        _Column("data size", _data_size),
        _Column("first data bytes",
                lambda block: _first_bytes(zone, block), True)]


def _age(block: Block) -> str:
    return "-" if block.page is None else str(block.page.age)


def _flags(block: Block) -> str:
    return (block.page and block.page.flags) or "-"


def _data_size(block: Block) -> str:
    return "-" if block.type is BlockType.FREE else str(block.data_size)


def _first_bytes(zone: Content, block: Block) -> str:
    shown = min(block.data_size, FIRST_BYTES)
    if shown == 0:
        return "-"
    # Groups of four bytes from the data's start, as the rig sheet writes them.
    text = zone.read_block(block, 0, shown).hex().upper()
    groups = " ".join(text[i:i + 8] for i in range(0, len(text), 8))
    return groups + (" ..." if block.data_size > shown else "")


def _bay_lines(zone: Zone) -> Iterator[str]:
    yield f"bays: {len(zone.bays)}"
    rows = ([str(index), str(bay.start), str(bay.end), str(bay.capacity),
             str(bay.sum), str(bay.pieces), str(bay.largest), str(bay.apart)]
            for index, bay in enumerate(zone.bays))
    yield from table(["bay", "start", "end", "capacity", "sum", "free blocks",
                       "largest", "scatter"], rows, left=set())


def _free_lines(zone: Zone) -> Iterator[str]:
    total, largest_bay = zone.sum()
    scatter = zone.scatter()
    yield f"free bytes: {total}; largest bay's sum {largest_bay}"
    yield (f"scatter: {scatter.apart}; free blocks: {scatter.pieces}, the "
           f"largest of {scatter.largest} bytes")
    yield f"({SCATTER_COUNT})"


def _census_lines(zone: Zone, limits: Optional[Image]) -> Iterator[str]:
    """A bar for each stratum; without limits for those that are not empty."""
    strata = [stratum for stratum in zone.strata(limits or b"")
              if stratum.count or limits is not None]
    by = "the mill's limits" if limits else "the formula"
    if not strata:
        yield f"census by {by}: no free block"
        return
    blocks_a_mark = max(1, _up(max(s.count for s in strata), LONGEST_BAR))
    mark = "each" if blocks_a_mark == 1 else f"up to {blocks_a_mark}"
    yield f"census by {by}: free blocks by size in bytes, # for {mark}"
    rows = ([str(s.least), "-" if s.most is None else str(s.most),
             str(s.count), "#" * _up(s.count, blocks_a_mark)]
            for s in strata)
    yield from table(["from", "to", "free blocks", ""], rows, left={3})


def _up(number: int, parts: int) -> int:
    """The quotient, rounded up."""
    return -(-number // parts)


def table(heads: List[str], rows: Iterable[List[str]],
           left: Iterable[int]) -> Iterator[str]:
    """Rows in columns, flush right but for the columns in `left`."""
    cells = [heads, *rows]
    widths = [max(map(len, column)) for column in zip(*cells)]
    flush_left = set(left)
    for row in cells:
        padded = (text.ljust(width) if i in flush_left else text.rjust(width)
                  for i, (text, width) in enumerate(zip(row, widths)))
        yield "  " + "  ".join(padded).rstrip()
