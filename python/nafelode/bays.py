"""Bays: the stretches between fixed blocks, their sums and their scatter."""

from typing import Iterable, List, NamedTuple, Sequence, Tuple

from .format import Block, BlockType


class Bay(NamedTuple):
    """The stretch from `start` to `end`; it may be empty."""

    start: int
    end: int
    blocks: Tuple[Block, ...]
    sum: int  # total size of its free blocks
    largest: int  # size of its largest free block, 0 for none
    pieces: int  # number of its free blocks

    @property
    def capacity(self) -> int:
        return self.end - self.start

    @property
    def apart(self) -> int:
        """Free bytes outside the bay's largest free block."""
        return self.sum - self.largest


class Sum(NamedTuple):
    """The answer of document 01's call Sum."""

    total: int
    largest: int  # the largest bay's sum


class Scatter(NamedTuple):
    """How far the free bytes lie apart.

    `pieces` free blocks, the `largest` of them, and `apart`: the free bytes
    outside the largest free block of their own bay. Compacting every bay
    brings `apart` to 0; no call joins the free bytes of two bays.
    """

    pieces: int
    largest: int
    apart: int


def split(blocks: Sequence[Block], bk_fst: int,
          length: int) -> Tuple[Bay, ...]:
    """The bays in address order: one more than there are fixed blocks."""
    bays: List[Bay] = []
    start, first = bk_fst, 0
    for index, block in enumerate(blocks):
        if block.type is BlockType.FIXED:
            bays.append(_bay(start, block.offset, blocks[first:index]))
            start, first = block.end, index + 1
    bays.append(_bay(start, length, blocks[first:]))
    return tuple(bays)


def _bay(start: int, end: int, blocks: Sequence[Block]) -> Bay:
    sizes = [block.size for block in blocks if block.type is BlockType.FREE]
    return Bay(start, end, tuple(blocks), sum(sizes), max(sizes, default=0),
               len(sizes))


def sum_of(bays: Sequence[Bay]) -> Sum:
    sums = [bay.sum for bay in bays]
    return Sum(sum(sums), max(sums, default=0))


def scatter_of(bays: Iterable[Bay]) -> Scatter:
    pieces = largest = apart = 0
    for bay in bays:
        pieces += bay.pieces
        largest = max(largest, bay.largest)
        apart += bay.apart
    return Scatter(pieces, largest, apart)
