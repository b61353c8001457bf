"""The census: free blocks counted by stratum."""

from bisect import bisect_right
from typing import Iterable, NamedTuple, Optional, Sequence, Tuple

from .format import WORD, Block, BlockType


def census_of(blocks: Iterable[Block],
              limits: Sequence[int]) -> Tuple[int, ...]:
    """The count of each stratum; limits are in words, the first at most 2."""
    counts = [0] * len(limits)
    for block in blocks:
        if block.type is BlockType.FREE:
            counts[bisect_right(limits, block.size // WORD) - 1] += 1
    return tuple(counts)


class Stratum(NamedTuple):
    """Free blocks of `least` to `most` bytes; the last stratum has no most."""

    least: int
    most: Optional[int]
    count: int


def strata_of(blocks: Iterable[Block],
              limits: Sequence[int]) -> Tuple[Stratum, ...]:
    """The census with each stratum's range in bytes."""
    ends = [WORD * limit - WORD for limit in limits[1:]]
    return tuple(Stratum(WORD * limit, end, count) for limit, end, count
                 in zip(limits, [*ends, None], census_of(blocks, limits)))
