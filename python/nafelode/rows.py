"""How the bar of a zone is wrapped over rows."""

from typing import Iterator, NamedTuple, Sequence

BAR_WIDTH = 1000.0
SMALL_WIDTH = 28  # what a small block should get, in pixels
FEWEST_BYTES = 64
MOST_ROWS = 32


class Piece(NamedTuple):
    """The part of a stretch that stands in one row."""

    row: int
    x: float  # from the bar's left end
    width: float
    first: bool
    last: bool


class Wrap(NamedTuple):
    """A bar of `length` bytes, `per_row` bytes a row."""

    length: int
    per_row: int

    @property
    def rows(self) -> int:
        return -(-self.length // self.per_row)

    @property
    def scale(self) -> float:
        """Pixels a byte."""
        return BAR_WIDTH / self.per_row

    def pieces(self, start: int, end: int) -> Iterator[Piece]:
        """The stretch from start to end, row by row; none if it is empty."""
        at = start
        while at < end:
            row = at // self.per_row
            stop = min(end, (row + 1) * self.per_row)
            yield Piece(row, (at - row * self.per_row) * self.scale,
                        (stop - at) * self.scale, at == start, stop == end)
            at = stop


def wrap(length: int, sizes: Sequence[int]) -> Wrap:
    """Rows so short that small blocks are seen, and not too many of them."""
    # Nine of ten blocks are at least this big.
    small = sorted(sizes)[len(sizes) // 10] if sizes else length
    per_row = FEWEST_BYTES
    while 2 * per_row * SMALL_WIDTH <= BAR_WIDTH * small:
        per_row *= 2
    while per_row * MOST_ROWS < length:
        per_row *= 2
    # A zone that fits one row fills it.
    return Wrap(length, min(per_row, length))
