"""Ribbons between two bars: what became of each block."""

from typing import List, NamedTuple, Optional, Tuple

from . import palette
from .bar import LEAST_WIDTH, Bar
from .diff import Change
from .format import Block
from .rows import Piece
from .svg import fitting

ALIKE = "#dde4e8"
WENT = "#c8371f"
CAME = "#1f8a4c"
CLEAR = ' fill-opacity="0.45"'
PARTED = ' stroke="#ffffff" stroke-width="0.8"'  # neighbours are told apart
STUB = 0.45  # how far a ribbon goes that has but one end in a row


class Span(NamedTuple):
    """From left to right, at the edge of a bar that faces the other one."""

    left: float
    right: float
    y: float

    @property
    def width(self) -> float:
        return self.right - self.left

    def point(self, y: float) -> "Span":
        """Where it closes to a point."""
        middle = (self.left + self.right) / 2
        return Span(middle, middle, y)


def draw_ribbon(upper: Bar, lower: Bar, change: Change) -> None:
    """The ribbon of a block, in each row that it stands in.

    It runs from the upper bar to the lower one; it closes where the block
    went, opens where it came, and ends early where the row is another.
    """
    above = _pieces(upper, change.before)
    below = _pieces(lower, change.after)
    for row in sorted({piece.row for piece in above + below}):
        top = _span(upper, above, row, upper.thick)
        foot = _span(lower, below, row, 0)
        start, end, words = _ends(upper, lower, row, top, foot, change)
        _paint(upper, row, start, end, change)
        if words:
            # Beyond the end that is in no bar.
            _write(upper, end if foot is None else start,
                   9 if foot is None else -3, words)


def fill_of(change: Change) -> str:
    if change.after is None:
        return WENT
    if change.before is None:
        return CAME
    if change.slid or change.grown:
        return palette.OF_TYPE[change.after.type]
    return ALIKE


def _pieces(bar: Bar, block: Optional[Block]) -> List[Piece]:
    if block is None:
        return []
    return list(bar.wrap.pieces(block.offset, block.end))


def _span(bar: Bar, pieces: List[Piece], row: int,
          down: float) -> Optional[Span]:
    for piece in pieces:
        if piece.row == row:
            return Span(bar.x + piece.x, bar.x + piece.x + piece.width,
                        bar.row_y(row) + down)
    return None


def _ends(upper: Bar, lower: Bar, row: int, top: Optional[Span],
          foot: Optional[Span], change: Change) -> Tuple[Span, Span, str]:
    """Where the ribbon starts and ends in a row, and words where it stops."""
    if top is not None and foot is not None:
        return top, foot, ""
    high = upper.row_y(row) + upper.thick
    low = lower.row_y(row)
    part = (low - high) * STUB
    if top is not None:
        if change.after is None:
            return top, top.point(high + part), ""
        return (top, top._replace(y=high + part),
                f"to {change.after.offset:,}")
    assert foot is not None
    if change.before is None:
        return foot.point(low - part), foot, ""
    return (foot._replace(y=low - part), foot,
            f"from {change.before.offset:,}")


def _paint(bar: Bar, row: int, start: Span, end: Span,
           change: Change) -> None:
    fill = fill_of(change)
    # Without this a zone of 200,000 blocks is drawn, but never shown.
    if max(start.width, end.width) < LEAST_WIDTH / 2 \
            and bar.seen("ribbon" + fill, row, start.left):
        return
    words = ", ".join(change.words) or "alike"
    bar.drawing.polygon([(start.left, start.y), (start.right, start.y),
                         (end.right, end.y), (end.left, end.y)], fill,
                        f"{change.target}: {words}",
                        PARTED + ("" if fill == ALIKE else CLEAR))


def _write(bar: Bar, span: Span, down: float, words: str) -> None:
    word = fitting((words,), 9, span.width)
    if word:
        bar.drawing.text((span.left + span.right) / 2, span.y + down, word, 9,
                         palette.FAINT, "middle")
