"""The bays side by side: each sum, and how much of it lies in one piece."""

from typing import List, Sequence, Tuple

from . import palette
from .bays import Bay
from .svg import Drawing

MOST_LISTED = 40
FEW_BAYS = 8  # so many are listed whatever their sums
LINE = 20
MEASURE = 140.0  # width of the largest sum


def draw_panel(drawing: Drawing, bays: Sequence[Bay], x: float, y: float,
               width: float) -> float:
    """Draw the panel from (x, y); answers where it ends below."""
    drawing.text(x, y + 12, "Bays", 14, palette.INK, bold=True)
    _key(drawing, x + 52, y + 12)
    listed = _listed(bays)
    columns = 2 if len(listed) > 4 else 1
    lines = -(-len(listed) // columns)
    largest = max((bay.sum for bay in bays), default=0)
    top = y + 34
    for place, (index, bay) in enumerate(listed):
        column, line = divmod(place, lines)
        _bay_line(drawing, index, bay, largest,
                  x + column * width / 2, top + line * LINE)
    end = top + lines * LINE
    if len(listed) < len(bays):
        words = _not_listed(len(bays) - len(listed), listed, bays)
        drawing.text(x + 46, end, words, 11, palette.FAINT)
        end += LINE
    return end


def _listed(bays: Sequence[Bay]) -> List[Tuple[int, Bay]]:
    """The bays with the largest sums, in address order."""
    pairs = list(enumerate(bays))
    if len(bays) > FEW_BAYS:
        pairs = [pair for pair in pairs if pair[1].sum]
    pairs.sort(key=lambda pair: -pair[1].sum)
    return sorted(pairs[:MOST_LISTED])


def _not_listed(number: int, listed: Sequence[Tuple[int, Bay]],
                bays: Sequence[Bay]) -> str:
    words = f"{number:,} more {'bay' if number == 1 else 'bays'} "
    if sum(bay.sum for bay in bays) == sum(bay.sum for _, bay in listed):
        return words + "with sum 0"
    return words + "with sums no larger than these"


def _key(drawing: Drawing, x: float, y: float) -> None:
    drawing.rect(x, y - 10, 14, 11, palette.FREE)
    drawing.text(x + 20, y, "largest free block of the bay", 11)
    drawing.rect(x + 210, y - 10, 14, 11, palette.APART)
    drawing.text(x + 230, y, "scatter: the rest of its sum", 11)


def _bay_line(drawing: Drawing, index: int, bay: Bay, largest: int, x: float,
              y: float) -> None:
    drawing.text(x + 34, y, f"{index}", 11, palette.INK, "end", bold=True)
    drawing.text(x + 46, y, f"{bay.start:,} to {bay.end:,}", 11, palette.FAINT)
    _measure(drawing, bay, largest, x + 190, y)
    blocks = "block" if bay.pieces == 1 else "blocks"
    words = f"sum {bay.sum:,}"
    if bay.sum:
        words += f" in {bay.pieces:,} {blocks}"
    drawing.text(x + 190 + MEASURE + 10, y, words, 11, palette.INK)


def _measure(drawing: Drawing, bay: Bay, largest: int, x: float,
             y: float) -> None:
    drawing.line(x, y - 11, x, y + 3, palette.FAINT)
    if largest == 0:
        return
    one_piece = MEASURE * bay.largest / largest
    apart = MEASURE * bay.apart / largest
    drawing.rect(x, y - 9, one_piece, 10, palette.FREE)
    drawing.rect(x + one_piece, y - 9, apart, 10, palette.APART)
