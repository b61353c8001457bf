"""A mill's strata side by side: how many free blocks there are in each."""

from typing import Sequence

from . import palette
from .census import Stratum
from .svg import Drawing

LINE = 20
COLUMNS = 2
MEASURE = 140.0  # width of the largest count


def draw_strata(drawing: Drawing, strata: Sequence[Stratum], x: float,
                y: float, width: float) -> float:
    """Draw the panel from (x, y); answers where it ends below."""
    drawing.text(x, y + 12, "Free blocks by the mill's limits", 14,
                 palette.INK, bold=True)
    lines = -(-len(strata) // COLUMNS)
    largest = max(stratum.count for stratum in strata)
    top = y + 34
    for place, stratum in enumerate(strata):
        column, line = divmod(place, lines)
        _stratum_line(drawing, stratum, largest, x + column * width / COLUMNS,
                      top + line * LINE)
    return top + lines * LINE


def _stratum_line(drawing: Drawing, stratum: Stratum, largest: int, x: float,
                  y: float) -> None:
    drawing.text(x + 46, y, f"{_range(stratum)} bytes", 11, palette.FAINT)
    bar = x + 230
    drawing.line(bar, y - 11, bar, y + 3, palette.FAINT)
    if stratum.count:
        drawing.rect(bar, y - 9, MEASURE * stratum.count / largest, 10,
                     palette.FREE)
    drawing.text(bar + MEASURE + 10, y, f"{stratum.count:,}", 11, palette.INK)


def _range(stratum: Stratum) -> str:
    if stratum.most is None:
        return f"{stratum.least:,} and more"
    return f"{stratum.least:,} to {stratum.most:,}"
