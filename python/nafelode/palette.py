"""Colours of the map and its legend."""

from typing import Iterable, Tuple

from .format import BlockType
from .svg import Drawing

HEADER = "#39464f"
MASTER_LIVE = "#7a68b3"
MASTER_FREE = "#cdc4e8"
RELOCATABLE = "#7ba7cf"
PAGE = "#8fd18a"
PAGE_DIRTY = "url(#dirty)"
FIXED = "#a8324a"
FREE = "#f6c12f"
BAY = "#5c6f7b"
INK = "#22303a"
FAINT = "#73838d"
CHANGED = "#e8590c"  # bytes that are others than in an earlier zone
APART = "url(#apart)"  # free bytes outside their bay's largest free block

OF_TYPE = {
    BlockType.FREE: FREE,
    BlockType.FIXED: FIXED,
    BlockType.RELOCATABLE: RELOCATABLE,
    BlockType.PAGE: PAGE,
}

# Ink that can be read on each colour.
INK_ON = {HEADER: "#ffffff", MASTER_LIVE: "#ffffff", MASTER_FREE: INK,
          RELOCATABLE: INK, PAGE: INK, PAGE_DIRTY: INK, FIXED: "#ffffff",
          FREE: INK}

# A locked page has a frame.
FRAME = f' stroke="{INK}" stroke-width="2.4"'

DEFS = (
    '<defs><pattern id="apart" width="5" height="5" '
    'patternUnits="userSpaceOnUse" patternTransform="rotate(45)">'
    f'<rect width="5" height="5" fill="#fdf0c8"/>'
    f'<rect width="2" height="5" fill="{FREE}"/></pattern></defs>')

DIRTY_DEFS = (
    '<defs><pattern id="dirty" width="12" height="12" '
    'patternUnits="userSpaceOnUse" patternTransform="rotate(45)">'
    f'<rect width="12" height="12" fill="{PAGE}"/>'
    '<rect width="6" height="12" fill="#bfe6ba"/></pattern></defs>')

_ENTRIES = (
    (HEADER, "header"),
    (MASTER_LIVE, "live master"),
    (MASTER_FREE, "free master"),
    (RELOCATABLE, "relocatable block"),
    (FIXED, "fixed block"),
    (FREE, "free block"),
)

# In a line of their own, for zones with pages.
_PAGE_ENTRIES = (
    (PAGE, "", "page"),
    (PAGE_DIRTY, "", "dirty page"),
    (PAGE, FRAME, "locked page"),
)

_WORDS = ("h: handle; p: pointer; number in a free block: its size in bytes; "
          "what is narrower than a pixel is drawn one pixel wide")
_PAGE_WORDS = ("the number of a page is its name; n: the same; its age counts "
               "the creates and uses since its own")
LINE = 20


def legend(drawing: Drawing, x: float, y: float, pages: bool,
           bays: bool = True) -> float:
    """Swatches with their names, baseline at y, and a line of words.

    Answers the baseline of the last line.
    """
    right = swatches(drawing, x, y, [(fill, "", words)
                                     for fill, words in _ENTRIES])
    if bays:
        _bracket(drawing, right, y)
        drawing.text(right + 30, y, "bay (a tick alone: an empty one)", 12)
    if pages:
        y += LINE
        right = swatches(drawing, x, y, _PAGE_ENTRIES)
        drawing.text(right, y, _PAGE_WORDS, 11, FAINT)
    y += 18
    drawing.text(x, y, _WORDS, 11, FAINT)
    return y


def swatches(drawing: Drawing, x: float, y: float,
             entries: Iterable[Tuple[str, str, str]]) -> float:
    """Fill, attributes and words of each; answers where they end."""
    for fill, extra, words in entries:
        drawing.rect(x, y - 10, 14, 12, fill, extra=extra)
        drawing.text(x + 20, y, words, 12)
        x += 20 + 7.2 * len(words) + 22
    return x


def _bracket(drawing: Drawing, x: float, y: float) -> None:
    drawing.line(x, y - 4, x + 24, y - 4, BAY, 2)
    drawing.line(x, y - 9, x, y - 3, BAY, 2)
    drawing.line(x + 24, y - 9, x + 24, y - 3, BAY, 2)
