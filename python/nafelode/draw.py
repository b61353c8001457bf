"""The map of a zone: one SVG with the bar, a legend and the bays."""

from typing import List, Optional

from . import palette
from .bar import draw_bar
from .check import Image
from .format import BlockType
from .panel import draw_panel
from .rows import BAR_WIDTH, wrap
from .strata import draw_strata
from .svg import Drawing
from .zone import Zone

LEFT = 84
RIGHT = 36
WIDTH = LEFT + BAR_WIDTH + RIGHT


def draw(zone: Zone, name: str = "", limits: Optional[Image] = None) -> str:
    """The whole SVG document; `name` says what image was read.

    With a mill's own limits the census by them stands below the bays.
    """
    drawing = Drawing(WIDTH)
    y = 34.0
    title = f"Zone of {zone.length:,} bytes"
    drawing.text(LEFT, y, title + (f" \u2014 {plain(name)}" if name else ""),
                 18, bold=True)
    for line in _facts(zone):
        y += 19
        drawing.text(LEFT, y, line, 12)
    y = palette.legend(drawing, LEFT, y + 28, bool(zone.pages))
    rows = wrap(zone.length, [block.size for block in zone.blocks])
    y = draw_bar(drawing, zone, rows, LEFT, y + 24)
    y = draw_panel(drawing, zone.bays, LEFT, y + 10, BAR_WIDTH)
    if limits:
        y = draw_strata(drawing, zone.strata(limits), LEFT, y + 10, BAR_WIDTH)
    patterns = palette.DEFS + (palette.DIRTY_DEFS if zone.pages else "")
    return drawing.finish(y + 10, patterns)


def _facts(zone: Zone) -> List[str]:
    total, largest_bay = zone.sum()
    scatter = zone.scatter()
    return [
        f"blocks: {zone.count(BlockType.RELOCATABLE):,} relocatable, "
        f"{_page_words(zone)}{zone.count(BlockType.FIXED):,} fixed, "
        f"{scatter.pieces:,} free; masters: {zone.live_handles:,} live, "
        f"{len(zone.chain):,} free; clock: {zone.clock}",
        f"free bytes: {total:,}, largest bay's sum {largest_bay:,}, largest "
        f"free block {scatter.largest:,}; scatter: {scatter.apart:,} (free "
        f"bytes outside the largest free block of their bay)",
    ]


def _page_words(zone: Zone) -> str:
    pages = zone.pages
    if not pages:
        return ""
    dirty = sum(page.dirty for page in pages)
    locked = sum(page.lock for page in pages)
    return f"{len(pages):,} pages ({dirty:,} dirty, {locked:,} locked), "


def plain(name: str) -> str:
    """A file's name may hold what no SVG may."""
    return "".join(c if c.isprintable() else "?" for c in name)
