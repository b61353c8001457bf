"""The map of two zones: one SVG, a row of a above the same row of b, with a
ribbon for each block between them."""

from typing import Dict, Sequence

from . import palette, ribbon
from .bar import LEAST_WIDTH, Bar, Stretch, offset_word, stretches, thickness
from .diff import Change
from .diff_table import summary
from .draw import LEFT, WIDTH, plain
from .rows import Wrap, wrap
from .svg import Drawing
from .zone import Zone

BETWEEN = 40  # room for the ribbons of a row
BELOW = 26  # to the next row
STRIP = 6  # where bytes have changed

_RIBBONS = (
    (ribbon.ALIKE, "", "stands where it stood"),
    (palette.RELOCATABLE, ribbon.CLEAR, "slid, grew or shrank"),
    (ribbon.WENT, ribbon.CLEAR, "went"),
    (ribbon.CAME, ribbon.CLEAR, "came"),
    (palette.CHANGED, "", "bytes changed"),
)


def draw_both(a: Zone, b: Zone, changes: Sequence[Change], a_name: str = "",
              b_name: str = "") -> str:
    """The whole SVG document; the names say what images were read."""
    drawing = Drawing(WIDTH)
    y = _head(drawing, a, b, changes, plain(a_name), plain(b_name))
    pages = bool(a.pages or b.pages)
    y = palette.legend(drawing, LEFT, y + 28, pages, bays=False) + palette.LINE
    right = palette.swatches(drawing, LEFT, y, _RIBBONS)
    drawing.text(right, y, "a ribbon that ends early: the block is in another "
                 "row", 11, palette.FAINT)
    offset_word(drawing, LEFT, y + 28)
    y = _bars(drawing, a, b, changes, y + 28)
    patterns = palette.DEFS + (palette.DIRTY_DEFS if pages else "")
    return drawing.finish(y, patterns)


def _head(drawing: Drawing, a: Zone, b: Zone, changes: Sequence[Change],
          a_name: str, b_name: str) -> float:
    y = 34.0
    drawing.text(LEFT, y, "Two zones", 18, bold=True)
    for which, name, zone in (("a", a_name, a), ("b", b_name, b)):
        y += 19
        total, largest = zone.sum()
        drawing.text(LEFT, y, f"{which}: {name + ', ' if name else ''}"
                     f"{zone.length:,} bytes; free bytes: {total:,}, largest "
                     f"bay's sum {largest:,}; masters: {zone.live_handles:,} "
                     f"live, {len(zone.chain):,} free; clock: {zone.clock}",
                     12)
    drawing.text(LEFT, y + 19, summary(changes), 12)
    return y + 19


def _bars(drawing: Drawing, a: Zone, b: Zone, changes: Sequence[Change],
          y: float) -> float:
    """Draw the rows from y; answers where they end below."""
    both = wrap(max(a.length, b.length),
                [block.size for zone in (a, b) for block in zone.blocks])
    thick = thickness(both.rows)
    below = BETWEEN + thick + BELOW
    upper = Bar(drawing, Wrap(a.length, both.per_row), LEFT, y, thick, below)
    lower = Bar(drawing, Wrap(b.length, both.per_row), LEFT,
                y + thick + BETWEEN, thick, below)
    # Alike blocks first, so that their ribbons lie below the others.
    for change in sorted(changes, key=lambda change: bool(change.words)):
        ribbon.draw_ribbon(upper, lower, change)
    # In a the words say what went, in b all else.
    went = {change.before.offset: change for change in changes
            if change.before is not None and change.after is None}
    after = {change.after.offset: change for change in changes
             if change.after is not None}
    for bar, zone, known, which in ((upper, a, went, "a "),
                                    (lower, b, after, "b ")):
        bar.ground()
        for stretch in stretches(zone):
            bar.paint(_told(stretch, known))
        bar.offsets(which)
    for change in after.values():
        _strip(lower, change)
    return y + both.rows * (thick + below)


def _told(stretch: Stretch, known: Dict[int, Change]) -> Stretch:
    """With what became of the block, in words."""
    change = known.get(stretch.start)
    if change is None or not change.words:
        return stretch
    words = ", ".join(_long(change))
    return stretch._replace(
        tip=f"{stretch.tip}: {words}",
        sizes=(words, ", ".join(change.words), *stretch.sizes),
        alone=[f"{name}, {words}" for name in stretch.names])


def _long(change: Change) -> Sequence[str]:
    """What became of the block, with numbers."""
    bytes_ = "byte" if change.changed == 1 else "bytes"
    longer = {"slid": f"slid {change.slid:+,}",
              "grew": f"grew {change.grown:+,}",
              "shrank": f"shrank {change.grown:+,}",
              "bytes changed": f"{change.changed:,} {bytes_} changed"}
    return [longer.get(word, word) for word in change.words]


def _strip(bar: Bar, change: Change) -> None:
    block = change.after
    if block is None or block.data_offset is None:
        return
    for start, end in change.runs:
        for piece in bar.wrap.pieces(block.data_offset + start,
                                     block.data_offset + end):
            if piece.width < LEAST_WIDTH / 2 \
                    and bar.seen("strip", piece.row, piece.x):
                continue
            bar.drawing.rect(bar.x + piece.x,
                             bar.row_y(piece.row) + bar.thick - STRIP,
                             max(piece.width, LEAST_WIDTH), STRIP,
                             palette.CHANGED)
