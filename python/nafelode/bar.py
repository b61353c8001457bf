"""The zone drawn as a bar, wrapped over rows, with its bays marked below."""

from itertools import groupby
from typing import Dict, Iterator, NamedTuple, Sequence, Tuple

from . import palette
from .format import (
    HEADER_LENGTH,
    MASTER_LENGTH,
    Block,
    BlockType,
    Page,
    number,
)
from .rows import Piece, Wrap
from .svg import Drawing, fitting
from .zone import Zone

LEAST_WIDTH = 1.0  # narrower stretches are widened, so that none is lost
BAY_STRIP = 19  # room for a bay's bracket and words below the bar
GAP = 8  # between rows
FEW_MASTERS = 16  # so many are drawn one by one
FRAME_ROOM = 2.4  # a frame's own width


class Stretch(NamedTuple):
    """A coloured part of the bar.

    `names` and `sizes` are words for it, longest first: of each the first
    that fits is written, if any does. Where a row has but one line of words,
    those in `alone` are tried before the names.
    """

    start: int
    end: int
    fill: str
    tip: str
    names: Sequence[str]
    sizes: Sequence[str]
    alone: Sequence[str] = ()
    framed: bool = False


class Bar:
    """Where the rows stand on the drawing; `below` is the room below each."""

    def __init__(self, drawing: Drawing, wrap: Wrap, x: float, y: float,
                 thick: float, below: float = BAY_STRIP + GAP) -> None:
        self.drawing = drawing
        self.wrap = wrap
        self.x = x
        self.y = y
        self.thick = thick
        self.pitch = thick + below
        self._latest: Dict[str, Tuple[int, int]] = {}

    @property
    def two_lines(self) -> bool:
        """Whether names and sizes find room one above the other."""
        return self.thick > 30

    @property
    def end(self) -> float:
        return self.y + self.wrap.rows * self.pitch

    def row_y(self, row: int) -> float:
        return self.y + row * self.pitch

    # -- stretches -----------------------------------------------------------

    def ground(self) -> None:
        for piece in self.wrap.pieces(0, self.wrap.length):
            self.drawing.rect(self.x + piece.x, self.row_y(piece.row),
                              piece.width, self.thick, "#eef1f3")

    def paint(self, stretch: Stretch) -> None:
        widest = None
        for piece in self.wrap.pieces(stretch.start, stretch.end):
            self._paint_piece(stretch, piece)
            if widest is None or piece.width > widest.width:
                widest = piece
        if widest is not None:
            self._label(stretch, widest)

    def seen(self, mark: str, row: int, x: float) -> bool:
        """Whether such a mark stands on this pixel already."""
        pixel = row, int(x)
        seen = self._latest.get(mark) == pixel
        self._latest[mark] = pixel
        return seen

    def _paint_piece(self, stretch: Stretch, piece: Piece) -> None:
        # Without this a zone of 200,000 blocks is drawn, but never shown.
        if piece.width < LEAST_WIDTH / 2 \
                and self.seen(stretch.fill, piece.row, piece.x):
            return
        # A thin gap parts neighbours where there is room for one.
        gap = 0.8 if piece.last and piece.width > 3 else 0
        if stretch.framed and piece.width > 2 * FRAME_ROOM:
            self._paint_framed(stretch, piece)
            return
        self.drawing.rect(self.x + piece.x, self.row_y(piece.row),
                          max(piece.width - gap, LEAST_WIDTH), self.thick,
                          stretch.fill, stretch.tip)

    def _paint_framed(self, stretch: Stretch, piece: Piece) -> None:
        # The frame lies inside, so that it covers no neighbour.
        self.drawing.rect(self.x + piece.x + FRAME_ROOM / 2,
                          self.row_y(piece.row) + FRAME_ROOM / 2,
                          piece.width - FRAME_ROOM - 0.8,
                          self.thick - FRAME_ROOM, stretch.fill, stretch.tip,
                          palette.FRAME)

    def _label(self, stretch: Stretch, piece: Piece) -> None:
        size = 11 if self.two_lines else 10
        room = piece.width - 5 - (2 * FRAME_ROOM if stretch.framed else 0)
        if self.two_lines:
            words = [fitting(stretch.names, size, room),
                     fitting(stretch.sizes, size, room)]
        else:
            words = [fitting((*stretch.alone, *stretch.names), size, room)]
        if not words[0]:
            return  # a bare number could be a size or a handle
        words = [word for word in words if word]
        middle = self.x + piece.x + piece.width / 2
        base = self.row_y(piece.row) + self.thick / 2 + size * 0.36
        base -= 7 * (len(words) - 1)
        for word in words:
            self.drawing.text(middle, base, word, size,
                              palette.INK_ON[stretch.fill], "middle")
            base += 14

    # -- rulers --------------------------------------------------------------

    def offsets(self, which: str = "") -> None:
        """Each row's first offset on its left, after a word for the zone; L
        where the zone ends."""
        for row in range(self.wrap.rows):
            self.drawing.text(self.x - 8,
                              self.row_y(row) + self.thick / 2 + 4,
                              f"{which}{row * self.wrap.per_row:,}", 11,
                              palette.FAINT, "end")
        last = self.wrap.length - (self.wrap.rows - 1) * self.wrap.per_row
        x = self.x + last * self.wrap.scale
        y = self.row_y(self.wrap.rows - 1)
        self.drawing.line(x, y - 4, x, y + self.thick + 4, palette.INK, 1.5)
        self.drawing.text(x + 5, y + self.thick / 2 + 4, "L", 12, palette.INK,
                          bold=True)

    # -- bays ----------------------------------------------------------------

    def bay(self, index: int, start: int, end: int, free: int) -> None:
        """A bracket below the bay, with its sum where there is room."""
        if start == end:
            self._empty_bay(start)
        said = False
        for piece in self.wrap.pieces(start, end):
            if piece.width < 2:
                continue
            self._bracket(piece)
            if not said:
                said = self._bay_words(piece, (f"bay {index}: sum {free:,}",
                                               f"{index}: {free:,}"))
            else:
                self._bay_words(piece, (f"bay {index}",))

    def _empty_bay(self, at: int) -> None:
        # It stands behind a block or the masters, so at the end of their row.
        row = (at - 1) // self.wrap.per_row
        x = self.x + (at - row * self.wrap.per_row) * self.wrap.scale
        y = self.row_y(row) + self.thick
        if not self.seen("empty bay", row, x):
            self.drawing.line(x, y + 1, x, y + 7, palette.BAY, 1.6)

    def _bracket(self, piece: Piece) -> None:
        y = self.row_y(piece.row) + self.thick + 4
        left = self.x + piece.x + 0.8
        right = self.x + piece.x + piece.width - 0.8
        self.drawing.line(left, y, right, y, palette.BAY, 1.6)
        if piece.first:
            self.drawing.line(left, y - 3, left, y + 3, palette.BAY, 1.6)
        if piece.last:
            self.drawing.line(right, y - 3, right, y + 3, palette.BAY, 1.6)

    def _bay_words(self, piece: Piece, choice: Sequence[str]) -> bool:
        words = fitting(choice, 10, piece.width - 4)
        if words:
            self.drawing.text(self.x + piece.x + 4,
                              self.row_y(piece.row) + self.thick + 16,
                              words, 10, palette.BAY)
        return bool(words)


def draw_bar(drawing: Drawing, zone: Zone, wrap: Wrap, x: float,
             y: float) -> float:
    """Draw the zone's bar from (x, y); answers where it ends below."""
    bar = Bar(drawing, wrap, x, y, thickness(wrap.rows))
    bar.ground()
    for stretch in stretches(zone):
        bar.paint(stretch)
    for index, bay in enumerate(zone.bays):
        bar.bay(index, bay.start, bay.end, bay.sum)
    offset_word(drawing, x, y)
    bar.offsets()
    return bar.end


def thickness(rows: int) -> int:
    return 52 if rows <= 2 else 34 if rows <= 12 else 24


def offset_word(drawing: Drawing, x: float, y: float) -> None:
    """What the numbers left of a bar are."""
    drawing.text(x - 8, y - 6, "offset", 10, palette.FAINT, "end")


def stretches(zone: Zone) -> Iterator[Stretch]:
    yield Stretch(0, HEADER_LENGTH, palette.HEADER,
                  f"header: L {zone.length}, bkFst {zone.bk_fst}, m {zone.m}, "
                  f"hFstFree {zone.h_fst_free}, clock {zone.clock}",
                  ("header",), ("16 bytes",))
    if zone.m <= FEW_MASTERS:
        yield from _single_masters(zone)
    else:
        yield from _master_runs(zone)
    # Painted last, a small fixed or free block stays on top where stretches
    # are widened.
    for kind in (BlockType.RELOCATABLE, BlockType.PAGE, BlockType.FREE,
                 BlockType.FIXED):
        for block in zone.blocks:
            if block.type is kind:
                yield _block(block)


def _single_masters(zone: Zone) -> Iterator[Stretch]:
    for master in range(HEADER_LENGTH, zone.bk_fst, MASTER_LENGTH):
        held = number(zone.data, master, MASTER_LENGTH)
        free = master in zone.chain
        says = f"next {held}" if free else f"holds {held}"
        yield Stretch(master, master + MASTER_LENGTH, _master_fill(free),
                      f"{'free' if free else 'live'} master {master}, {says}",
                      (str(master),), (says,))


def _master_runs(zone: Zone) -> Iterator[Stretch]:
    """Runs of live and of free masters: single ones would be too narrow."""
    chain = set(zone.chain)
    masters = range(HEADER_LENGTH, zone.bk_fst, MASTER_LENGTH)
    for free, group in groupby(masters, lambda master: master in chain):
        run = list(group)
        words = f"{len(run)} {'free' if free else 'live'} masters"
        yield Stretch(run[0], run[-1] + MASTER_LENGTH, _master_fill(free),
                      f"{words}, {run[0]} to {run[-1]}", (words,), ())


def _master_fill(free: bool) -> str:
    return palette.MASTER_FREE if free else palette.MASTER_LIVE


def _block(block: Block) -> Stretch:
    if block.page is not None:
        return _page(block, block.page)
    kind = block.type.name.lower()
    tip = f"{kind} block at {block.offset}, size {block.size}"
    sizes = [f"{block.size:,} bytes", f"{block.size:,}"]
    if block.handle is not None:
        tip += f", handle {block.handle}"
        names = [f"handle {block.handle}", f"h {block.handle}"]
    elif block.pointer is not None:
        tip += f", pointer {block.pointer}"
        names = [f"pointer {block.pointer}", f"p {block.pointer}"]
    else:
        # Of a free block the size says most: it goes first.
        names, sizes = [f"free {block.size:,}", f"{block.size:,}"], []
    return Stretch(block.offset, block.end, palette.OF_TYPE[block.type], tip,
                   names, sizes)


def _page(block: Block, page: Page) -> Stretch:
    flags = f", {page.flags}" if page.flags else ""
    age = f"age {page.age}{flags}"
    name = f"page {page.name}"
    # Its age says more than its size; of its flags the colour and the frame
    # tell, too.
    return Stretch(block.offset, block.end,
                   palette.PAGE_DIRTY if page.dirty else palette.PAGE,
                   f"page at {block.offset}, size {block.size}, name "
                   f"{page.name}, {age}",
                   (name, f"n {page.name}"),
                   (f"{age}, {block.size:,} bytes", age, f"age {page.age}"),
                   (f"{name}, {age}", f"{name}, age {page.age}"), page.lock)
