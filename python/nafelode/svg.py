"""A few SVG elements as text."""

from typing import List, Optional, Sequence, Tuple
from xml.sax.saxutils import escape, quoteattr

# A rough width of one sans-serif character, in parts of the font size.
CHARACTER = 0.58


def text_width(text: str, size: float) -> float:
    """About how wide a text comes out, on the safe side."""
    return len(text) * size * CHARACTER


def fitting(choice: Sequence[str], size: float, room: float) -> str:
    """The first of the choice that fits the room, or nothing."""
    fits = (words for words in choice if text_width(words, size) <= room)
    return next(fits, "")


def _n(value: float) -> str:
    """A coordinate in few characters."""
    return f"{value:.2f}".rstrip("0").rstrip(".")


class Drawing:
    """Elements in the order they are painted."""

    def __init__(self, width: float) -> None:
        self.width = width
        self._parts: List[str] = []

    def add(self, part: str) -> None:
        self._parts.append(part)

    def rect(self, x: float, y: float, width: float, height: float,
             fill: str, tip: Optional[str] = None, extra: str = "") -> None:
        head = (f'<rect x="{_n(x)}" y="{_n(y)}" width="{_n(width)}" '
                f'height="{_n(height)}" fill={quoteattr(fill)}{extra}')
        if tip is None:
            self.add(head + "/>")
        else:
            self.add(f"{head}><title>{escape(tip)}</title></rect>")

    def polygon(self, points: Sequence[Tuple[float, float]], fill: str,
                tip: Optional[str] = None, extra: str = "") -> None:
        places = " ".join(f"{_n(x)},{_n(y)}" for x, y in points)
        head = f'<polygon points="{places}" fill={quoteattr(fill)}{extra}'
        if tip is None:
            self.add(head + "/>")
        else:
            self.add(f"{head}><title>{escape(tip)}</title></polygon>")

    def line(self, x1: float, y1: float, x2: float, y2: float,
             stroke: str, width: float = 1) -> None:
        self.add(f'<line x1="{_n(x1)}" y1="{_n(y1)}" x2="{_n(x2)}" '
                 f'y2="{_n(y2)}" stroke="{stroke}" '
                 f'stroke-width="{_n(width)}"/>')

    def text(self, x: float, y: float, words: str, size: float = 11,
             fill: str = "#22303a", anchor: str = "start",
             bold: bool = False) -> None:
        weight = ' font-weight="600"' if bold else ""
        place = "" if anchor == "start" else f' text-anchor="{anchor}"'
        self.add(f'<text x="{_n(x)}" y="{_n(y)}" font-size="{_n(size)}" '
                 f'fill="{fill}"{place}{weight}>{escape(words)}</text>')

    def finish(self, height: float, defs: str = "") -> str:
        """The whole document; its height is known only at the end."""
        size = f'width="{_n(self.width)}" height="{_n(height)}"'
        box = f'viewBox="0 0 {_n(self.width)} {_n(height)}"'
        head = (f'<svg xmlns="http://www.w3.org/2000/svg" {size} {box} '
                f'font-family="DejaVu Sans, Verdana, Helvetica, sans-serif">')
        ground = '<rect width="100%" height="100%" fill="#ffffff"/>'
        return "\n".join([head, defs, ground, *self._parts, "</svg>", ""])
