"""A damaged image as text: what was read before its fault, and the bytes
where it stands."""

from typing import Iterator

from . import dump, table
from .content import ZonePart
from .format import HEADER_LENGTH
from .rules import LENGTH_BUFFER


def lines(part: ZonePart) -> Iterator[str]:
    """All lines of the print, without line ends; none says what the fault is.
    """
    if len(part.data) >= HEADER_LENGTH:
        yield table.header_line(part)
        yield ""
        yield from table.block_lines(part, _title(part))
        yield ""
    if part.fault is not None and part.data:
        yield "bytes at the fault:"
        yield from dump.around(part.data, part.fault.offset)


def _title(part: ZonePart) -> str:
    cut = part.fault is not None and part.fault.rule == LENGTH_BUFFER
    return "blocks before the cut" if cut else "blocks before the fault"
