"""A block byte by byte, and the bytes around a place, in hexadecimal."""

from typing import Iterator

from .content import Content
from .format import Block

LINE = 16  # bytes a line
GROUP = 4


def block_lines(content: Content, block: Block) -> Iterator[str]:
    """What the block is, then all of its data."""
    yield (f"{block.target}: {_kind(block)} at {block.offset}, size "
           f"{block.size}; {block.data_size} data bytes from "
           f"{block.data_offset}")
    data = content.read_block(block)
    if data:
        yield f"  {'in data':>7}  {'in zone':>7}  {'bytes':35}  text"
    for at in range(0, len(data), LINE):
        yield (f"  {at:7}  {block.end - len(data) + at:7}  "
               f"{_bytes(data[at:at + LINE])}")


def _kind(block: Block) -> str:
    page = block.page
    if page is None:
        return f"{block.type.name.lower()} block"
    flags = f", {page.flags}" if page.flags else ""
    return f"page (age {page.age}{flags})"


def around(data: bytes, offset: int) -> Iterator[str]:
    """The line of bytes that a place stands in, with its neighbours."""
    first = offset - offset % LINE
    for at in range(max(0, first - LINE), first + 2 * LINE, LINE):
        if at < len(data):
            mark = ">" if at == first else " "
            yield f"{mark} {at:7}  {_bytes(data[at:at + LINE])}"


def _bytes(part: bytes) -> str:
    groups = " ".join(part[i:i + GROUP].hex().upper()
                      for i in range(0, len(part), GROUP))
    text = "".join(chr(b) if 0x20 <= b < 0x7F else "." for b in part)
    return f"{groups:35}  {text}"
