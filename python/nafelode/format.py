"""The bytes of a zone: header fields, limits and block types.

They are document 01's; pages and the clock are document 02's (U5), which calls
a page a named block, and a fixed block's header of 4 bytes is, too (U6).
"""

import operator
from enum import IntEnum
from typing import NamedTuple, Optional

HEADER_LENGTH = 16
MASTER_LENGTH = 4
WORD = 2  # sizes are stored in 2-byte words

LENGTH_LIMIT = 1_048_576
MASTER_LIMIT = 8_188

# Where the header's fields stand.
AT_LENGTH = 0
AT_BK_FST = 4
AT_M = 8
AT_H_FST_FREE = 12
AT_CLOCK = 14
AT_ZERO = 15

SIZE_BITS = 0x3FFF  # the 14-bit size of all blocks but free ones

# A block's second word: a relocatable one's handle, zero in a fixed one.
AT_SECOND_WORD = 2

# Where a page's name and status word stand in its block, and the word's bits.
AT_NAME = 2
AT_STATUS = 6
DIRTY = 0x8000
LOCK = 0x4000
STATUS_ZEROS = 0x3F00
STAMP = 0x00FF
AGES = 256  # ages and clock count modulo this


class BlockType(IntEnum):
    """A block's first two bits; header lengths belong to the type."""

    FREE = 0
    FIXED = 1
    RELOCATABLE = 2
    PAGE = 3

    @property
    def header_length(self) -> int:
        return _HEADER_LENGTHS[self]

    @property
    def least_size(self) -> int:
        return 8 if self is BlockType.PAGE else 4


_HEADER_LENGTHS = {BlockType.FREE: 4, BlockType.FIXED: 4,
                   BlockType.RELOCATABLE: 4, BlockType.PAGE: 8}


class Header(NamedTuple):
    """The header's numbers; byte 15 is zero and carries none."""

    length: int  # L
    bk_fst: int
    m: int
    h_fst_free: int
    clock: int

    def is_master(self, offset: int) -> bool:
        """Whether a master stands at this offset."""
        past = HEADER_LENGTH + MASTER_LENGTH * self.m
        return HEADER_LENGTH <= offset < past and offset % MASTER_LENGTH == 0


class Page(NamedTuple):
    """What a page's header says; the age is that by the zone's clock."""

    name: int
    dirty: bool
    lock: bool
    stamp: int
    age: int

    @property
    def flags(self) -> str:
        """In words, for whoever reads a print or a map."""
        words = ("dirty", self.dirty), ("lock", self.lock)
        return " ".join(word for word, there in words if there)


class Block(NamedTuple):
    """One block. A free block holds no data: data offset None, data size 0."""

    offset: int
    type: BlockType
    size: int  # with the block's header
    handle: Optional[int]  # relocatable blocks only
    page: Optional[Page] = None  # pages only

    @property
    def end(self) -> int:
        return self.offset + self.size

    @property
    def data_offset(self) -> Optional[int]:
        if self.type is BlockType.FREE:
            return None
        return self.offset + self.type.header_length

    @property
    def data_size(self) -> int:
        if self.type is BlockType.FREE:
            return 0
        return self.size - self.type.header_length

    @property
    def pointer(self) -> Optional[int]:
        """A fixed block's pointer: its data offset; its end if it has none."""
        return self.data_offset if self.type is BlockType.FIXED else None

    @property
    def name(self) -> Optional[int]:
        """A page's name."""
        return None if self.page is None else self.page.name

    @property
    def target(self) -> str:
        """Its handle, pointer or name, in words; a free block has none."""
        for what, key in (("handle", self.handle),
                              ("pointer", self.pointer), ("name", self.name)):
            if key is not None:
                return f"{what} {key}"
        return "-"


def number(data: bytes, at: int, width: int) -> int:
    """The number of `width` bytes at offset `at`, high byte first."""
    return int.from_bytes(data[at:at + width], "big")


def whole(value: object, what: str) -> int:
    """The whole number that a caller gives.

    Another type is the caller's mistake and a TypeError, which says why;
    ZoneError is for bytes.
    """
    try:
        return operator.index(value)  # type: ignore[arg-type]
    except TypeError:
        raise TypeError(f"{what} is a whole number, and {value!r} is of type "
                        f"{type(value).__name__}") from None
