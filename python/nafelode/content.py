"""What was read of an image: numbers, blocks, and each block by its key.

A well-formed image gives a Zone (zone.py), which has all of it; of a damaged
one a ZonePart has what stands before the fault.
"""

from typing import Dict, Optional, Tuple

from . import rules
from .check import Image, Reading, read_image
from .format import Block, BlockType, Page, whole
from .rules import ZoneError


class Content:
    """The header's numbers, the chain of free masters and the blocks."""

    def __init__(self, reading: Reading) -> None:
        self.data: bytes = reading.data
        (self.length, self.bk_fst, self.m, self.h_fst_free,
         self.clock) = reading.header
        self.blocks: Tuple[Block, ...] = reading.blocks
        self.chain: Tuple[int, ...] = reading.chain
        self._by_handle: Dict[int, Block] = {}
        self._by_pointer: Dict[int, Block] = {}
        self._by_name: Dict[int, Block] = {}
        for block in self.blocks:
            if block.handle is not None:
                self._by_handle[block.handle] = block
            elif block.pointer is not None:
                self._by_pointer[block.pointer] = block
            elif block.name is not None:
                self._by_name[block.name] = block

    # -- all blocks --------------------------------------------------------

    @property
    def handles(self) -> Tuple[int, ...]:
        """The live handles, rising."""
        return tuple(sorted(self._by_handle))

    @property
    def pointers(self) -> Tuple[int, ...]:
        """The fixed blocks' pointers, rising."""
        return tuple(self._by_pointer)

    @property
    def names(self) -> Tuple[int, ...]:
        """The pages' names, rising."""
        return tuple(sorted(self._by_name))

    @property
    def pages(self) -> Tuple[Page, ...]:
        """Name, flags, stamp and age of each page, by address."""
        return tuple(block.page for block in self.blocks
                     if block.page is not None)

    @property
    def live_handles(self) -> int:
        """The number of live handles, which is that of relocatable blocks."""
        return len(self._by_handle)

    def count(self, kind: BlockType) -> int:
        """The number of blocks of one type."""
        return sum(1 for block in self.blocks if block.type is kind)

    # -- one block ---------------------------------------------------------

    def by_handle(self, handle: int) -> Block:
        """The relocatable block of a live handle."""
        handle = whole(handle, "a handle")
        block = self._by_handle.get(handle)
        if block is None:
            raise ZoneError(rules.HANDLE_NOT_LIVE, handle,
                            f"{handle} is no live handle")
        return block

    def by_pointer(self, pointer: int) -> Block:
        """The fixed block of a pointer."""
        pointer = whole(pointer, "a pointer")
        block = self._by_pointer.get(pointer)
        if block is None:
            raise ZoneError(rules.NOT_A_POINTER, pointer,
                            f"no fixed block has pointer {pointer}")
        return block

    def by_name(self, name: int) -> Block:
        """The page of a name."""
        name = whole(name, "a name")
        block = self._by_name.get(name)
        if block is None:
            raise ZoneError(rules.NAME_ABSENT, name,
                            f"no page has name {name}")
        return block

    def read_handle(self, handle: int, offset: int = 0,
                    count: Optional[int] = None) -> bytes:
        """Data bytes of a live handle's block: all, or those of a stretch."""
        return self.read_block(self.by_handle(handle), offset, count)

    def read_pointer(self, pointer: int, offset: int = 0,
                     count: Optional[int] = None) -> bytes:
        """Data bytes of a pointer's block: all, or those of a stretch."""
        return self.read_block(self.by_pointer(pointer), offset, count)

    def read_name(self, name: int, offset: int = 0,
                  count: Optional[int] = None) -> bytes:
        """Data bytes of a page: all, or those of a stretch."""
        return self.read_block(self.by_name(name), offset, count)

    def read_block(self, block: Block, offset: int = 0,
                   count: Optional[int] = None) -> bytes:
        """Data bytes of one of these blocks; a free one has none."""
        offset = whole(offset, "an offset")
        if count is None:
            count = max(block.data_size - offset, 0)
        count = whole(count, "a count")
        if offset < 0 or count < 0 or offset + count > block.data_size:
            raise ZoneError(rules.PAST_DATA, block.end,
                            f"offset {offset} and count {count}, the block at "
                            f"{block.offset} has data size {block.data_size}")
        start = block.end - block.data_size + offset
        return self.data[start:start + count]


class ZonePart(Content):
    """An image read as far as it obeys the rules.

    `fault` is the first broken rule, or None where there is none. Blocks of an
    image that was cut off, which is shorter than L, are there up to the cut.
    """

    def __init__(self, image: Image) -> None:
        reading = read_image(image)
        super().__init__(reading)
        self.fault: Optional[ZoneError] = reading.fault
