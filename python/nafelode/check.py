"""Well-formedness, exactly as document 01 has it, with document 02's pages and
header of fixed blocks.

When several rules are broken, the first in reading order is named: the header
by its fields' offsets, then the blocks by address (for each its size, end,
left neighbour, zeros, second word, handle and master, status word and name),
then the chain from link to link, at last the count of masters. Masters have no
rule of their own: they are looked at from the block or the link that leads to
them.
"""

from typing import Dict, List, NamedTuple, Optional, Sequence, Tuple, Union

from . import rules
from .format import (
    AGES,
    AT_BK_FST,
    AT_CLOCK,
    AT_H_FST_FREE,
    AT_LENGTH,
    AT_M,
    AT_NAME,
    AT_SECOND_WORD,
    AT_STATUS,
    AT_ZERO,
    DIRTY,
    HEADER_LENGTH,
    LENGTH_LIMIT,
    LOCK,
    MASTER_LENGTH,
    MASTER_LIMIT,
    SIZE_BITS,
    STAMP,
    STATUS_ZEROS,
    WORD,
    Block,
    BlockType,
    Header,
    Page,
    number,
)
from .rules import ZoneError

Image = Union[bytes, bytearray, memoryview]


class Reading(NamedTuple):
    """What an image holds, up to its first broken rule if it has one.

    `data` is a copy of its L bytes, or of as many as there are. The header's
    numbers are 0 where the image has none.
    """

    data: bytes
    header: Header
    blocks: Tuple[Block, ...]
    chain: Tuple[int, ...]
    fault: Optional[ZoneError]


def read_image(image: Image) -> Reading:
    """Read an image up to its first broken rule, or whole.

    The blocks of an image that was cut off, which is shorter than L, are read
    up to the cut, though L comes before them.
    """
    data, buffer_length = _first_bytes(image)
    header = Header(0, 0, 0, 0, 0)
    blocks: List[Block] = []
    chain: List[int] = []
    fault: Optional[ZoneError] = None
    try:
        header = _read_header(data, buffer_length)
        _check_length(header.length, buffer_length)
        _check_behind_length(data, header)
        data = data[:header.length]
        _read_blocks(data, header, blocks)
        _read_chain(data, header, chain)
        _check_count(header, blocks, chain)
    except ZoneError as error:
        fault = error.with_traceback(None)
        if error.rule == rules.LENGTH_BUFFER:
            _read_to_the_cut(data, header, blocks)
    return Reading(data, header, tuple(blocks), tuple(chain), fault)


def _read_to_the_cut(data: bytes, header: Header,
                     blocks: List[Block]) -> None:
    there = header._replace(length=len(data) - len(data) % 4)
    try:
        _check_behind_length(data, there)
        _read_blocks(data, there, blocks)
    except ZoneError:
        pass  # the block that was cut, or a fault behind the one that is named


def _first_bytes(image: Image) -> Tuple[bytes, int]:
    """A copy of all bytes that any rule can touch, and the buffer's length."""
    view = memoryview(image)
    if view.ndim == 1 and view.itemsize == 1:
        return view[:LENGTH_LIMIT].tobytes(), view.nbytes
    return view.tobytes()[:LENGTH_LIMIT], view.nbytes


# -- header ----------------------------------------------------------------


def _read_header(data: bytes, buffer_length: int) -> Header:
    if buffer_length < HEADER_LENGTH:
        raise ZoneError(rules.BUFFER, buffer_length,
                        f"the buffer ends after {buffer_length} bytes")
    return Header(
        length=number(data, AT_LENGTH, 4),
        bk_fst=number(data, AT_BK_FST, 4),
        m=number(data, AT_M, 4),
        h_fst_free=number(data, AT_H_FST_FREE, 2),
        clock=data[AT_CLOCK],
    )


def _check_length(length: int, buffer_length: int) -> None:
    if length % 4 != 0:
        raise ZoneError(rules.LENGTH_MULTIPLE, AT_LENGTH, f"L is {length}")
    if length > LENGTH_LIMIT:
        raise ZoneError(rules.LENGTH_LIMIT, AT_LENGTH, f"L is {length}")
    if length > buffer_length:
        raise ZoneError(rules.LENGTH_BUFFER, AT_LENGTH,
                        f"L is {length}, the buffer has {buffer_length} bytes")


def _check_behind_length(data: bytes, header: Header) -> None:
    _check_bk_fst(header)
    if header.m > MASTER_LIMIT:
        raise ZoneError(rules.M_LIMIT, AT_M, f"m is {header.m}")
    if data[AT_ZERO] != 0:
        raise ZoneError(rules.HEADER_ZERO, AT_ZERO,
                        f"header byte {AT_ZERO} is 0x{data[AT_ZERO]:02X}")


def _check_bk_fst(header: Header) -> None:
    expected = HEADER_LENGTH + MASTER_LENGTH * header.m
    if header.bk_fst != expected:
        raise ZoneError(rules.BK_FST, AT_BK_FST,
                        f"bkFst is {header.bk_fst}, m is {header.m}, "
                        f"16 + 4m is {expected}")
    if header.bk_fst > header.length:
        raise ZoneError(rules.BK_FST_LIMIT, AT_BK_FST,
                        f"bkFst is {header.bk_fst}, L is {header.length}")


# -- blocks ----------------------------------------------------------------


def _read_blocks(data: bytes, header: Header, blocks: List[Block]) -> None:
    """Read the blocks into a list, which keeps those before a fault."""
    named: Dict[int, int] = {}  # where each name stands
    offset = header.bk_fst
    after_free = False
    while offset < header.length:
        block = _read_block(data, offset, header)
        free = block.type is BlockType.FREE
        if free and after_free:
            raise ZoneError(rules.NEIGHBOURS, offset,
                            f"the free block at {offset} follows the free "
                            f"block at {blocks[-1].offset}")
        if free:
            _check_zeros(data, block)
        elif block.type is BlockType.FIXED:
            _check_second_word(data, block)
        elif block.handle is not None:
            _check_master(data, header, block, block.handle)
        elif block.page is not None:
            _check_page(data, block, block.page, named)
        blocks.append(block)
        after_free = free
        offset = block.end


def _read_block(data: bytes, offset: int, header: Header) -> Block:
    # Offsets and L are multiples of 4, so four bytes are always there.
    kind = BlockType(data[offset] >> 6)
    if kind is BlockType.FREE:
        words = number(data, offset, 4)
    else:
        words = number(data, offset, 2) & SIZE_BITS
    size = WORD * words
    if size < 4 or size % 4 != 0:
        raise ZoneError(rules.SIZES, offset,
                        f"the block at {offset} has size {size}")
    if size < kind.least_size:
        raise ZoneError(rules.PAGE_SIZE, offset,
                        f"the page at {offset} has size {size}")
    if size > header.length - offset:
        raise ZoneError(rules.TILE, offset,
                        f"the block at {offset} of size {size} ends at "
                        f"{offset + size}, L is {header.length}")
    handle: Optional[int] = None
    page: Optional[Page] = None
    if kind is BlockType.RELOCATABLE:
        handle = number(data, offset + AT_SECOND_WORD, 2)
    elif kind is BlockType.PAGE:
        page = _read_page(data, offset, header.clock)
    return Block(offset, kind, size, handle, page)


def _read_page(data: bytes, offset: int, clock: int) -> Page:
    status = number(data, offset + AT_STATUS, 2)
    stamp = status & STAMP
    return Page(number(data, offset + AT_NAME, 4), bool(status & DIRTY),
                bool(status & LOCK), stamp, (clock - stamp) % AGES)


def _check_page(data: bytes, block: Block, page: Page,
                named: Dict[int, int]) -> None:
    """The page's status word and name; `named` learns the name."""
    at = block.offset + AT_STATUS
    status = number(data, at, 2)
    if status & STATUS_ZEROS:
        raise ZoneError(rules.STATUS, at, f"the page at {block.offset} has "
                        f"status word 0x{status:04X}")
    first = named.setdefault(page.name, block.offset)
    if first != block.offset:
        raise ZoneError(rules.NAMES, block.offset + AT_NAME,
                        f"the pages at {first} and {block.offset} both have "
                        f"name {page.name}")


def _check_zeros(data: bytes, block: Block) -> None:
    rest = data[block.offset + block.type.header_length:block.end]
    rest = rest.lstrip(b"\0")
    if rest:
        at = block.end - len(rest)
        raise ZoneError(rules.FREE_ZEROS, at,
                        f"byte 0x{data[at]:02X} stands in the free block at "
                        f"{block.offset}")


def _check_second_word(data: bytes, block: Block) -> None:
    at = block.offset + AT_SECOND_WORD
    word = number(data, at, 2)
    if word != 0:
        raise ZoneError(rules.SECOND_WORD, at,
                        f"the fixed block at {block.offset} has second word "
                        f"0x{word:04X}, where an older image has data")


def _check_master(data: bytes, header: Header, block: Block,
                  handle: int) -> None:
    if not header.is_master(handle):
        raise ZoneError(rules.HANDLE, block.offset + AT_SECOND_WORD,
                        f"the block at {block.offset} has handle {handle}, "
                        f"which is no master's offset")
    held = number(data, handle, MASTER_LENGTH)
    if held != block.data_offset:
        # The master's offset is named: a slide that left it is the likely
        # cause, and the detail names the block.
        raise ZoneError(rules.MASTER, handle,
                        f"the master at {handle} holds {held}, its block at "
                        f"{block.offset} has data offset {block.data_offset}")


# -- chain -----------------------------------------------------------------


def _read_chain(data: bytes, header: Header, chain: List[int]) -> None:
    """Read the chain into a list, which keeps the masters before a fault."""
    visited = set()
    link_at, master = AT_H_FST_FREE, header.h_fst_free
    while master != 0:
        if not header.is_master(master):
            raise ZoneError(rules.CHAIN_MASTERS, link_at,
                            f"the link at {link_at} leads to {master}, "
                            f"which is no master's offset")
        if master in visited:
            raise ZoneError(rules.CHAIN_END, link_at,
                            f"the link at {link_at} leads back to the master "
                            f"at {master}")
        visited.add(master)
        chain.append(master)
        link_at, master = master, number(data, master, MASTER_LENGTH)


def _check_count(header: Header, blocks: Sequence[Block],
                 chain: Sequence[int]) -> None:
    # A live master holds a data offset, which is neither 0 nor a master's
    # offset: it is in no chain and belongs to one block alone. So the counts
    # differ exactly when some master is in neither place.
    live = {block.handle for block in blocks if block.handle is not None}
    if len(live) + len(chain) == header.m:
        return
    accounted = live.union(chain)
    masters = range(HEADER_LENGTH, header.bk_fst, MASTER_LENGTH)
    lost = next(master for master in masters if master not in accounted)
    raise ZoneError(rules.COUNT, lost,
                    f"{len(live)} relocatable blocks and a chain of "
                    f"{len(chain)}, m is {header.m}; the master at {lost} "
                    f"is in neither")
