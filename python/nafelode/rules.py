"""The rules of a zone by name, and the one exception that names them.

The names quote document 01's 'Well-formed' sentence. Where that sentence
says 'as above', the words it points to follow a colon. Rules of pages quote
document 02 (U5), which calls a page a named block, and so does that of a fixed
block's header (U6). Those of a mill's limits are document 02's, too (U7).
"""

BUFFER = "the buffer has at least 16 bytes"
LENGTH_MULTIPLE = "L is a multiple of 4"
LENGTH_LIMIT = "L is at most 1,048,576"
LENGTH_BUFFER = "L is at most the buffer's length"
BK_FST = "bkFst as above: bkFst = 16 + 4m"
BK_FST_LIMIT = "bkFst \u2264 L"
M_LIMIT = "m \u2264 8,188"
HEADER_ZERO = "header byte 15 remains zero"
SIZES = "sizes as above: multiples of 4 and at least 4"
PAGE_SIZE = "a named block's size is at least 8"
TILE = "blocks tile bkFst to L"
NEIGHBOURS = "no two free blocks are neighbours"
FREE_ZEROS = "the zeros of free blocks as above: all later bytes zero"
SECOND_WORD = "a fixed block's header becomes 4 bytes, the second word zero"
HANDLE = "each relocatable block's handle is a master's offset"
MASTER = "that master holds the block's data offset"
STATUS = ("in the status word the top bit is dirty, the next is lock, the low "
          "byte a stamp, the rest zero")
NAMES = "names are distinct in a well-formed zone"
CHAIN_MASTERS = "the chain from hFstFree visits only masters"
CHAIN_END = "the chain from hFstFree ends in 0"
COUNT = "relocatable blocks plus chain length equal m"

# In the order in which a reading looks at them.
WELL_FORMED = (
    BUFFER,
    LENGTH_MULTIPLE,
    LENGTH_LIMIT,
    LENGTH_BUFFER,
    BK_FST,
    BK_FST_LIMIT,
    M_LIMIT,
    HEADER_ZERO,
    SIZES,
    PAGE_SIZE,
    TILE,
    NEIGHBOURS,
    FREE_ZEROS,
    SECOND_WORD,
    HANDLE,
    MASTER,
    STATUS,
    NAMES,
    CHAIN_MASTERS,
    CHAIN_END,
    COUNT,
)

# Causes from the table of refused calls, for questions to a read zone.
HANDLE_NOT_LIVE = "handle not live"
NOT_A_POINTER = "pointer not that of a fixed block"
NAME_ABSENT = "name absent"
PAST_DATA = "offset + count, unwrapped, above data size"

# A roster's bytes; their order is document 02's (U1).
ROSTER_RECORD = "8 bytes a live handle"
ROSTER_ORDER = "records come by rising handle"

# A mill's limits (document 02, U7): rules of what is lent, not of a zone.
LIMITS_LENGTH = "a mill lends 76 bytes: nineteen 4-byte limits in words"
LIMITS_FIRST = "the first limit is 1 or 2"
LIMITS_RISE = "limits rise strictly"
LIMITS_LAST = "the last limit is at most 524,288"

# In the order in which a reading looks at them.
LIMITS = (LIMITS_LENGTH, LIMITS_FIRST, LIMITS_RISE, LIMITS_LAST)


class ZoneError(Exception):
    """The package's one exception: `rule` is broken at `offset`.

    `detail` says in words what stands there. For a damaged image the rule is
    one of WELL_FORMED and the offset counts from the zone's first byte.
    """

    def __init__(self, rule: str, offset: int, detail: str) -> None:
        super().__init__(rule, offset, detail)
        self.rule = rule
        self.offset = offset
        self.detail = detail

    def __str__(self) -> str:
        return (f"at offset {self.offset} (0x{self.offset:X}): "
                f"{self.detail}; rule: {self.rule}")
