"""Reads zones: handles, fixed blocks, pages and bays, byte by byte.

    from nafelode import Zone, ZoneError

    try:
        zone = Zone(image)              # bytes, bytearray or memoryview
    except ZoneError as error:
        print(error.rule, error.offset)
    else:
        data = zone.read_handle(16)
"""

from .bays import Bay, Scatter, Sum
from .census import Stratum
from .content import ZonePart
from .diff import Change, changes
from .format import Block, BlockType, Page
from .limits import decode_limits
from .roster import Record, decode_roster
from .rules import ZoneError
from .zone import Zone, check, fault, read

__version__ = "1.7.3"  # as in the file VERSION

__all__ = [
    "Bay",
    "Block",
    "BlockType",
    "Change",
    "Page",
    "Record",
    "Scatter",
    "Stratum",
    "Sum",
    "Zone",
    "ZoneError",
    "ZonePart",
    "changes",
    "check",
    "decode_limits",
    "decode_roster",
    "fault",
    "read",
]
