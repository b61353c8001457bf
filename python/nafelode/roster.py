"""The roster: one record of 8 bytes a live handle, by rising handle."""

from typing import List, NamedTuple, Optional, Tuple

from .check import Image
from .format import number, whole
from .rules import ROSTER_ORDER, ROSTER_RECORD, ZoneError

RECORD_LENGTH = 8


class Record(NamedTuple):
    handle: int
    data_size: int


def decode_roster(image: Image,
                  count: Optional[int] = None) -> Tuple[Record, ...]:
    """The records at the start of a roster's bytes.

    `count` is what the roster call answered; later bytes are left alone.
    Without it all bytes are records. ZoneError if the bytes end inside one,
    or at a record whose handle is not above the one before: no roster has
    such bytes.
    """
    data = memoryview(image).tobytes()
    if count is None:
        count = -(-len(data) // RECORD_LENGTH)
    count = whole(count, "a count")
    if not 0 <= RECORD_LENGTH * count <= len(data):
        raise ZoneError(ROSTER_RECORD, len(data) - len(data) % RECORD_LENGTH,
                        f"{len(data)} bytes do not hold {count} records")
    records: List[Record] = []
    for at in range(0, RECORD_LENGTH * count, RECORD_LENGTH):
        record = Record(number(data, at, 4), number(data, at + 4, 4))
        if records and record.handle <= records[-1].handle:
            raise ZoneError(ROSTER_ORDER, at, f"handle {record.handle} comes "
                            f"after handle {records[-1].handle}")
        records.append(record)
    return tuple(records)
