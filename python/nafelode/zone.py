"""A zone read from its bytes."""

from typing import Optional, Tuple

from . import bays
from .census import Stratum, census_of, strata_of
from .check import Image, Reading, read_image
from .content import Content
from .limits import decode_limits
from .roster import Record
from .rules import ZoneError


class Zone(Content):
    """A well-formed zone, read from an image that may be longer than L.

    Zone(image) raises ZoneError if the image is not well-formed. It keeps a
    copy of the L bytes: later changes to the image do not reach it.
    """

    def __init__(self, image: Image) -> None:
        super().__init__(_without_fault(read_image(image)))
        self.bays: Tuple[bays.Bay, ...] = bays.split(
            self.blocks, self.bk_fst, self.length)

    def sum(self) -> bays.Sum:
        """The total of free bytes and the largest bay's sum."""
        return bays.sum_of(self.bays)

    def scatter(self) -> bays.Scatter:
        """How far the free bytes lie apart."""
        return bays.scatter_of(self.bays)

    def census(self, limits: Image = b"") -> Tuple[int, ...]:
        """Free blocks counted by stratum: nineteen counts.

        A block counts in the last stratum whose limit does not exceed its
        words. `limits` are the 76 bytes that a mill lends (document 02, U7),
        ZoneError if they break a rule; with none the formula holds.
        """
        return census_of(self.blocks, decode_limits(limits))

    def strata(self, limits: Image = b"") -> Tuple[Stratum, ...]:
        """The same counts, each with its stratum's range in bytes."""
        return strata_of(self.blocks, decode_limits(limits))

    def roster(self) -> Tuple[Record, ...]:
        """Handle and data size of each live handle, by rising handle."""
        return tuple(Record(handle, self.by_handle(handle).data_size)
                     for handle in self.handles)


def _without_fault(reading: Reading) -> Reading:
    if reading.fault is not None:
        raise reading.fault
    return reading


def read(image: Image) -> Zone:
    """The zone in an image; ZoneError if it is not well-formed."""
    return Zone(image)


def fault(image: Image) -> Optional[ZoneError]:
    """The first broken rule of an image, or None for a well-formed one."""
    return read_image(image).fault


def check(image: Image) -> Tuple[bool, int]:
    """Document 01's Check: yes or no, and the number of relocatable blocks."""
    try:
        return True, Zone(image).live_handles
    except ZoneError:
        return False, 0
