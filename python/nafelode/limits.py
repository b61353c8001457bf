"""The limits by which a census counts: a mill's own, or those of the formula.

A mill lends its limits as 76 bytes (document 02, U7); they are no part of a
zone.
"""

from typing import Tuple

from . import rules
from .check import Image
from .format import number
from .rules import ZoneError

STRATA = 19
WIDTH = 4  # bytes a limit
LENGTH = STRATA * WIDTH
HIGHEST = 524_288  # words

# Stratum i holds free blocks of 2^i to 2^(i+1) - 1 words.
POWERS_OF_TWO = tuple(1 << i for i in range(STRATA))


def decode_limits(image: Image) -> Tuple[int, ...]:
    """The nineteen limits in words; with length 0 those of the formula.

    ZoneError for the first rule in reading order that the bytes break; its
    offset counts from the first of them.
    """
    data = memoryview(image).tobytes()
    if not data:
        return POWERS_OF_TWO
    if len(data) != LENGTH:
        raise ZoneError(rules.LIMITS_LENGTH, min(len(data), LENGTH),
                        f"{len(data)} bytes are lent")
    limits = tuple(number(data, at, WIDTH) for at in range(0, LENGTH, WIDTH))
    if limits[0] not in (1, 2):
        raise ZoneError(rules.LIMITS_FIRST, 0,
                        f"the first limit is {limits[0]}")
    for place in range(1, STRATA):
        if limits[place] <= limits[place - 1]:
            raise ZoneError(rules.LIMITS_RISE, WIDTH * place,
                            f"limit {limits[place]} comes after limit "
                            f"{limits[place - 1]}")
    if limits[-1] > HIGHEST:
        raise ZoneError(rules.LIMITS_LAST, WIDTH * (STRATA - 1),
                        f"the last limit is {limits[-1]}")
    return limits
