"""A mill's limits: their rules, and what a census counts by them."""

import random
import unittest
from typing import Sequence

import builder
import oracle
import support
from nafelode import Zone, ZoneError, decode_limits, rules

# Steps of 100 bytes, and one above every free block.
MILL = (2, *range(50, 900, 50), 524_288)
POWERS_OF_TWO = tuple(1 << i for i in range(19))


def changed(place: int, limit: int) -> bytes:
    """The mill's limits but for one."""
    limits = list(MILL)
    limits[place] = limit
    return builder.limits_bytes(limits)


class Rules(unittest.TestCase):
    def breaks(self, lent: bytes, rule: str, offset: int) -> None:
        with self.assertRaises(ZoneError) as caught:
            decode_limits(lent)
        self.assertEqual((caught.exception.rule, caught.exception.offset),
                         (rule, offset))

    def test_decoded(self) -> None:
        self.assertEqual(decode_limits(builder.limits_bytes(MILL)), MILL)
        self.assertEqual(decode_limits(b""), POWERS_OF_TWO)
        lent = bytearray(builder.limits_bytes(POWERS_OF_TWO))
        self.assertEqual(decode_limits(memoryview(lent)), POWERS_OF_TWO)

    def test_length(self) -> None:
        two = 2 * builder.limits_bytes(MILL)
        for length in {*range(1, len(two) + 1)} - {76}:
            self.breaks(two[:length], rules.LIMITS_LENGTH, min(length, 76))

    def test_first(self) -> None:
        for first in (1, 2):
            self.assertEqual(decode_limits(changed(0, first))[0], first)
        for first in (0, 3, 49, 2**32 - 1):
            self.breaks(changed(0, first), rules.LIMITS_FIRST, 0)

    def test_rising(self) -> None:
        for place in range(1, 19):
            before = MILL[place - 1]
            self.assertEqual(decode_limits(changed(place, before + 1))[place],
                             before + 1)
            for limit in (before, before - 1, 0):
                self.breaks(changed(place, limit), rules.LIMITS_RISE,
                            4 * place)

    def test_last(self) -> None:
        for last in (851, 524_287, 524_288):
            self.assertEqual(decode_limits(changed(18, last))[18], last)
        for last in (524_289, 2**32 - 1):
            self.breaks(changed(18, last), rules.LIMITS_LAST, 72)

    def test_low_byte_first(self) -> None:
        lent = b"".join(limit.to_bytes(4, "little") for limit in MILL)
        self.breaks(lent, rules.LIMITS_FIRST, 0)

    def test_as_told_plainly(self) -> None:
        rng = random.Random(5)
        told = set()
        for _ in range(3000):
            good = rng.random() < 0.3
            lent = (builder.random_limits(rng) if good
                    else builder.broken_limits(rng))
            try:
                limits = decode_limits(lent)
            except ZoneError as error:
                self.assertFalse(oracle.are_limits(lent), lent.hex())
                told.add(error.rule)
            else:
                self.assertTrue(oracle.are_limits(lent), lent.hex())
                self.assertEqual(builder.limits_bytes(limits), lent)
                told.add("kept")
        self.assertEqual(told, {"kept", *rules.LIMITS})


class Census(unittest.TestCase):
    def zone(self, words: Sequence[int]) -> Zone:
        parts = []
        for one in words:
            parts += [builder.free(2 * one), builder.fixed(b"")]
        return Zone(builder.Plan(0, tuple(parts), ()).image())

    def counts(self, words: Sequence[int], limits: Sequence[int]):
        """The strata that are not empty, with their counts."""
        counts = self.zone(words).census(builder.limits_bytes(limits))
        self.assertEqual(len(counts), 19)
        return {i: count for i, count in enumerate(counts) if count}

    def test_at_a_limit_and_beside_it(self) -> None:
        self.assertEqual(self.counts((48, 50, 52), MILL), {0: 1, 1: 2})
        self.assertEqual(self.counts((2, 98, 100, 102), MILL),
                         {0: 1, 1: 1, 2: 2})
        self.assertEqual(self.counts((848, 850, 1000), MILL), {16: 1, 17: 2})

    def test_odd_limits(self) -> None:
        odd = range(1, 39, 2)
        self.assertEqual(self.counts((2, 4, 36, 38), odd),
                         {0: 1, 1: 1, 17: 1, 18: 1})

    def test_powers_of_two(self) -> None:
        zone = self.zone((2, 4, 6, 8, 14, 16, 30, 32, 1022, 1024))
        lent = builder.limits_bytes(POWERS_OF_TWO)
        self.assertEqual(zone.census(lent), zone.census())

    def test_above_every_block(self) -> None:
        self.assertEqual(self.counts((), MILL), {})
        largest = builder.Plan(0, (builder.free(1_048_560),), ()).image()
        lent = builder.limits_bytes(MILL)
        self.assertEqual(Zone(largest).census(lent), (0,) * 17 + (1, 0))
        self.assertEqual(Zone(largest).census(changed(18, 524_280)),
                         (0,) * 18 + (1,))

    def test_broken_limits(self) -> None:
        zone = Zone(support.R1)
        for lent in (bytes(75), bytes(76), changed(18, 524_289)):
            self.assertRaises(ZoneError, zone.census, lent)

    def test_strata(self) -> None:
        strata = self.zone((2, 48, 50)).strata(builder.limits_bytes(MILL))
        self.assertEqual(strata[0], (4, 98, 2))
        self.assertEqual(strata[1], (100, 198, 1))
        self.assertEqual(strata[17], (1700, 1_048_574, 0))
        self.assertEqual(strata[18], (1_048_576, None, 0))

    def test_as_told_plainly(self) -> None:
        rng = random.Random(6)
        for _ in range(300):
            plan = builder.random_plan(rng, 12, 400, 3)
            words = [part.size // 2 for part in plan.parts
                     if part.kind == builder.FREE]
            lent = builder.random_limits(rng, words)
            limits = [int.from_bytes(lent[at:at + 4], "big")
                      for at in range(0, 76, 4)]
            wanted = [0] * 19
            for one in words:
                wanted[max(i for i in range(19) if limits[i] <= one)] += 1
            self.assertEqual(Zone(plan.image()).census(lent), tuple(wanted))


if __name__ == "__main__":
    unittest.main()
