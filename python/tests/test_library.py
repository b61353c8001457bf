"""That the comparison with the library notices another roster's bytes and
another census."""

import unittest
from typing import List

import builder
import library
from nafelode import Zone


class Other:
    """A library whose roster leaves these bytes in the second buffer."""

    def __init__(self, count: int, left: bytes) -> None:
        self.count, self.left = count, left

    def roster(self, lent: bytes):
        return 0, self.count, self.left + lent[len(self.left):]


class Roster(unittest.TestCase):
    RECORDS = ((16, 8), (20, 0), (24, 4))

    def differences(self, left: bytes) -> List[str]:
        """What differs where the library leaves these bytes."""
        plan = builder.Plan(3, tuple(
            builder.relocatable(handle, bytes(size))
            for handle, size in reversed(self.RECORDS)), ())
        found: List[str] = []

        def same(what: str, package: object, proved: object) -> None:
            if package != proved:
                found.append(what)

        library.same_roster(Other(len(self.RECORDS), left),
                            Zone(plan.image()), same)
        return found

    def test_the_same(self) -> None:
        self.assertEqual(
            self.differences(builder.roster_bytes(self.RECORDS)), [])

    def test_swapped_records(self) -> None:
        first, second, third = self.RECORDS
        for records in ((second, first, third), (first, third, second),
                        (third, second, first)):
            self.assertEqual(self.differences(builder.roster_bytes(records)),
                             ["roster's bytes"])

    def test_later_bytes(self) -> None:
        left = builder.roster_bytes(self.RECORDS) + b"x"
        self.assertEqual(self.differences(left), ["roster's bytes"])


class Counting:
    """A library whose census answers this."""

    def __init__(self, *told: int) -> None:
        self.told = told

    def census(self, lent: bytes):
        return self.told


class Census(unittest.TestCase):
    LENT = builder.limits_bytes((2, 4, 5, *range(6, 22)))
    BROKEN = builder.limits_bytes((2, 2, 5, *range(6, 22)))

    def differs(self, lent: bytes, *told: int) -> bool:
        """Whether such an answer is noticed, where 4 words and 2 are free."""
        plan = builder.Plan(0, (builder.free(8), builder.fixed(b""),
                                builder.free(4)), ())
        found: List[str] = []

        def same(what: str, package: object, proved: object) -> None:
            if package != proved:
                found.append(what)

        library.same_census(Counting(*told), Zone(plan.image()), lent, same)
        return bool(found)

    def test_the_same(self) -> None:
        self.assertFalse(self.differs(self.LENT, 0, 1, 1, *17 * [0]))
        self.assertFalse(self.differs(b"", 0, 0, 1, 1, *16 * [0]))
        self.assertFalse(self.differs(self.BROKEN, 14, *19 * [0]))

    def test_another(self) -> None:
        # by the formula; a block too low; not refused; a count beside 14
        self.assertTrue(self.differs(self.LENT, 0, 0, 1, 1, *16 * [0]))
        self.assertTrue(self.differs(self.LENT, 0, 2, 0, *17 * [0]))
        self.assertTrue(self.differs(self.BROKEN, 0, 1, 1, *17 * [0]))
        self.assertTrue(self.differs(self.BROKEN, 14, 1, *18 * [0]))
        self.assertTrue(self.differs(self.BROKEN, 1, *19 * [0]))


if __name__ == "__main__":
    unittest.main()
