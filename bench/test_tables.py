"""That the benchmark's tables show what was measured, and nothing where a part is missing."""
import contextlib
import io
import unittest

import tables

PART = """# callgrind format
part: {number}

desc: Timerange: Basic block 0 - 1299892
desc: Trigger: {trigger}

events: Ir
summary: {total}

fn=(1) nafelode_check
12 {total}

totals: {total}
"""


def part(number, total, trigger="--dump-after=end_of_row"):
    return PART.format(number=number, total=total, trigger=trigger)


def printed(work, *arguments):
    with contextlib.redirect_stdout(io.StringIO()) as text:
        work(*arguments)
    return text.getvalue()


class Parts(unittest.TestCase):
    LINES = "a zone\tcheck\tproved\t2\na zone\tcheck\tRust\t4\n"

    def test_a_count_is_a_part_for_each_of_its_calls(self):
        # part 10 is not before part 2, and the program's end is no row
        parts = [part(2, 1000), part(1, 600), part(3, 0, "Program termination")]
        counts = tables.counts_of(self.LINES, tables.part_totals(parts))
        self.assertEqual(counts, {("a zone", "check", "proved"): 300, ("a zone", "check", "Rust"): 250})

    def test_a_missing_part_is_noticed(self):
        for parts in ([part(1, 600)], [part(1, 600), part(3, 1000)], [part(n, 1) for n in (1, 2, 3)]):
            with self.assertRaises(ValueError):
                tables.counts_of(self.LINES, tables.part_totals(parts))

    def test_a_part_that_is_cut_off_is_noticed(self):
        with self.assertRaises(ValueError):
            tables.part_totals([part(1, 600).split("totals")[0]])


class Tables(unittest.TestCase):
    @staticmethod
    def run_of(proved, rust):
        return {("a zone", "check", "proved"): proved, ("a zone", "check", "Rust"): rust}

    def test_least_and_median(self):
        merged = tables.merge([self.run_of(30, 20), self.run_of(10, 22), self.run_of(11, 24)])
        self.assertEqual(merged, {("a zone", "check", "proved"): (10, 11), ("a zone", "check", "Rust"): (20, 22)})

    def test_runs_of_different_rows_are_noticed(self):
        with self.assertRaises(ValueError):
            tables.merge([self.run_of(1, 1), {("a zone", "sum", "proved"): 1}])

    def test_a_row_that_comes_twice_is_noticed(self):
        with self.assertRaises(ValueError):
            tables.read("a\tb\tc\t1\n" * 2)

    def test_a_row_above_in_instructions_alone_is_told(self):
        times = tables.merge([self.run_of(100, 200)])
        text = printed(tables.print_zones, times, self.run_of(3000, 2000))
        self.assertIn("| check | 100 | 100 | 200 | 200 | 0.50 | 0.50 | 3,000 | 2,000 | 1.50 |", text)
        self.assertIn("| a zone | check | 0.50 | 0.50 | 1.50 |", text)
        self.assertIn("instructions: of 1 rows 1 are above 1.00, 1 above 1.05, 1 above 1.10.", text)

    def test_a_row_that_is_little_above_is_counted(self):
        text = printed(tables.print_zones, tables.merge([self.run_of(103, 100)]), self.run_of(2000, 2000))
        self.assertNotIn("| a zone | check |", text)
        self.assertIn("time: least: of 1 rows 1 are above 1.00, 0 above 1.05, 0 above 1.10.", text)
        self.assertIn("instructions: of 1 rows 0 are", text)

    def test_a_peer_stands_beside_both_sides(self):
        times = tables.merge([{**self.run_of(100, 200), ("a zone", "check", "a peer"): 2.5}])
        self.assertIn("| check | a peer | 2.5 : 100 : 200 |", printed(tables.print_peers, times))

    def test_the_largest_step(self):
        times = {("growth", "check", f"{n} blocks, {side}"): (n * n if side == "proved" else n, 0)
                 for n in (10, 20, 40) for side in tables.SIDES}
        self.assertIn("| check | 100 | 400 | 1,600 | 4.00 | 2.00 |", printed(tables.print_growth, times))


if __name__ == "__main__":
    unittest.main()
