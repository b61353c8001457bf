"""The command zone-print, run as a program."""

import os
import subprocess
import sys
import unittest
import xml.etree.ElementTree as tree

import builder
import support
from nafelode import Zone
from nafelode.draw import draw
from trial import Trial


class Command(Trial):
    def test_table(self) -> None:
        plan = builder.Plan(4, (builder.relocatable(20, b"recipe01"),
                                builder.free(8), builder.fixed(b"edge"),
                                builder.free(4)), (16, 28, 24), b"beyond")
        done = self.run_it(self.file("zone.bin", plan.image()))
        self.assertEqual((done.returncode, done.stderr), (0, b""))
        text = done.stdout.decode("ascii")
        rows = [line.split() for line in text.splitlines()]
        self.assertIn(
            "32 relocatable 12 handle 20 8 72656369 70653031".split(), rows)
        self.assertIn("44 free 8 - - -".split(), rows)
        self.assertIn("52 fixed 8 pointer 56 4 65646765".split(), rows)
        self.assertIn("0 32 52 20 8 1 8 0".split(), rows)
        self.assertIn("1 60 64 4 4 1 4 0".split(), rows)
        self.assertIn("free bytes: 12; largest bay's sum 8", text)
        self.assertIn("scatter is counted as", text)

    def test_masters_that_have_grown(self) -> None:
        done = self.run_it(os.path.join(support.EXAMPLES, "grown.zone"))
        self.assertEqual((done.returncode, done.stderr), (0, b""))
        text = done.stdout.decode("ascii")
        self.assertIn("zone: L 160, bkFst 64, m 12, hFstFree 36, clock 0\n",
                      text)
        self.assertIn("masters: 5 live, 7 in the chain "
                      "(36 40 44 48 52 56 60)\n", text)
        rows = [line.split() for line in text.splitlines()]
        self.assertIn("80 relocatable 8 handle 24 4 4D41524B".split(), rows)
        self.assertIn("0 64 152 88 16 1 16 0".split(), rows)

    def test_pages(self) -> None:
        done = self.run_it(os.path.join(support.EXAMPLES, "cache.zone"))
        self.assertEqual((done.returncode, done.stderr), (0, b""))
        text = done.stdout.decode("ascii")
        self.assertIn("hFstFree 20, clock 7\n", text)
        self.assertIn("blocks: 8 (1 relocatable, 4 pages, 1 fixed, 2 free)\n",
                      text)
        rows = [line.split() for line in text.splitlines()]
        self.assertIn("24 page 24 name 101 1 - 16 47524144 45204120 37302047 "
                      "534D2E2E".split(), rows)
        self.assertIn("100 page 8 name 0 0 lock 0 -".split(), rows)
        self.assertIn("116 page 24 name 7 2 dirty lock 16 47524144 45204320 "
                      "31323020 47534D2E".split(), rows)
        self.assertIn("108 fixed 8 pointer 112 - - 4 0A0B0C0D".split(), rows)

    # Free blocks of 4, 12 and 12 bytes.
    THREE = builder.Plan(0, (builder.free(4), builder.fixed(b""),
                             builder.free(12), builder.fixed(b""),
                             builder.free(12)), ()).image()
    MILL = (1, 6, 7, *range(100, 1600, 100), 524_288)

    def census(self, *arguments: str):
        """The words of the census's lines, and the line above them."""
        done = self.run_it(*arguments)
        self.assertEqual((done.returncode, done.stderr), (0, b""))
        title, _, *rows = (done.stdout.decode("ascii").partition("census")[2]
                           .splitlines())
        return title, [row.split() for row in rows]

    def test_census_by_the_formula(self) -> None:
        path = self.file("zone.bin", self.THREE)
        title, rows = self.census(path)
        self.assertIn("by the formula", title)
        self.assertEqual(rows, [["4", "6", "1", "#"],
                                ["8", "14", "2", "##"]])

    def test_census_by_a_mills_limits(self) -> None:
        path = self.file("zone.bin", self.THREE)
        lent = self.file("mill", builder.limits_bytes(self.MILL))
        title, rows = self.census(path, "--strata", lent)
        self.assertIn("by the mill's limits", title)
        self.assertEqual(len(rows), 19)
        self.assertEqual(rows[:3], [["2", "10", "1", "#"],
                                    ["12", "12", "2", "##"],
                                    ["14", "198", "0"]])
        self.assertEqual(rows[18], ["1048576", "-", "0"])

    def test_census_of_no_limits(self) -> None:
        path = self.file("zone.bin", self.THREE)
        title, rows = self.census(path, "--strata", self.file("none", b""))
        self.assertIn("by the formula", title)
        self.assertEqual([row[0] for row in rows],
                         [str(2 << i) for i in range(19)])
        self.assertEqual([row[2] for row in rows], ["0", "1", "2"] + 16 * ["0"])

    def test_census_of_no_free_block(self) -> None:
        plan = builder.Plan(0, (builder.fixed(b"edge"),), ())
        done = self.run_it(self.file("zone.bin", plan.image()))
        self.assertIn(b"census by the formula: no free block\n", done.stdout)

    def test_long_bars(self) -> None:
        # 81 blocks of 4 bytes and one of 8: marks of three blocks each
        parts = (builder.free(4), builder.fixed(b"")) * 81 + (builder.free(8),)
        path = self.file("zone.bin", builder.Plan(0, parts, ()).image())
        title, rows = self.census(path)
        self.assertIn("# for up to 3", title)
        self.assertEqual(rows, [["4", "6", "81", 27 * "#"],
                                ["8", "14", "1", "#"]])

    def test_limits_that_break_a_rule(self) -> None:
        path = self.file("zone.bin", support.R1)
        svg = os.path.join(self.place, "map.svg")
        for lent, rule in ((bytes(76), "the first limit is 1 or 2"),
                           (bytes(75), "76 bytes"), (bytes(5000), "76 bytes"),
                           (builder.limits_bytes((2, 2) + self.MILL[2:]),
                            "limits rise strictly"),
                           (builder.limits_bytes(self.MILL[:18] + (524_289,)),
                            "the last limit is at most 524,288")):
            mill = self.file("mill", lent)
            self.fails(self.run_it(path, "--strata", mill, "--map", svg),
                       mill, "not a mill's limits", rule)
            self.assertFalse(os.path.exists(svg))
        self.fails(self.run_it(path, "--strata", svg), svg)
        # the image is told first, as 1 comes before 14
        bad = self.file("bad.bin", support.R1[:63])
        self.complains(self.run_it(bad, "--strata", mill), bad,
                       "not a well-formed zone")

    def test_map_spares_the_limits(self) -> None:
        lent = builder.limits_bytes(self.MILL)
        mill = self.file("mill", lent)
        path = self.file("zone.bin", support.R1)
        self.fails(self.run_it(path, "--strata", mill, "--map", mill),
                   "overwrite the limits")
        with open(mill, "rb") as stream:
            self.assertEqual(stream.read(), lent)

    def test_map_with_a_mills_limits(self) -> None:
        svg = os.path.join(self.place, "map.svg")
        mill = self.file("mill", builder.limits_bytes(self.MILL))
        done = self.run_it(self.file("zone.bin", self.THREE), "--strata", mill,
                           "--map", svg)
        self.assertEqual((done.returncode, done.stderr), (0, b""))
        with open(svg, encoding="utf-8") as stream:
            self.assertIn("12 to 12 bytes", stream.read())

    def test_standard_input(self) -> None:
        done = self.run_it("-", data=support.R1)
        self.assertEqual((done.returncode, done.stderr), (0, b""))
        self.assertIn(b"zone: L 64, bkFst 32, m 4, hFstFree 16", done.stdout)

    def test_runs_by_itself(self) -> None:
        done = subprocess.run([support.COMMAND, "--help"],
                              stdout=subprocess.PIPE, timeout=60)
        self.assertEqual(done.returncode, 0)
        self.assertIn(b"--map", done.stdout)

    def test_runs_as_a_module(self) -> None:
        done = subprocess.run([sys.executable, "-m", "nafelode", "-"],
                              input=support.R1, stdout=subprocess.PIPE,
                              cwd=support.PYTHON, timeout=60)
        self.assertEqual(done.returncode, 0)

    def test_map(self) -> None:
        svg = os.path.join(self.place, "map.svg")
        done = self.run_it("--map", svg, self.file("zone.bin", support.R1))
        self.assertEqual((done.returncode, done.stderr), (0, b""))
        self.assertIn(b"bays: 1", done.stdout)
        self.assertTrue(tree.parse(svg).getroot().tag.endswith("svg"))

    def test_no_such_image(self) -> None:
        self.fails(self.run_it(os.path.join(self.place, "none")), "none")
        self.fails(self.run_it(self.place), self.place)

    def test_map_that_cannot_be_written(self) -> None:
        path = self.file("zone.bin", support.R1)
        # A folder, and one that cannot be made: a file is in its place.
        for target in (self.place, os.path.join(path, "map.svg")):
            self.fails(self.run_it(path, "--map", target), target)

    def test_map_makes_its_folder(self) -> None:
        svg = os.path.join("new", "folder", "map.svg")
        self.prints(self.run_it(self.file("zone.bin", support.R1), "--map",
                                svg))
        tree.parse(os.path.join(self.place, svg))

    def test_map_on_standard_output(self) -> None:
        path = self.file("zone.bin", support.R1)
        done = self.run_it(path, "--map", "-")
        self.assertEqual((done.returncode, done.stderr), (0, b""))
        self.assertEqual(done.stdout.decode(), draw(Zone(support.R1),
                                                    "zone.bin"))
        self.assertEqual(os.listdir(self.place), ["zone.bin"])
        for other in ("--json", "--handle=16"):
            self.fails(self.run_it(path, "--map", "-", other), "--map -",
                       status=2, lines=2)

    def test_map_spares_the_image(self) -> None:
        path = self.file("zone.bin", support.R1)
        self.fails(self.run_it(path, "--map", path), "overwrite")
        with open(path, "rb") as stream:
            self.assertEqual(stream.read(), support.R1)

    def test_wrong_arguments(self) -> None:
        for arguments in ((), ("--mop", "a", "b"), ("a", "b"),
                          ("a", "--handle", "x"), ("-", "--strata", "-"),
                          ("a", "--handle", "16", "--name", "7")):
            self.fails(self.run_it(*arguments), "usage", status=2, lines=2)

    def test_broken_pipe(self) -> None:
        parts = (builder.free(4), builder.fixed(b"")) * 3000
        path = self.file("long.bin", builder.Plan(0, parts, ()).image())
        for argument in (path, "--help"):
            done = self.without_output(argument)
            self.assertEqual(done.stderr, b"")
            # Unbuffered, argparse itself passes over the lost help.
            allowed = (1,) if argument == path else (0, 1)
            self.assertIn(done.returncode, allowed)

    @unittest.skipUnless(os.path.exists("/dev/full"), "no /dev/full")
    def test_full_output(self) -> None:
        path = self.file("zone.bin", support.R1)
        done = self.with_full_output(path)
        self.complains(done, "standard output")


if __name__ == "__main__":
    unittest.main()
