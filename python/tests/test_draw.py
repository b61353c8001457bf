"""The map: that it is well-formed XML and leaves no block out."""

import os
import random
import unittest
import xml.etree.ElementTree as tree

import builder
import support
from nafelode import Zone
from nafelode.draw import draw
from nafelode.rows import BAR_WIDTH, MOST_ROWS, wrap

SVG = "{http://www.w3.org/2000/svg}"


class Map(unittest.TestCase):
    def tips(self, zone: Zone):
        root = tree.fromstring(draw(zone, "image"))
        return {title.text for title in root.iter(SVG + "title")}

    def words(self, zone: Zone, name: str = ""):
        root = tree.fromstring(draw(zone, name))
        return [text.text for text in root.iter(SVG + "text")]

    def test_every_block_is_there(self) -> None:
        rng = random.Random(7)
        for blocks, length in ((0, 16), (3, 64), (40, 65536), (900, 65536)):
            plan = builder.random_plan(rng, blocks, 80, blocks // 50, 3,
                                       length, blocks // 3)
            zone = Zone(plan.image())
            tips = " | ".join(self.tips(zone))
            for block in zone.blocks:
                what = "block" if block.page is None else "page"
                self.assertIn(f"{what} at {block.offset}, size {block.size}",
                              tips)

    def test_small_zone_words(self) -> None:
        words = self.words(Zone(support.R1))
        for expected in ("Zone of 64 bytes", "header", "next 20", "free 32",
                         "bay 0: sum 32", "L", "fixed block", "free master"):
            self.assertIn(expected, words)

    def test_masters_that_have_grown(self) -> None:
        full, grown = (Zone(p.image()) for p in builder.full_and_grown())
        self.assertNotIn("handle 32", self.words(full))
        words, tips = self.words(grown), self.tips(grown)
        for master in range(16, 64, 4):
            self.assertIn(str(master), words)
        self.assertIn("handle 32", words)
        self.assertIn("bay 0: sum 16", words)
        for expected in ("live master 32, holds 120", "live master 20, holds 68",
                         "free master 36, next 40", "free master 60, next 0",
                         "header: L 160, bkFst 64, m 12, hFstFree 36, clock 0",
                         "fixed block at 152, size 8, pointer 156"):
            self.assertIn(expected, tips)

    def test_a_mills_limits(self) -> None:
        zone = Zone(builder.Plan(0, (builder.free(12), builder.fixed(b""),
                                     builder.free(4), builder.fixed(b""),
                                     builder.free(12)), ()).image())
        lent = builder.limits_bytes((1, 6, 7, *range(100, 1700, 100)))
        root = tree.fromstring(draw(zone, "", lent))
        words = [text.text for text in root.iter(SVG + "text")]
        heading = "Free blocks by the mill's limits"
        self.assertNotIn(heading, self.words(zone))
        strata = words[words.index(heading) + 1:]
        self.assertEqual(strata[:6], ["2 to 10 bytes", "1", "12 to 12 bytes",
                                      "2", "14 to 198 bytes", "0"])
        self.assertEqual(strata[-2:], ["3,200 and more bytes", "0"])
        self.assertEqual(len(strata), 2 * 19)
        # one bar is twice as long as the other
        plain = tree.fromstring(draw(zone)).iter(SVG + "rect")
        widths = [float(bar.get("width"))
                  for bar in list(root.iter(SVG + "rect"))[len(list(plain)):]]
        self.assertEqual(widths, [70.0, 140.0])

    def test_pages(self) -> None:
        zone = Zone(builder.cache_and_dropped()[0].image())
        words, tips = self.words(zone), self.tips(zone)
        for expected in ("page 101", "page 102", "page 0", "page 7",
                         "age 5, dirty, 24 bytes", "age 2, dirty lock",
                         "locked page", "dirty page"):
            self.assertIn(expected, words)
        self.assertTrue(any("4 pages (2 dirty, 2 locked)" in line
                            and "clock: 7" in line for line in words))
        for expected in ("page at 24, size 24, name 101, age 1",
                         "page at 100, size 8, name 0, age 0, lock",
                         "page at 116, size 24, name 7, age 2, dirty lock"):
            self.assertIn(expected, tips)

    def test_pages_told_apart(self) -> None:
        zone = Zone(builder.cache_and_dropped()[0].image())
        root = tree.fromstring(draw(zone))
        looks = {}
        for rect in root.iter(SVG + "rect"):
            for title in rect.iter(SVG + "title"):
                looks[title.text] = rect.get("fill"), rect.get("stroke")
        pages = {look for tip, look in looks.items() if tip.startswith("page")}
        others = {look for tip, look in looks.items()
                  if not tip.startswith("page")}
        self.assertEqual(len(pages), 4)
        self.assertFalse(pages & others)

    def test_no_page_no_word_of_them(self) -> None:
        words = " ".join(self.words(Zone(support.R1)))
        self.assertNotIn("page", words)

    def test_kept_pictures(self) -> None:
        plans = builder.full_and_grown() + builder.cache_and_dropped()
        for name, plan in zip(("full", "grown", "cache", "dropped"), plans):
            path = os.path.join(support.EXAMPLES, name + ".svg")
            with open(path, encoding="utf-8", newline="") as stream:
                self.assertEqual(stream.read(),
                                 draw(Zone(plan.image()), name + ".zone"))

    def test_least_zones(self) -> None:
        chain = tuple(16 + 4 * i for i in range(17))
        for plan in (builder.Plan(0, (), ()), builder.Plan(17, (), chain),
                     builder.Plan(0, (builder.fixed(b""),) * 3, ())):
            self.assertTrue(self.words(Zone(plan.image())))

    def test_strange_names(self) -> None:
        words = self.words(Zone(support.R1), "a<b>&\"\x00\udcff\n.bin")
        self.assertIn("Zone of 64 bytes \u2014 a<b>&\"???.bin", words)


class Rows(unittest.TestCase):
    def test_pieces_tile_a_stretch(self) -> None:
        rows = wrap(65536, [200] * 100)
        pieces = list(rows.pieces(1000, 30000))
        self.assertAlmostEqual(sum(piece.width for piece in pieces),
                               29000 * rows.scale)
        self.assertEqual([piece.first for piece in pieces].count(True), 1)
        self.assertEqual([piece.last for piece in pieces].count(True), 1)
        for piece in pieces:
            self.assertLessEqual(piece.x + piece.width, BAR_WIDTH + 0.001)

    def test_number_of_rows(self) -> None:
        self.assertEqual(wrap(64, [32]).rows, 1)
        self.assertEqual(wrap(16, []).rows, 1)
        for length in (1024, 65536, 1_048_576):
            for size in (4, 64, 4096):
                self.assertLessEqual(wrap(length, [size] * 50).rows, MOST_ROWS)


if __name__ == "__main__":
    unittest.main()
