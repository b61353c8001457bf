"""Two zones: what differs, as text, as JSON and as a picture."""

import json
import os
import random
import unittest
import xml.etree.ElementTree as tree
from typing import Dict, List, Tuple

import builder
import support
from nafelode import Zone, changes, ribbon
from nafelode.diff_draw import draw_both
from nafelode.diff_table import lines
from trial import Trial

SVG = "{http://www.w3.org/2000/svg}"
FULL = os.path.join(support.EXAMPLES, "full.zone")
GROWN = os.path.join(support.EXAMPLES, "grown.zone")


def words_of(a: builder.Plan, b: builder.Plan) -> Dict[str, Tuple[str, ...]]:
    return {change.target: change.words
            for change in changes(Zone(a.image()), Zone(b.image()))}


def one(part: builder.Part, front: int = 8) -> builder.Plan:
    """A zone of 64 bytes with this part between free blocks."""
    masters = 1 if part.kind == builder.RELOCATABLE else 0
    room = 64 - 16 - 4 * masters - front - part.size
    return builder.Plan(masters, (*([builder.free(front)] if front else []),
                                  part, builder.free(room)), ())


def keys(plan: builder.Plan) -> Dict[str, Tuple[int, builder.Part]]:
    """Offset and part of each block that is not free."""
    found = {}
    for offset, part in zip(plan.offsets(), plan.parts):
        if part.kind == builder.RELOCATABLE:
            found[f"handle {part.handle}"] = offset, part
        elif part.kind == builder.FIXED:
            found[f"pointer {offset + 4}"] = offset, part
        elif part.kind == builder.PAGE:
            found[f"name {part.name}"] = offset, part
    return found


def later(rng: random.Random, plan: builder.Plan) -> builder.Plan:
    """The plan with some parts freed, written, shrunk, marked, or slid."""
    parts: List[builder.Part] = []
    for part in plan.parts:
        if part.kind == builder.FREE:
            if parts and rng.random() < 0.5:
                _put(parts, part)
            else:
                parts.insert(0, part)
            continue
        pick = rng.random()
        if pick < 0.1:
            part = builder.free(part.size)
        elif pick < 0.3 and part.data:
            data = bytearray(part.data)
            data[rng.randrange(len(data))] ^= 1 << rng.randrange(8)
            part = part._replace(data=bytes(data))
        elif pick < 0.5 and len(part.data) >= 8:
            part = part._replace(data=part.data[:-4], size=part.size - 4)
            _put(parts, part)
            part = builder.free(4)
        elif pick < 0.7 and part.kind == builder.PAGE:
            part = part._replace(status=part.status ^ rng.choice(
                (builder.DIRTY, builder.LOCK, 1)))
        _put(parts, part)
    merged: List[builder.Part] = []
    for part in parts:
        _put(merged, part)
    live = {part.handle for part in merged if part.kind == builder.RELOCATABLE}
    chain = [16 + 4 * i for i in range(plan.m) if 16 + 4 * i not in live]
    return plan._replace(parts=tuple(merged), chain=tuple(chain), beyond=b"")


def _put(parts: List[builder.Part], part: builder.Part) -> None:
    if parts and parts[-1].kind == part.kind == builder.FREE:
        part = builder.free(parts.pop().size + part.size)
    parts.append(part)


def expected(old, new) -> Tuple[str, ...]:
    """What became of a block, told from the plans alone."""
    if new is None:
        return ("went",)
    if old is None:
        return ("came",)
    (was, before), (now, after) = old, new
    padded = before.data[:len(after.data)]
    padded += bytes(len(after.data) - len(padded))
    found = [("slid", was != now),
             ("grew", len(after.data) > len(before.data)),
             ("shrank", len(after.data) < len(before.data)),
             ("bytes changed", after.data != padded)]
    for flag, bit in (("dirty", builder.DIRTY), ("lock", builder.LOCK)):
        was, now = before.status & bit, after.status & bit
        found += [(f"{flag} set", now > was), (f"{flag} cleared", now < was)]
    found.append(("stamped", (before.status ^ after.status) & 255 != 0))
    return tuple(word for word, so in found if so)


class Changes(unittest.TestCase):
    def test_each_alone(self) -> None:
        block = builder.relocatable(16, b"profiles")
        longer = builder.relocatable(16, b"profiles\0\0\0\0")
        written = builder.relocatable(16, b"profiles\0\0\0X")
        shorter = builder.relocatable(16, b"prof")
        other = builder.relocatable(16, b"proFILes")
        for after, front, words in (
                (block, 8, ()), (block, 12, ("slid",)),
                (longer, 8, ("grew",)), (shorter, 8, ("shrank",)),
                (other, 8, ("bytes changed",)),
                # Added bytes are zero until somebody writes to them.
                (written, 8, ("grew", "bytes changed")),
                (other, 0, ("slid", "bytes changed"))):
            self.assertEqual(words_of(one(block), one(after, front)),
                             {"handle 16": words})

    def test_numbers(self) -> None:
        a = one(builder.relocatable(16, b"profiles"))
        b = one(builder.relocatable(16, b"proFILes\0\0\0X"), 4)
        change, = changes(Zone(a.image()), Zone(b.image()))
        self.assertEqual((change.slid, change.grown, change.changed,
                          change.runs), (-4, 4, 4, ((3, 6), (11, 12))))

    def test_marks(self) -> None:
        page = builder.page(7, b"mark", builder.DIRTY | 3)
        for status, words in (
                (builder.DIRTY | 3, ()), (3, ("dirty cleared",)),
                (builder.DIRTY | builder.LOCK | 3, ("lock set",)),
                (builder.LOCK | 4, ("dirty cleared", "lock set", "stamped"))):
            self.assertEqual(words_of(one(page),
                                      one(page._replace(status=status))),
                             {"name 7": words})

    def test_went_and_came(self) -> None:
        cache, dropped = builder.cache_and_dropped()
        found = {target: words for target, words
                 in words_of(cache, dropped).items() if words}
        self.assertEqual(found, {"name 102": ("went",), "name 103": ("came",)})
        # A handle, a pointer and a name of one number are three blocks.
        self.assertEqual(words_of(one(builder.page(20, b"mark")),
                                  one(builder.fixed(b"mark" * 2), 0)),
                         {"name 20": ("went",), "pointer 20": ("came",)})

    def test_random_zones(self) -> None:
        rng, seen = random.Random(1987), set()
        for _ in range(300):
            a = builder.random_plan(rng, rng.randint(1, 20), 32,
                                    rng.randint(0, 3), 2, pages=3)
            b = later(rng, a)
            old, new = keys(a), keys(b)
            found = words_of(a, b)
            self.assertEqual(found, {
                key: expected(old.get(key), new.get(key))
                for key in old.keys() | new.keys()})
            seen.update(word for words in found.values() for word in words)
        self.assertEqual(seen, {"slid", "grew", "shrank", "bytes changed",
                                "went", "came", "dirty set", "dirty cleared",
                                "lock set", "lock cleared", "stamped"})

    def test_chains_that_begin_alike(self) -> None:
        chains = (16, 20, 24, 28), (16, 28, 20, 24)
        zones = [Zone(builder.Plan(4, (), chain).image()) for chain in chains]
        rows = [line.split() for line in lines(*zones, changes(*zones))]
        self.assertIn("chain of free masters other".split(), rows)

    def test_the_table_tells_every_difference(self) -> None:
        rng, alike = random.Random(33), 0
        for _ in range(300):
            a = builder.random_plan(rng, rng.randint(0, 3), 16, 0, 2, pages=1)
            image = a.image()
            b = a if rng.random() < 0.2 else later(rng, a)
            other = b.image()
            if rng.random() < 0.2:
                other = b._replace(chain=b.chain[::-1]).image()
            zones = Zone(image), Zone(other)
            same = zones[0].data == zones[1].data
            said = list(lines(*zones, changes(*zones)))
            numbers = [line.split()[-1] for line in said[1:said.index("")]]
            nothing = set(numbers) == {"-"} and len(said) == len(numbers) + 3
            self.assertEqual(nothing, same, "\n".join(said))
            alike += same
        self.assertTrue(30 < alike < 270)


class Printed(Trial):
    command = support.DIFF

    def test_table(self) -> None:
        text = self.prints(self.run_it(FULL, GROWN), status=1)
        rows = [line.split() for line in text.splitlines()]
        for row in ("m 4 12 +8", "bkFst 32 64 +32", "L 160 160 -",
                    "handle 20 40 64 +24 12 12 - - - slid",
                    "handle 16 116 100 -16 12 12 - - - slid",
                    "handle 32 - 116 - - 16 - - - came"):
            self.assertIn(row.split(), rows)
        self.assertIn("blocks: 5 in both (1 alike, 4 slid, 0 grew, 0 shrank, "
                      "0 bytes changed, 0 marked), 0 went, 1 came\n", text)
        self.assertNotIn("pointer 156", text)

    def test_alike(self) -> None:
        # Bytes beyond L are free of any rule.
        longer = self.file("longer", support.R1 + b"beyond")
        text = self.prints(self.run_it(self.file("a", support.R1), longer))
        self.assertTrue(text.endswith("0 went, 0 came\n"))

    def test_standard_input(self) -> None:
        path = self.file("a", support.R1)
        for arguments in ((path, "-"), ("-", path)):
            self.prints(self.run_it(*arguments, data=support.R1))
        self.fails(self.run_it("-", "-", data=support.R1), "usage", status=2,
                   lines=2)

    def test_json(self) -> None:
        told = json.loads(self.prints(self.run_it(FULL, GROWN, "--json"),
                                      status=1))
        self.assertFalse(told["alike"])
        self.assertEqual((told["a"]["m"], told["b"]["m"]), (4, 12))
        blocks = {str((block["b"] or block["a"]).get("handle")): block
                  for block in told["blocks"]}
        self.assertEqual(blocks["20"]["slid"], 24)
        self.assertEqual(blocks["20"]["what"], ["slid"])
        self.assertIsNone(blocks["32"]["a"])
        self.assertEqual(blocks["32"]["b"]["data"], b"P333333333333333".hex())
        self.assertEqual(blocks["None"]["what"], [])  # the fixed block

    def test_map(self) -> None:
        svg = os.path.join("new", "both.svg")
        self.prints(self.run_it(FULL, GROWN, "--map", svg), status=1)
        with open(os.path.join(self.place, svg), encoding="utf-8") as stream:
            drawn = stream.read()
        done = self.run_it(FULL, GROWN, "--map", "-")
        self.assertEqual((done.returncode, done.stdout.decode()), (1, drawn))
        self.fails(self.run_it(FULL, GROWN, "--map", "-", "--json"), "--map -",
                   status=2, lines=2)

    def test_map_spares_both_images(self) -> None:
        a, b = self.file("a", support.R1), self.file("b", support.R1)
        for image in (a, b):
            self.fails(self.run_it(a, b, "--map", image), "overwrite",
                       status=2)
            with open(image, "rb") as stream:
                self.assertEqual(stream.read(), support.R1)

    def test_trouble(self) -> None:
        good = self.file("good", support.R1)
        bad = self.file("bad", support.R1[:-1])
        for pair in ((good, bad), (bad, good)):
            self.fails(self.run_it(*pair), bad, "not a well-formed zone",
                       "L is at most the buffer's length", status=2)
        self.fails(self.run_it(good, "none"), "none", status=2)
        self.fails(self.run_it(good), "usage", status=2, lines=2)

    def test_lost_output(self) -> None:
        done = self.without_output(FULL, GROWN)
        self.assertEqual((done.returncode, done.stderr), (2, b""))
        if os.path.exists("/dev/full"):
            self.complains(self.with_full_output(FULL, GROWN),
                           "standard output", status=2)


class Picture(unittest.TestCase):
    def drawn(self, a: builder.Plan, b: builder.Plan):
        zones = Zone(a.image()), Zone(b.image())
        return tree.fromstring(draw_both(*zones, changes(*zones), "a", "b"))

    def ribbons(self, root) -> Dict[str, str]:
        """The colour of each ribbon by its tip."""
        return {title.text: polygon.get("fill")
                for polygon in root.iter(SVG + "polygon")
                for title in polygon.iter(SVG + "title")}

    def test_ribbons(self) -> None:
        cache, dropped = builder.cache_and_dropped()
        found = self.ribbons(self.drawn(cache, dropped))
        self.assertEqual(len(found), 7)
        self.assertEqual(found["name 102: went"], ribbon.WENT)
        self.assertEqual(found["name 103: came"], ribbon.CAME)
        self.assertEqual(found["handle 16: alike"], ribbon.ALIKE)

    def test_words(self) -> None:
        root = self.drawn(*builder.full_and_grown())
        words = [text.text for text in root.iter(SVG + "text")]
        for expected_ in ("slid +24", "slid -16", "came", "handle 32", "a 0",
                          "b 0"):
            self.assertIn(expected_, words)

    def test_a_ribbon_goes_from_place_to_place(self) -> None:
        block = builder.relocatable(16, b"profiles")
        root = self.drawn(one(block), one(block, 16))
        polygon, = root.iter(SVG + "polygon")
        points = [tuple(map(float, point.split(",")))
                  for point in polygon.get("points").split()]
        blocks = [rect for rect in root.iter(SVG + "rect")
                  for title in rect.iter(SVG + "title")
                  if "handle 16" in title.text]
        above, below = sorted(blocks, key=lambda rect: float(rect.get("y")))
        for rect, (x, y), down in ((above, points[0], 1),
                                   (below, points[3], 0)):
            self.assertEqual(x, float(rect.get("x")))
            self.assertEqual(y, float(rect.get("y"))
                             + down * float(rect.get("height")))

    def test_changed_bytes(self) -> None:
        a = one(builder.relocatable(16, b"profiles"))
        b = one(builder.relocatable(16, b"proFILes"))
        strips = [rect for rect in self.drawn(a, b).iter(SVG + "rect")
                  if rect.get("fill") == "#e8590c"]
        # One in the legend, and one of three bytes among 64.
        self.assertEqual(len(strips), 2)
        self.assertAlmostEqual(float(strips[1].get("width")), 3 * 1000 / 64, 1)

    def test_every_block_is_there(self) -> None:
        rng = random.Random(7)
        for blocks, length in ((0, 16), (5, 200), (60, 4096), (700, 65536)):
            a = builder.random_plan(rng, blocks, 80, blocks // 50, 3, length,
                                    blocks // 5)
            b = later(rng, a)
            tips = " | ".join(self.ribbons(self.drawn(a, b)))
            for key in keys(a).keys() | keys(b).keys():
                self.assertIn(f"{key}:", tips)

    def test_zones_of_other_lengths(self) -> None:
        small, chain = support.R1, (16, 20, 24, 28)
        large = builder.Plan(4, (builder.free(2048 - 32),), chain).image()
        for a, b in ((small, large), (large, small)):
            zones = Zone(a), Zone(b)
            root = tree.fromstring(draw_both(*zones, changes(*zones)))
            words = [text.text for text in root.iter(SVG + "text")]
            self.assertEqual(words.count("L"), 2)

    def test_kept_picture(self) -> None:
        path = os.path.join(support.EXAMPLES, "full_and_grown.svg")
        zones = [Zone(plan.image()) for plan in builder.full_and_grown()]
        with open(path, encoding="utf-8", newline="") as stream:
            self.assertEqual(stream.read(), draw_both(
                *zones, changes(*zones), "full.zone", "grown.zone"))


if __name__ == "__main__":
    unittest.main()
