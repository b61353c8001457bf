"""Damaged images: what is read and printed of them, up to the fault."""

import json
import os
import random
import subprocess
import sys
import unittest

import builder
import support
from nafelode import Zone, ZoneError, ZonePart, fault, part, rules
from nafelode.as_json import part_text
from trial import Trial


def sample() -> builder.Plan:
    """Blocks at 32, 44, 52, 60 and 80; L is 96."""
    return builder.Plan(4, (builder.relocatable(20, b"profiles"),
                            builder.free(8), builder.fixed(b"edge"),
                            builder.page(7, b"recipe......"),
                            builder.relocatable(16, b"splice marks")),
                        (28, 24))


class Reading(unittest.TestCase):
    def test_whole(self) -> None:
        image = sample().image()
        zone, read = Zone(image), ZonePart(image)
        self.assertIsNone(read.fault)
        self.assertEqual((read.blocks, read.chain, read.data, read.m),
                         (zone.blocks, zone.chain, zone.data, zone.m))

    def test_every_cut(self) -> None:
        image = sample().image()
        blocks = Zone(image).blocks
        for length in range(len(image)):
            read = ZonePart(image[:length])
            self.assertEqual(read.fault.rule, rules.BUFFER if length < 16
                             else rules.LENGTH_BUFFER)
            self.assertEqual(read.blocks,
                             tuple(block for block in blocks
                                   if block.end <= length))
            self.assertEqual(read.length, 96 if length >= 16 else 0)

    def test_cut_and_broken(self) -> None:
        # L is named, which comes first; what follows the zeros is not read.
        image = sample().image()[:90]
        image[48] = 1
        read = ZonePart(image)
        self.assertEqual(read.fault.rule, rules.LENGTH_BUFFER)
        self.assertEqual([block.offset for block in read.blocks], [32])
        # Without a bkFst that holds no block can be found.
        image[7] = 48
        self.assertEqual(ZonePart(image).blocks, ())

    def test_blocks_before_the_fault(self) -> None:
        # Types, sizes and zeros are looked at in the block's own bytes.
        image = sample().image()
        blocks = Zone(image).blocks
        for count, block in enumerate(blocks):
            broken = bytearray(image)
            broken[block.offset + 1] ^= 1
            read = ZonePart(broken)
            self.assertEqual(read.fault.offset, block.offset)
            self.assertEqual(read.blocks, blocks[:count])
            self.assertEqual(read.chain, ())

    def test_chain_before_the_fault(self) -> None:
        image = sample().image()
        image[24:28] = bytes([0, 0, 0, 99])
        read = ZonePart(image)
        self.assertEqual(read.fault.rule, rules.CHAIN_MASTERS)
        self.assertEqual((len(read.blocks), read.chain), (5, (28, 24)))

    def test_any_damage(self) -> None:
        rng = random.Random(83)
        faults = set()
        for _ in range(3000):
            plan = builder.random_plan(rng, rng.randint(0, 9), 32,
                                       rng.randint(0, 2), 2, pages=2)
            image = plan.image()
            for _ in range(rng.randint(1, 3)):
                image[rng.randrange(len(image))] = rng.choice((0, 1, 64, 255))
            image = image[:rng.choice((len(image), rng.randint(0, 80)))]
            read, error = ZonePart(image), fault(image)
            self.assertEqual(str(read.fault), str(error))
            if error is None:
                continue
            faults.add(error.rule)
            for block in read.blocks:
                self.assertLessEqual(block.end, len(image))
                self.assertEqual(len(read.read_block(block)), block.data_size)
            self.assertTrue(list(part.lines(read)) or not image)
            self.assertEqual(json.loads(part_text(read, error))["fault"],
                             {"rule": error.rule, "offset": error.offset,
                              "detail": error.detail})
        self.assertGreater(len(faults), 10)


class Printed(Trial):
    def test_what_stands_before_the_fault(self) -> None:
        image = sample().image()
        image[49] = 0x4D  # in the free block at 44
        path = self.file("bad.bin", image)
        svg = os.path.join(self.place, "map.svg")
        done = self.run_it(path, "--map", svg)
        self.complains(done, path, "not a well-formed zone", "offset 49",
                       "the zeros of free blocks as above")
        self.assertFalse(os.path.exists(svg))
        text = done.stdout.decode("ascii")
        self.assertIn("zone: L 96, bkFst 32, m 4, hFstFree 28, clock 0\n",
                      text)
        self.assertIn("blocks before the fault: 1 (1 relocatable, 0 pages, "
                      "0 fixed, 0 free)\n", text)
        rows = [line.split() for line in text.splitlines()]
        self.assertIn("32 relocatable 12 handle 20 8 70726F66 "
                      "696C6573".split(), rows)
        self.assertIn("> 48 004D0000 40040000 65646765 C00A0000 "
                      ".M..@...edge....".split(), rows)
        self.assertNotIn("bays", text)

    def test_message_comes_last(self) -> None:
        path = self.file("bad.bin", sample().image()[:70])
        buffered = {**os.environ, "PYTHONUNBUFFERED": ""}
        done = subprocess.run([sys.executable, support.COMMAND, path],
                              stdout=subprocess.PIPE, env=buffered,
                              stderr=subprocess.STDOUT, timeout=60)
        lines = done.stdout.decode().splitlines()
        self.assertIn("blocks before the cut: 3", "\n".join(lines[:-1]))
        self.assertIn("L is at most the buffer's length", lines[-1])

    def test_nothing_to_show(self) -> None:
        self.fails(self.run_it("-", data=b""), "standard input", "offset 0",
                   "the buffer has at least 16 bytes")
        done = self.run_it("-", data=b"\0\0\1")
        self.complains(done, "offset 3")
        self.assertNotIn(b"zone:", done.stdout)

    def test_older_image(self) -> None:
        image = builder.Plan(0, (builder.fixed(b"edge"),), ()).image()
        image[18:24] = b"splice"
        path = self.file("older.bin", image)
        self.complains(self.run_it(path), path, "offset 18", "older image",
                       "a fixed block's header becomes 4 bytes")

    def test_map_alone(self) -> None:
        path = self.file("bad.bin", sample().image()[:-1])
        self.fails(self.run_it(path, "--map", "-"), "not a well-formed zone")

    def test_one_block(self) -> None:
        image = sample().image()
        image[64] ^= 0x3F  # the page's name is another, and its status word
        image[66] |= 1
        path = self.file("bad.bin", image)
        done = self.run_it(path, "--handle", "20")
        self.complains(done, "offset 66", "status word")
        self.assertIn(b"70726F66 696C6573", done.stdout)
        self.fails(self.run_it(path, "--handle", "16"),
                   "16 is no live handle before the fault", "offset 66")
        done = self.run_it(path, "--pointer", "56", "--json")
        self.complains(done, "offset 66")
        told = json.loads(done.stdout)
        self.assertEqual(told["block"]["data"], b"edge".hex())
        self.assertEqual(told["fault"]["offset"], 66)

    def test_json(self) -> None:
        path = self.file("bad.bin", sample().image()[:70])
        done = self.run_it(path, "--json")
        self.complains(done, "not a well-formed zone")
        told = json.loads(done.stdout)
        self.assertEqual((told["length"], len(told["blocks"])), (96, 3))
        self.assertEqual(told["fault"]["rule"], rules.LENGTH_BUFFER)
        self.assertNotIn("bays", told)


class Errors(unittest.TestCase):
    def test_zone_raises_the_fault(self) -> None:
        image = sample().image()[:-1]
        with self.assertRaises(ZoneError) as caught:
            Zone(image)
        self.assertEqual(str(caught.exception), str(fault(image)))


if __name__ == "__main__":
    unittest.main()
