"""One block byte by byte, and a zone as JSON."""

import json
import os
import random
import unittest

import builder
import support
from nafelode import BlockType, Zone, dump
from nafelode.as_json import zone_text
from trial import Trial


def data_of(lines) -> bytes:
    """The bytes that a dump's lines show, each line at its place."""
    out = bytearray()
    for line in lines[2:]:
        words = line[:57].split()
        assert int(words[0]) == len(out), line
        out += bytes.fromhex("".join(words[2:]))
    return bytes(out)


class Dump(unittest.TestCase):
    def test_every_byte(self) -> None:
        rng = random.Random(16)
        for size in (0, 4, 12, 16, 20, 256, 32_760):
            data = rng.randbytes(size)
            zone = Zone(builder.Plan(1, (builder.free(8),
                                         builder.relocatable(16, data)),
                                     ()).image())
            lines = list(dump.block_lines(zone, zone.by_handle(16)))
            self.assertEqual(lines[0], f"handle 16: relocatable block at 28, "
                             f"size {size + 4}; {size} data bytes from 32")
            self.assertEqual(data_of(lines), data)
            for line in lines[2:]:
                place, in_zone = map(int, line.split()[:2])
                self.assertEqual(in_zone, 32 + place)

    def test_around(self) -> None:
        data = bytes(range(40))
        for offset, places in ((0, "> 0, 16"), (20, "0, > 16, 32"),
                               (39, "16, > 32"), (40, "16, > 32")):
            lines = dump.around(data, offset)
            shown = [" ".join(line[:9].split()) for line in lines]
            self.assertEqual(", ".join(shown), places)


class Printed(Trial):
    CACHE = os.path.join(support.EXAMPLES, "cache.zone")

    def block(self, *arguments: str):
        return self.prints(self.run_it(self.CACHE, *arguments)).splitlines()

    def test_each_way(self) -> None:
        page = self.block("--name", "7")
        self.assertEqual(page[0], "name 7: page (age 2, dirty lock) at 116, "
                         "size 24; 16 data bytes from 124")
        self.assertEqual(page[2].split(), "0 124 47524144 45204320 31323020 "
                         "47534D2E GRADE C 120 GSM.".split())
        self.assertEqual(data_of(self.block("--pointer", "0x70")),
                         bytes(range(10, 14)))
        self.assertEqual(data_of(self.block("--handle", "16")),
                         b"PROFILE 01..")
        self.assertEqual(self.block("--name", "0"),
                         ["name 0: page (age 0, lock) at 100, size 8; 0 data "
                          "bytes from 108"])

    def test_no_such_block(self) -> None:
        for option, words in (("--handle", "20 is no live handle"),
                              ("--pointer", "no fixed block has pointer 20"),
                              ("--name", "no page has name 20")):
            self.fails(self.run_it(self.CACHE, option, "20"), self.CACHE,
                       words)

    def test_with_a_map(self) -> None:
        svg = os.path.join(self.place, "map.svg")
        self.assertEqual(self.block("--name", "7", "--map", svg),
                         self.block("--name", "7"))
        self.assertTrue(os.path.exists(svg))

    def test_json(self) -> None:
        told = json.loads("\n".join(self.block("--name", "7", "--json")))
        self.assertEqual(told, {"fault": None, "block": {
            "offset": 116, "type": "page", "size": 24, "name": 7,
            "dirty": True, "lock": True, "stamp": 5, "age": 2,
            "data_offset": 124, "data_size": 16,
            "data": b"GRADE C 120 GSM.".hex()}})

    def test_zone_as_json(self) -> None:
        told = json.loads("\n".join(self.block("--json")))
        self.assertEqual((told["length"], told["clock"], told["chain"]),
                         (160, 7, [20]))
        self.assertEqual(told["sum"], {"total": 32, "largest": 20})
        mill = self.file("mill", builder.limits_bytes(range(1, 20)))
        told = json.loads("\n".join(self.block("--json", "--strata", mill)))
        self.assertEqual([(stratum["least"], stratum["count"])
                          for stratum in told["strata"] if stratum["count"]],
                         [(12, 1), (20, 1)])


class Json(unittest.TestCase):
    def test_all_of_a_zone(self) -> None:
        """The image can be laid down again from what is told."""
        rng = random.Random(61)
        for _ in range(60):
            plan = builder.random_plan(rng, rng.randint(0, 30), 48,
                                       rng.randint(0, 4), 3,
                                       pages=rng.randint(0, 4))
            zone = Zone(plan.image())
            told = json.loads(zone_text(zone))
            again = builder.Plan(told["m"], tuple(map(self.part,
                                                      told["blocks"])),
                                 tuple(told["chain"]), b"", told["clock"])
            self.assertEqual(bytes(again.image()), zone.data)
            self.assertIsNone(told["fault"])
            self.assertEqual([bay["sum"] for bay in told["bays"]],
                             [bay.sum for bay in zone.bays])
            self.assertEqual([stratum["count"] for stratum in told["strata"]],
                             list(zone.census()))

    def part(self, block) -> builder.Part:
        data = bytes.fromhex(block.get("data", ""))
        kind = BlockType[block["type"].upper()]
        flags = (builder.DIRTY * block.get("dirty", False)
                 | builder.LOCK * block.get("lock", False))
        return builder.Part(int(kind), block["size"], block.get("handle", 0),
                            data, block.get("name", 0),
                            flags | block.get("stamp", 0))


if __name__ == "__main__":
    unittest.main()
