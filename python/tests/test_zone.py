"""What is read from well-formed zones."""

import os
import random
import unittest

import builder
import support
from nafelode import (
    BlockType,
    Zone,
    ZoneError,
    ZonePart,
    check,
    decode_roster,
    read,
)


def r2() -> bytearray:
    """Rig sheet, R2: relocatable 6 on a fresh zone."""
    plan = builder.Plan(4, (builder.relocatable(16, bytes(8)),
                            builder.free(20)), (20, 24, 28))
    return plan.image()


class RigSheet(unittest.TestCase):
    def test_r1_fresh(self) -> None:
        zone = Zone(support.R1)
        self.assertEqual((zone.length, zone.bk_fst, zone.m, zone.h_fst_free),
                         (64, 32, 4, 16))
        self.assertEqual(zone.chain, (16, 20, 24, 28))
        self.assertEqual([tuple(block) for block in zone.blocks],
                         [(32, BlockType.FREE, 32, None, None)])
        self.assertEqual(zone.clock, 0)
        self.assertEqual(zone.sum(), (32, 32))
        self.assertEqual(check(support.R1), (True, 0))

    def test_r2_relocatable(self) -> None:
        image = r2()
        self.assertEqual(image[32:36].hex(), "80060010")
        zone = Zone(image)
        block = zone.by_handle(16)
        self.assertEqual((block.data_offset, block.data_size), (36, 8))
        self.assertEqual(check(image), (True, 1))

    def test_r3_compacted(self) -> None:
        # Handle 20 slid to 36, the new handle 16 stands at 48 with size 16.
        plan = builder.Plan(4, (builder.relocatable(20, b"recipe!!"),
                                builder.relocatable(16, bytes(16))), (24, 28))
        zone = Zone(plan.image())
        self.assertEqual(zone.read_handle(20), b"recipe!!")
        self.assertEqual(zone.by_handle(20).data_offset, 36)
        self.assertEqual(zone.by_handle(16).data_offset, 48)
        self.assertEqual(zone.sum(), (0, 0))

    def test_r5_fixed(self) -> None:
        plan = builder.Plan(4, (builder.free(20), builder.fixed(b"splices!")),
                            (16, 20, 24, 28))
        image = plan.image()
        self.assertEqual(image[52:56].hex(), "40060000")
        zone = Zone(image)
        self.assertEqual(zone.pointers, (56,))
        self.assertEqual(zone.by_pointer(56).data_size, 8)
        self.assertEqual(zone.read_pointer(56), b"splices!")

    def test_r6_bays_are_not_added(self) -> None:
        # Fixed 0, 8, 0 at 64, 52, 48; then the one at 52 is freed.
        plan = builder.Plan(4, (builder.free(12), builder.fixed(b""),
                                builder.free(12), builder.fixed(b"")),
                            (16, 20, 24, 28))
        zone = Zone(plan.image())
        self.assertEqual(zone.pointers, (48, 64))
        self.assertEqual([(bay.start, bay.end, bay.sum) for bay in zone.bays],
                         [(32, 44, 12), (48, 60, 12), (64, 64, 0)])
        self.assertEqual(zone.sum(), (24, 12))


class Grown(unittest.TestCase):
    """Eight masters more: the reader takes both images as they are."""

    def setUp(self) -> None:
        self.images = [plan.image() for plan in builder.full_and_grown()]
        self.full, self.grown = map(Zone, self.images)

    def test_header(self) -> None:
        full, grown = self.full, self.grown
        self.assertEqual((full.length, grown.length), (160, 160))
        self.assertEqual((full.m, full.bk_fst, full.chain), (4, 32, ()))
        self.assertEqual((grown.m, grown.bk_fst, grown.h_fst_free),
                         (12, 64, 36))
        self.assertEqual(grown.chain, tuple(range(36, 64, 4)))

    def test_names_read_the_same(self) -> None:
        for handle in self.full.handles:
            self.assertEqual(self.grown.read_handle(handle),
                             self.full.read_handle(handle))
        self.assertEqual(self.grown.handles, (*self.full.handles, 32))
        self.assertEqual(self.grown.pointers, self.full.pointers)
        self.assertEqual(self.grown.read_pointer(156),
                         self.full.read_pointer(156))

    def test_both_ways(self) -> None:
        moved = {handle: self.grown.by_handle(handle).offset
                 - self.full.by_handle(handle).offset
                 for handle in self.full.handles}
        self.assertEqual(moved, {16: -16, 20: 24, 24: 24, 28: -16})
        self.assertEqual(self.full.sum(), (68, 68))
        self.assertEqual(self.grown.sum(), (68 - 32 - 20, 16))
        self.assertEqual(self.grown.scatter(), (1, 16, 0))

    def test_a_free_master_of_the_new_ones(self) -> None:
        with self.assertRaises(ZoneError):
            self.grown.by_handle(36)
        self.assertEqual(self.grown.roster()[-1], (32, 16))

    def test_examples(self) -> None:
        for name, image in zip(("full", "grown"), self.images):
            path = os.path.join(support.EXAMPLES, name + ".zone")
            with open(path, "rb") as stream:
                self.assertEqual(stream.read(), bytes(image), name)


class Pages(unittest.TestCase):
    """A cache of pages, and the same after a create that dropped one."""

    def setUp(self) -> None:
        self.images = [plan.image() for plan in builder.cache_and_dropped()]
        self.cache, self.dropped = map(Zone, self.images)

    def test_pages(self) -> None:
        self.assertEqual((self.cache.clock, self.dropped.clock), (7, 8))
        self.assertEqual(self.cache.pages, ((101, False, False, 6, 1),
                                            (102, True, False, 2, 5),
                                            (0, False, True, 7, 0),
                                            (7, True, True, 5, 2)))
        self.assertEqual(self.cache.names, (0, 7, 101, 102))
        self.assertEqual(self.dropped.names, (0, 7, 101, 103))
        self.assertEqual(self.dropped.by_name(103).page,
                         (103, False, False, 8, 0))

    def test_by_name(self) -> None:
        block = self.cache.by_name(101)
        self.assertEqual((block.type, block.offset, block.size,
                          block.data_offset, block.data_size, block.name),
                         (BlockType.PAGE, 24, 24, 32, 16, 101))
        self.assertEqual((block.handle, block.pointer), (None, None))
        self.assertEqual(self.cache.read_name(102), b"GRADE B 80 GSM..")
        self.assertEqual(self.cache.read_name(102, 6, 4), b"B 80")
        self.assertEqual(self.cache.read_name(0), b"")
        self.assertEqual(self.dropped.read_name(103), bytes(16))
        with self.assertRaises(ZoneError) as caught:
            self.dropped.read_name(102)
        self.assertEqual(caught.exception.rule, "name absent")

    def test_no_handle(self) -> None:
        self.assertEqual(check(self.images[0]), (True, 1))
        self.assertEqual(self.cache.roster(), ((16, 12),))
        self.assertEqual(self.cache.sum(), (32, 20))
        self.assertEqual(self.cache.count(BlockType.PAGE), 4)

    def test_age_goes_round(self) -> None:
        for clock, stamp, age in ((0, 0, 0), (0, 255, 1), (3, 250, 9),
                                  (255, 0, 255), (9, 10, 255), (200, 7, 193)):
            plan = builder.Plan(0, (builder.page(1, b"", stamp),), (), b"",
                                clock)
            page, = Zone(plan.image()).pages
            self.assertEqual((page.stamp, page.age), (stamp, age))

    def test_flags_in_words(self) -> None:
        self.assertEqual([page.flags for page in self.cache.pages],
                         ["", "dirty", "lock", "dirty lock"])

    def test_largest(self) -> None:
        plan = builder.Plan(0, (builder.page(9, bytes(32_756)),), ())
        self.assertEqual(Zone(plan.image()).by_name(9).data_size, 32_756)

    def test_examples(self) -> None:
        for name, image in zip(("cache", "dropped"), self.images):
            path = os.path.join(support.EXAMPLES, name + ".zone")
            with open(path, "rb") as stream:
                self.assertEqual(stream.read(), bytes(image), name)


class RandomZones(unittest.TestCase):
    def test_as_planned(self) -> None:
        rng = random.Random(1983)
        for blocks in [0, 1, 2, 3, 5, 8] * 12 + [200]:
            plan = builder.random_plan(rng, blocks, 64, blocks // 4,
                                       rng.randint(0, 4),
                                       pages=rng.randint(0, blocks // 2))
            with self.subTest(plan=plan):
                self.compare(plan)

    def compare(self, plan: builder.Plan) -> None:
        zone = Zone(plan.image())
        self.assertEqual(zone.length, plan.length)
        self.assertEqual(zone.chain, plan.chain)
        self.assertEqual([(b.offset, b.type, b.size) for b in zone.blocks],
                         [(offset, part.kind, part.size) for offset, part
                          in zip(plan.offsets(), plan.parts)])
        for block, part in zip(zone.blocks, plan.parts):
            self.compare_block(zone, block, part)
        self.compare_free(zone, plan)
        self.compare_roster(zone, plan)

    def compare_block(self, zone, block, part) -> None:
        self.assertEqual(zone.read_block(block), part.data)
        self.assertEqual(block.data_size, len(part.data))
        if part.kind == builder.RELOCATABLE:
            self.assertEqual(zone.read_handle(part.handle), part.data)
            self.assertEqual(zone.by_handle(part.handle), block)
            self.assertIsNone(block.pointer)
        elif part.kind == builder.FIXED:
            self.assertEqual(block.pointer, block.offset + 4)
            self.assertEqual(zone.read_pointer(block.pointer), part.data)
            self.assertIsNone(block.handle)
        elif part.kind == builder.PAGE:
            stamp = part.status & 255
            self.assertEqual(block.page, (
                part.name, part.status >= builder.DIRTY,
                bool(part.status & builder.LOCK), stamp,
                (zone.clock - stamp) % 256))
            self.assertEqual(zone.by_name(part.name), block)
            self.assertEqual(zone.read_name(part.name), part.data)
        else:
            self.assertIsNone(block.data_offset)
            self.assertIsNone(block.handle)
            self.assertIsNone(block.pointer)

    def compare_free(self, zone: Zone, plan: builder.Plan) -> None:
        bays = [[]]
        for part in plan.parts:
            if part.kind == builder.FIXED:
                bays.append([])
            elif part.kind == builder.FREE:
                bays[-1].append(part.size)
        self.assertEqual([bay.sum for bay in zone.bays],
                         [sum(b) for b in bays])
        self.assertEqual(zone.bays[0].start, plan.bk_fst)
        self.assertEqual(zone.bays[-1].end, plan.length)
        total = sum(map(sum, bays))
        self.assertEqual(zone.sum(), (total, max(map(sum, bays))))
        apart = sum(sum(b) - max(b, default=0) for b in bays)
        self.assertEqual(zone.scatter().apart, apart)
        self.assertEqual(zone.scatter().pieces, sum(map(len, bays)))

    def compare_roster(self, zone: Zone, plan: builder.Plan) -> None:
        expected = sorted((part.handle, len(part.data)) for part in plan.parts
                          if part.kind == builder.RELOCATABLE)
        self.assertEqual(zone.live_handles, len(expected))
        self.assertEqual(list(zone.roster()), expected)
        self.assertEqual(list(zone.handles), [h for h, _ in expected])


class Census(unittest.TestCase):
    def counts(self, *sizes: int):
        parts = []
        for size in sizes:
            parts += [builder.free(size), builder.fixed(b"")]
        return Zone(builder.Plan(0, tuple(parts), ()).image()).census()

    def test_strata(self) -> None:
        counts = self.counts(4, 8, 12, 16, 28, 32)
        self.assertEqual(len(counts), 19)
        self.assertEqual(counts, (0, 1, 2, 2, 1) + (0,) * 14)

    def test_largest(self) -> None:
        plan = builder.Plan(0, (builder.free(1_048_560),), ())
        self.assertEqual(Zone(plan.image()).census(), (0,) * 18 + (1,))


class Limits(unittest.TestCase):
    def test_no_master_and_no_block(self) -> None:
        zone = Zone(builder.Plan(0, (), ()).image())
        self.assertEqual((zone.blocks, zone.chain), ((), ()))
        self.assertEqual([tuple(bay) for bay in zone.bays],
                         [(16, 16, (), 0, 0, 0)])
        self.assertEqual(zone.census(), (0,) * 19)

    def test_most_masters(self) -> None:
        chain = tuple(16 + 4 * i for i in range(8188))
        zone = Zone(builder.Plan(8188, (), chain).image())
        self.assertEqual(zone.chain, chain)

    def test_largest_blocks(self) -> None:
        plan = builder.Plan(1, (builder.relocatable(16, bytes(32_760)),
                                builder.fixed(bytes(32_760))), ())
        zone = Zone(plan.image())
        self.assertEqual([b.data_size for b in zone.blocks], [32_760, 32_760])

    def test_bytes_beyond_the_limit_are_not_read(self) -> None:
        image = support.R1 + b"\xff" * 1_100_000
        self.assertEqual(Zone(image).data, support.R1)


class Images(unittest.TestCase):
    def test_kinds_of_image(self) -> None:
        views = [support.R1, bytearray(support.R1), memoryview(support.R1),
                 memoryview(support.R1).cast("I"),
                 memoryview(bytes(b for x in support.R1 for b in (x, 9)))[::2]]
        for image in views:
            self.assertEqual(read(image).data, support.R1)

    def test_zone_keeps_its_own_bytes(self) -> None:
        image = bytearray(support.R1)
        zone = Zone(image)
        image[:] = bytes(64)
        self.assertEqual(zone.data, support.R1)


class Questions(unittest.TestCase):
    def setUp(self) -> None:
        plan = builder.Plan(3, (builder.relocatable(20, b"abcd"),
                                builder.free(4), builder.fixed(b"12345678"),
                                builder.fixed(b""), builder.fixed(b"")),
                            (24, 16))
        self.zone = Zone(plan.image())

    def refused(self, rule: str, call, *arguments) -> None:
        with self.assertRaises(ZoneError) as caught:
            call(*arguments)
        self.assertEqual(caught.exception.rule, rule)

    def test_stretches(self) -> None:
        self.assertEqual(self.zone.read_handle(20, 1, 2), b"bc")
        self.assertEqual(self.zone.read_handle(20, 4), b"")
        self.assertEqual(self.zone.read_pointer(44, 2), b"345678")

    def test_pointers_of_no_data(self) -> None:
        # The first is where the next block begins, the second is L.
        self.assertEqual((self.zone.pointers, self.zone.length),
                         ((44, 56, 60), 60))
        for pointer in (56, 60):
            block = self.zone.by_pointer(pointer)
            self.assertEqual((block.end, block.data_offset, block.data_size),
                             (pointer, pointer, 0))
            self.assertEqual(self.zone.read_pointer(pointer), b"")
            self.assertEqual(self.zone.read_pointer(pointer, 0, 0), b"")
            self.refused("offset + count, unwrapped, above data size",
                         self.zone.read_pointer, pointer, 0, 1)

    def test_refusals(self) -> None:
        zone = self.zone
        for handle in (0, 16, 24, 28, 65_556, -4, 2**32 + 20):
            self.refused("handle not live", zone.read_handle, handle)
        for pointer in (0, 20, 32, 40, 42, 48, 52, 54, 58, 64, -4):
            self.refused("pointer not that of a fixed block",
                         zone.read_pointer, pointer)
        past = "offset + count, unwrapped, above data size"
        for stretch in ((0, 5), (5, 0), (5,), (2**32 - 1, 1), (-1, 1),
                        (1, -1)):
            self.refused(past, zone.read_handle, 20, *stretch)


class WrongTypes(unittest.TestCase):
    """What a caller gives wrongly is a TypeError, which says why."""

    def setUp(self) -> None:
        self.zone = Zone(builder.cache_and_dropped()[0].image())

    def refused(self, what: str, call, *arguments) -> None:
        with self.assertRaises(TypeError) as caught:
            call(*arguments)
        for word in (what, "whole number",
                     type(arguments[-1]).__name__, repr(arguments[-1])):
            self.assertIn(word, str(caught.exception))

    def test_blocks(self) -> None:
        zone = self.zone
        for what, calls in (("handle", (zone.by_handle, zone.read_handle)),
                            ("pointer", (zone.by_pointer, zone.read_pointer)),
                            ("name", (zone.by_name, zone.read_name))):
            for call in calls:
                for value in ("16", b"16", 16.0, None, (16,)):
                    self.refused(what, call, value)

    def test_stretches(self) -> None:
        self.refused("offset", self.zone.read_handle, 16, "0")
        self.refused("offset", self.zone.read_handle, 16, None)
        self.refused("count", self.zone.read_handle, 16, 0, "2")
        self.refused("count", self.zone.read_block, self.zone.blocks[0], 0,
                     2.0)

    def test_rosters(self) -> None:
        self.refused("count", decode_roster, bytes(8), "1")

    def test_images(self) -> None:
        for image in ("zone", 7, None, ["zone"]):
            for call in (Zone, read, check, ZonePart, decode_roster):
                with self.assertRaises(TypeError) as caught:
                    call(image)
                self.assertIn(type(image).__name__, str(caught.exception))

    def test_numbers_of_other_types(self) -> None:
        class Number:
            def __index__(self) -> int:
                return 16

        self.assertEqual(self.zone.read_handle(Number()), b"PROFILE 01..")

    def test_errors_can_be_printed(self) -> None:
        for handle in (20, -4, 2**40):
            with self.assertRaises(ZoneError) as caught:
                self.zone.read_handle(handle)
            self.assertIn(f"{handle} is no live handle", str(caught.exception))


class Roster(unittest.TestCase):
    BYTES = bytes.fromhex("00000010 00000008 00000018 00000000")

    def test_rising_handle(self) -> None:
        # The blocks stand in another order, and in two bays.
        plan = builder.Plan(5, (builder.relocatable(24, bytes(4)),
                                builder.relocatable(16, bytes(8)),
                                builder.fixed(b""), builder.free(8),
                                builder.relocatable(20, b"")), (32, 28))
        zone = Zone(plan.image())
        self.assertEqual([b.handle for b in zone.blocks if b.handle],
                         [24, 16, 20])
        self.assertEqual(zone.roster(), ((16, 8), (20, 0), (24, 4)))

    def test_records(self) -> None:
        self.assertEqual(decode_roster(self.BYTES), ((16, 8), (24, 0)))
        self.assertEqual(decode_roster(b""), ())

    def test_later_bytes_stay_unread(self) -> None:
        self.assertEqual(decode_roster(self.BYTES + b"xyz", 1), ((16, 8),))

    def test_short(self) -> None:
        for image, count, offset in ((self.BYTES[:-1], None, 8),
                                     (self.BYTES, 3, 16), (b"1", None, 0)):
            with self.assertRaises(ZoneError) as caught:
                decode_roster(image, count)
            self.assertEqual(caught.exception.rule, "8 bytes a live handle")
            self.assertEqual(caught.exception.offset, offset)

    def test_order(self) -> None:
        # Records swapped, and one that comes twice.
        for handles in ((24, 16), (16, 24, 20), (16, 20, 20)):
            image = builder.roster_bytes((handle, 4) for handle in handles)
            with self.assertRaises(ZoneError) as caught:
                decode_roster(image)
            self.assertEqual(caught.exception.rule,
                             "records come by rising handle")
            self.assertEqual(caught.exception.offset, len(image) - 8)
        # What stands beyond the count is no record.
        self.assertEqual(decode_roster(image, 2), ((16, 4), (20, 4)))


if __name__ == "__main__":
    unittest.main()
