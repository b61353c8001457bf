"""Damaged images: the broken rule and its place."""

import pickle
import random
import unittest
from typing import Set

import builder
import oracle
import support
from nafelode import Zone, ZoneError, check, fault, rules


def sample() -> builder.Plan:
    """Masters at 16 to 28, blocks at 32, 44, 52, 60 and 68; L is 72."""
    return builder.Plan(4, (builder.relocatable(20, b"profiles"),
                            builder.free(8),
                            builder.fixed(b"edge"),
                            builder.relocatable(16, b"mark"),
                            builder.free(4)), (28, 24))


def pages() -> builder.Plan:
    """Pages at 20, 32 and 48, a free block at 40; L is 64."""
    return builder.Plan(1, (builder.page(7, b"mark", builder.DIRTY | 3),
                            builder.page(0, b"", builder.LOCK),
                            builder.free(8),
                            builder.page(2**32 - 1, b"recipe..", 255)),
                        (16,), b"", 3)


def put(image: bytearray, offset: int, value: int,
        width: int = 4) -> bytearray:
    image[offset:offset + width] = value.to_bytes(width, "big")
    return image


class EveryRule(unittest.TestCase):
    """Each rule broken, most of them alone, with the offset that is named."""

    broken: Set[str] = set()

    def names(self, image: bytes, rule: str, offset: int) -> None:
        error = fault(image)
        self.assertIsNotNone(error)
        self.assertEqual((error.rule, error.offset), (rule, offset))
        self.assertFalse(oracle.well_formed(image))
        self.assertEqual(check(image), (False, 0))
        with self.assertRaises(ZoneError):
            Zone(image)
        self.broken.add(rule)

    @classmethod
    def tearDownClass(cls) -> None:
        missing = set(rules.WELL_FORMED) - cls.broken
        if missing:
            raise AssertionError(f"rules never broken: {sorted(missing)}")

    def test_sample_is_well_formed(self) -> None:
        self.assertIsNone(fault(sample().image()))

    def test_buffer(self) -> None:
        for length in range(16):
            self.names(support.R1[:length], rules.BUFFER, length)

    def test_length(self) -> None:
        image = sample().image()
        self.names(put(image[:], 0, 70), rules.LENGTH_MULTIPLE, 0)
        self.names(put(image[:], 0, 76), rules.LENGTH_BUFFER, 0)
        self.names(image[:-1], rules.LENGTH_BUFFER, 0)
        long = put(bytearray(1_048_580), 0, 1_048_580)
        put(long, 4, 16)
        put(long, 16, (1_048_580 - 16) // 2)
        self.names(long, rules.LENGTH_LIMIT, 0)

    def test_bk_fst(self) -> None:
        image = sample().image()
        self.names(put(image[:], 4, 36), rules.BK_FST, 4)
        self.names(put(image[:], 8, 0x40000004), rules.BK_FST, 4)
        short = put(put(sample().image(), 0, 28), 12, 0)
        self.names(short, rules.BK_FST_LIMIT, 4)
        self.names(bytes(4) + image[4:], rules.BK_FST_LIMIT, 4)

    def test_m(self) -> None:
        chain = tuple(16 + 4 * i for i in range(8189))
        image = builder.Plan(8189, (), chain).image()
        self.names(image, rules.M_LIMIT, 8)

    def test_header_zero(self) -> None:
        for bit in range(8):
            self.names(put(sample().image(), 15, 1 << bit, 1),
                       rules.HEADER_ZERO, 15)

    def test_any_clock(self) -> None:
        for plan in (sample(), pages()):
            for clock in range(256):
                image = put(plan.image(), 14, clock, 1)
                self.assertIsNone(fault(image))
                self.assertTrue(oracle.well_formed(image))

    def test_size(self) -> None:
        image = sample().image()
        for words in (0, 1, 3):
            self.names(put(image[:], 44, words), rules.SIZES, 44)
            self.names(put(image[:], 52, 0x4000 | words, 2), rules.SIZES, 52)
            self.names(put(image[:], 60, 0x8000 | words, 2), rules.SIZES, 60)
        for words in (0, 1, 3, 5):
            self.names(put(pages().image(), 20, 0xC000 | words, 2),
                       rules.SIZES, 20)
        # Not the low 16 bits of a free block's size alone.
        self.names(put(image[:], 44, 0x10003), rules.SIZES, 44)

    def test_page_size(self) -> None:
        self.names(put(pages().image(), 20, 0xC002, 2), rules.PAGE_SIZE, 20)
        # Also where no byte of a name follows.
        last = builder.Plan(0, (builder.fixed(b""),) * 2, ()).image()
        self.names(put(last, 20, 0xC002, 2), rules.PAGE_SIZE, 20)

    def test_status(self) -> None:
        for page in (20, 32, 48):
            for bit in range(6):
                image = pages().image()
                image[page + 6] |= 1 << bit
                self.names(image, rules.STATUS, page + 6)

    def test_names(self) -> None:
        self.names(put(pages().image(), 50, 7), rules.NAMES, 50)
        self.names(put(pages().image(), 50, 0), rules.NAMES, 50)
        self.names(put(pages().image(), 34, 7), rules.NAMES, 34)
        # All four bytes count.
        for bit in range(32):
            image = put(pages().image(), 50, 7 ^ 1 << bit)
            self.assertIsNone(fault(image))

    def test_tile(self) -> None:
        image = sample().image()
        self.names(put(image[:], 68, 4), rules.TILE, 68)
        self.names(put(image[:], 60, 0xBFFE, 2), rules.TILE, 60)
        self.names(put(image[:], 60, 0xFFFE, 2), rules.TILE, 60)
        self.names(put(image[:], 44, 0x3FFFFFFE), rules.TILE, 44)
        # Bytes beyond L belong to no block, even where the buffer has them.
        self.names(put(image[:] + bytes(8), 68, 4), rules.TILE, 68)

    def test_neighbours(self) -> None:
        plan = builder.Plan(0, (builder.free(8), builder.free(4)), ())
        self.names(plan.image(), rules.NEIGHBOURS, 24)

    def test_free_zeros(self) -> None:
        for offset in range(48, 52):
            self.names(put(sample().image(), offset, 1, 1),
                       rules.FREE_ZEROS, offset)

    def test_second_word(self) -> None:
        for bit in range(16):
            self.names(put(sample().image(), 54, 1 << bit, 2),
                       rules.SECOND_WORD, 54)
        # Also where no data follow, up to L.
        last = builder.Plan(0, (builder.fixed(b""),) * 2, ()).image()
        self.names(put(last[:], 18, 1, 2), rules.SECOND_WORD, 18)
        self.names(put(last[:], 22, 0xFFFF, 2), rules.SECOND_WORD, 22)

    def test_older_image(self) -> None:
        # A fixed block had its data from byte 2: six bytes here.
        image = sample().image()
        image[54:60] = b"splice"
        self.names(image, rules.SECOND_WORD, 54)
        image[54:60] = b"\0\0lice"
        self.assertEqual(Zone(image).read_pointer(56), b"lice")

    def test_handle(self) -> None:
        for handle in (0, 12, 18, 32, 0xFFFC):
            self.names(put(sample().image(), 34, handle, 2), rules.HANDLE, 34)

    def test_master(self) -> None:
        # Reel B: the recipe slides, its master pointer doesn't.
        self.names(put(sample().image(), 16, 60), rules.MASTER, 16)
        self.names(put(sample().image(), 62, 20, 2), rules.MASTER, 20)
        self.names(put(sample().image(), 34, 28, 2), rules.MASTER, 28)

    def test_chain_masters(self) -> None:
        image = sample().image()
        for link in (4, 12, 26, 32, 0xFFFC):
            self.names(put(image[:], 12, link, 2), rules.CHAIN_MASTERS, 12)
            self.names(put(image[:], 24, link), rules.CHAIN_MASTERS, 24)
        # The link has four bytes: its low two are a master's offset.
        self.names(put(image[:], 28, 0x10018), rules.CHAIN_MASTERS, 28)
        # A live master in the chain: it holds no link.
        self.names(put(image[:], 24, 16), rules.CHAIN_MASTERS, 16)

    def test_chain_end(self) -> None:
        self.names(put(sample().image(), 24, 24), rules.CHAIN_END, 24)
        self.names(put(sample().image(), 24, 28), rules.CHAIN_END, 24)

    def test_count(self) -> None:
        self.names(put(sample().image(), 12, 24, 2), rules.COUNT, 28)
        self.names(put(sample().image(), 12, 0, 2), rules.COUNT, 24)
        self.names(put(sample().image(), 28, 0), rules.COUNT, 24)


class ReadingOrder(unittest.TestCase):
    def test_each_damage_hides_the_later_ones(self) -> None:
        image = sample().image()
        steps = (
            (28, 0, 4, rules.COUNT, 24),
            (28, 8, 4, rules.CHAIN_MASTERS, 28),
            (62, 2, 2, rules.HANDLE, 62),
            (54, 1, 2, rules.SECOND_WORD, 54),
            (51, 1, 1, rules.FREE_ZEROS, 51),
            (44, 0, 4, rules.SIZES, 44),
            (32, 0xC0, 1, rules.STATUS, 38),
            (32, 0xC002, 2, rules.PAGE_SIZE, 32),
            (15, 1, 1, rules.HEADER_ZERO, 15),
            (8, 9, 4, rules.BK_FST, 4),
            (0, 3, 4, rules.LENGTH_MULTIPLE, 0),
        )
        for offset, value, width, rule, at in steps:
            error = fault(put(image, offset, value, width))
            self.assertEqual((error.rule, error.offset), (rule, at))

    def test_of_one_page(self) -> None:
        image = put(pages().image(), 50, 7)
        for offset, value, rule, at in ((54, 0x3F00, rules.STATUS, 54),
                                        (48, 0xC00A, rules.TILE, 48),
                                        (48, 0xC002, rules.PAGE_SIZE, 48),
                                        (48, 0xC003, rules.SIZES, 48)):
            error = fault(put(image, offset, value, 2))
            self.assertEqual((error.rule, error.offset), (rule, at))


class AnyBytes(unittest.TestCase):
    """Nothing but ZoneError, and the oracle's yes or no."""

    def agree(self, image: bytes) -> None:
        error = fault(image)
        self.assertEqual(error is None, oracle.well_formed(image), image.hex())
        if error is not None:
            self.assertIn(error.rule, rules.WELL_FORMED)
            self.assertLessEqual(error.offset, len(image))

    def test_every_byte_of_a_small_zone(self) -> None:
        for image in (sample().image(), pages().image()):
            for offset in range(len(image)):
                kept = image[offset]
                for value in range(256):
                    image[offset] = value
                    self.agree(image)
                image[offset] = kept

    def test_damaged_zones(self) -> None:
        rng = random.Random(11)
        for _ in range(1500):
            blocks = rng.randint(0, 12)
            plan = builder.random_plan(rng, blocks, 32, blocks // 4,
                                       rng.randint(0, 4),
                                       pages=rng.choice((0, blocks // 2)))
            image = plan.image()
            self.agree(image)
            for _ in range(rng.randint(1, 3)):
                self.damage(rng, image)
            self.agree(image)

    def damage(self, rng: random.Random, image: bytearray) -> None:
        at = rng.randrange(len(image) + 1)
        kind = rng.randrange(4)
        if kind == 0:
            image[at:at + 1] = bytes([rng.randrange(256)])
        elif kind == 1:
            at -= at % 4
            image[at:at + 4] = (4 * rng.randrange(24)).to_bytes(4, "big")
        elif kind == 2:
            source = 4 * rng.randrange(len(image) // 4 + 1)
            image[at - at % 4:at - at % 4 + 4] = image[source:source + 4]
        else:
            del image[at:]

    def test_noise(self) -> None:
        rng = random.Random(12)
        for _ in range(300):
            self.agree(rng.randbytes(rng.randrange(80)))
            # Noise behind a plausible header.
            self.agree(support.R1[:16] + rng.randbytes(48))
            self.agree(support.R1[:32] + rng.randbytes(32))

    def test_long_cycle(self) -> None:
        chain = tuple(16 + 4 * i for i in range(8188))
        image = builder.Plan(8188, (), chain).image()
        error = fault(put(image, chain[-1], 16))
        self.assertEqual((error.rule, error.offset),
                         (rules.CHAIN_END, chain[-1]))


class Errors(unittest.TestCase):
    def test_message(self) -> None:
        error = fault(put(pages().image(), 50, 7))
        self.assertIn("offset 50 (0x32)", str(error))
        self.assertIn("the pages at 20 and 48 both have name 7", str(error))
        self.assertIn("names are distinct", str(error))

    def test_older_image(self) -> None:
        error = fault(put(sample().image(), 54, 0x7370, 2))
        self.assertIn("offset 54 (0x36)", str(error))
        self.assertIn("the fixed block at 52 has second word 0x7370, where an "
                      "older image has data", str(error))

    def test_pickled(self) -> None:
        error = pickle.loads(pickle.dumps(fault(b"")))
        self.assertEqual((error.rule, error.offset), (rules.BUFFER, 0))


if __name__ == "__main__":
    unittest.main()
