"""Writes random.calls anew: random lists, steered by what is live in the zone.

usage: vectors/random_calls.py LIBRARY SEED > vectors/random.calls

The library says what is live, so that most calls are accepted; the answers
are none of this file's business. LIBRARY is the archive, or a shared library
linked from it.
"""

import os
import random
import sys

ROOT = os.path.dirname(os.path.dirname(os.path.abspath(__file__)))
sys.path.insert(0, os.path.join(ROOT, "python", "tests"))

from builder import broken_limits, random_limits
from library import HANDLE, POINTER, Library

# (L, masters, bytes beyond L, steps)
LISTS = ((64, 4, 0, 50), (64, 3, 8, 40), (96, 5, 16, 60), (128, 6, 0, 60),
         (160, 8, 12, 50), (256, 10, 0, 40), (384, 70, 0, 25), (508, 16, 4, 35),
         # few masters, so that the pool grows
         (300, 0, 4, 60), (240, 1, 0, 60), (400, 0, 8, 70))
# the same, in which every third call is a census, by limits mostly (document 02, U7)
LISTS_WITH_LIMITS = ((128, 4, 0, 40), (480, 20, 12, 60))
WEIGHTS = {"allocate_relocatable": 26, "allocate_fixed": 9, "free_handle": 10,
           "free_pointer": 7, "resize": 22, "write": 12, "read": 3, "view": 2,
           "size": 1, "compact": 2, "sum": 1, "check": 1, "length": 1,
           "enlarge": 4, "shrink": 3, "roster": 2, "census": 1}


def some_hex(rng: random.Random, size: int) -> str:
    return rng.randbytes(size).hex().upper() or "-"


class Steered:
    def __init__(self, rng: random.Random, library: Library, limits: bool) -> None:
        self.rng, self.library, self.limits = rng, library, limits
        self.weights = {**WEIGHTS, "census": 50} if limits else WEIGHTS

    def live(self, by: int) -> list:
        walk, zone = list(self.library.walk()), self.library.zone
        if by == POINTER:
            return [at + 4 for block_type, at, _ in walk if block_type == 1]
        return [int.from_bytes(zone[at + 2:at + 4], "big")
                for block_type, at, _ in walk if block_type == 2]

    def name(self, by: int) -> int:
        """Nearly always a live block's."""
        names = self.live(by)
        if names and self.rng.random() < 0.95:
            return self.rng.choice(names)
        return self.rng.randrange(14, 80, 2)

    def count(self) -> int:
        """Mostly a few bytes, sometimes about as much as is free."""
        _, _, largest = self.library.call("sum")
        if self.rng.random() < 0.3:
            return max(0, largest - self.rng.randint(0, 8))
        return self.rng.randint(0, max(4, largest // 4))

    def stretch(self) -> list:
        by = self.rng.choices((HANDLE, POINTER), (3, 1))[0]
        name = self.name(by)
        _, size = self.library.call("size", by, name)
        offset = self.rng.randint(0, size)
        count = self.rng.randint(0, size - offset) if self.rng.random() < 0.9 else size + 1
        return ["handle" if by == HANDLE else "pointer", name, offset, min(count, 40)]

    def arguments(self, call: str) -> list:
        rng = self.rng
        if call in ("allocate_relocatable", "allocate_fixed"):
            return [self.count()]
        if call in ("free_handle", "free_pointer"):
            return [self.name(HANDLE if call == "free_handle" else POINTER)]
        if call == "resize":
            name = self.name(HANDLE)
            _, size = self.library.call("size", HANDLE, name)
            return [name, rng.choice((self.count(), size + rng.randint(1, 16), size + self.count()))]
        if call == "size":
            return self.stretch()[:2]
        if call == "view":
            return self.stretch()
        if call in ("read", "write"):
            stretch = self.stretch()
            return stretch + [some_hex(rng, max(0, stretch[3] + rng.choice((0, 0, 0, 3, -1))))]
        if call in ("enlarge", "shrink"):
            return [rng.choice((4, 8, 12, 16, 3))]
        if call == "census":
            return self.lent()
        return [some_hex(rng, 8 * len(self.live(HANDLE)) + rng.choice((0, 0, 5)))] if call == "roster" else []

    def lent(self) -> list:
        """Limits about the free blocks' words, or such that break a rule, or none."""
        pick = self.rng.random() if self.limits else 1.0
        if pick < 0.6:
            words = [size // 2 for block_type, _, size in self.library.walk() if block_type == 0]
            return [random_limits(self.rng, words).hex().upper()]
        return [broken_limits(self.rng).hex().upper()] if pick < 0.85 else []

    def step(self) -> str:
        """A call by weight; it is made here too, for the next one to see."""
        call = self.rng.choices(list(self.weights), list(self.weights.values()))[0]
        words = self.arguments(call)
        given = [{"handle": HANDLE, "pointer": POINTER}.get(word, word) for word in words]
        if call == "write":
            data = bytes.fromhex(given.pop().replace("-", ""))
            self.library.write(*given, data)
        elif call not in ("read", "roster", "census"):
            self.library.call(call, *given)
        return " ".join(map(str, ["call", call, *words]))


def main() -> None:
    rng, library = random.Random(int(sys.argv[2])), Library(sys.argv[1])
    print("nafelode-vectors 3")
    print(f"# Random lists, made by random_calls.py with seed {sys.argv[2]}.")
    for number, (length, masters, beyond, steps) in enumerate(LISTS + LISTS_WITH_LIMITS, 1):
        print(f"\nlist random_{number}\nbuffer {length + beyond} 165")
        print(f"call initialize {length} {masters}")
        library.lend(b"\xA5" * (length + beyond))
        library.call("initialize", length, masters)
        steered = Steered(rng, library, number > len(LISTS))
        for _ in range(steps):
            print(steered.step())
        print("call compact\ncall check")


main()
