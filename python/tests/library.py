"""The proved library through ctypes, and the package held against it.

The library is a shared one, or the archive, from which a shared one is linked.
"""

import ctypes
import os
import subprocess
import tempfile
from ctypes import c_uint32, c_uint64
from typing import Iterator, List, Sequence, Tuple

import builder
import support  # noqa: F401  finds the package
import nafelode

HANDLE, POINTER, NAME = 0, 1, 2
WORDS = {HANDLE: "handle", POINTER: "pointer", NAME: "name"}
STRATA = 19


# how many values a call has, which it writes through its last pointers
_VALUES = {"allocate_relocatable": 1, "allocate_fixed": 1, "size": 1,
           "view": 1, "create_page": 1, "use_page": 1, "compact": 1, "sum": 2,
           "check": 1, "length": 1, "shrink": 1, "roster": 1,
           "walker_step": 3}
# what a value is before a call, which has to write it
_UNWRITTEN = 0x0BAD0BAD


def load(path: str) -> ctypes.CDLL:
    """The shared library, or one linked from an archive (its name ends in .a)."""
    path = os.path.abspath(path)
    if not path.endswith(".a"):
        return ctypes.CDLL(path)
    with tempfile.TemporaryDirectory() as work:
        shared = os.path.join(work, "library.so")
        subprocess.run(["cc", "-shared", "-o", shared, "-Wl,--whole-archive",
                        path, "-Wl,--no-whole-archive"], check=True)
        return ctypes.CDLL(shared)  # stays loaded when the file goes


class Library:
    """Calls on one lent buffer, whose bytes `zone` holds."""

    def __init__(self, path: str, image: bytes = b"") -> None:
        self._library = load(path)
        self.lend(image)

    def lend(self, image: bytes) -> None:
        self._length = len(image)
        self._zone = ctypes.create_string_buffer(bytes(image), len(image) + 1)

    @property
    def zone(self) -> bytes:
        return self._zone.raw[:self._length]

    def call(self, name: str, *arguments: object) -> Tuple[int, ...]:
        """A call by its C name; its numbers are unsigned 32-bit. What it
        answers, mostly the refusal number, and then its values."""
        function = getattr(self._library, "nafelode_" + name)
        function.restype = c_uint32
        given = [c_uint32(a) if isinstance(a, int) else a for a in arguments]
        values = [c_uint32(_UNWRITTEN) for _ in range(_VALUES.get(name, 0))]
        answer = function(self._zone, c_uint64(self._length), *given,
                          *map(ctypes.byref, values))
        return answer, *(value.value for value in values)

    def read(self, by: int, block: int, offset: int,
             count: int) -> Tuple[int, bytes]:
        """Refusal number and bytes; the second buffer is long enough."""
        room = min(count, self._length)
        second = ctypes.create_string_buffer(room + 1)
        number, = self.call("read", by, block, offset, count, second,
                            c_uint64(room))
        return number, second.raw[:room]

    def write(self, by: int, block: int, offset: int, count: int,
              data: bytes) -> int:
        number, = self.call("write", by, block, offset, count, data,
                            c_uint64(len(data)))
        return number

    def roster(self, lent: bytes) -> Tuple[int, int, bytes]:
        """Refusal number, how many, and the second buffer's bytes then."""
        second = ctypes.create_string_buffer(lent, len(lent) + 1)
        number, count = self.call("roster", second, c_uint64(len(lent)))
        return number, count, second.raw[:len(lent)]

    def census(self, lent: bytes = b"") -> Tuple[int, ...]:
        """Refusal number and counts; with no limits the pointer is null."""
        limits = ctypes.create_string_buffer(lent, len(lent)) if lent else None
        counts = (c_uint32 * STRATA)(*[_UNWRITTEN] * STRATA)
        number, = self.call("census", limits, c_uint64(len(lent)), counts)
        if limits is not None and limits.raw != lent:
            raise ValueError("a census has changed its limits")
        return number, *counts

    def walk(self) -> Iterator[Tuple[int, int, int]]:
        """Type, offset and size of each block."""
        walker = c_uint32(*self.call("walker_start"))
        while True:
            _, *block = self.call("walker_step", ctypes.byref(walker))
            if block[2] == 0:
                return
            yield tuple(block)


def differences(library: Library, image: bytes,
                limits: Sequence[bytes] = ()) -> List[str]:
    """Where the package and the library answer differently on an image; the
    census by none and by each of these limits."""
    found: List[str] = []

    def same(what: str, package: object, proved: object) -> None:
        if package != proved:
            found.append(f"{what}: package {package}, library {proved}")

    library.lend(image)
    yes, count = library.call("check")
    same("check", nafelode.check(image), (yes == 1, count))
    same("fault", nafelode.fault(image) is None, yes == 1)
    if yes == 1 and not found:
        zone = nafelode.Zone(image)
        same("length", (0, zone.length), library.call("length"))
        same("blocks", [(b.type, b.offset, b.size) for b in zone.blocks],
             list(library.walk()))
        _same_blocks(library, zone, same)
        _same_sums(library, zone, same)
        for lent in (b"", *limits):
            same_census(library, zone, lent, same)
    elif yes == 0:
        same("refusal", (1, 0), library.call("length"))
        for lent in (b"", *limits):
            same("census of no zone", _refusal(1), library.census(lent))
    same("bytes", image, library.zone)
    return found


def _same_blocks(library, zone, same) -> None:
    """Size, place and bytes of each block by its handle, pointer or name."""
    targets = [(HANDLE, handle, zone.by_handle(handle), zone.read_handle)
               for handle in zone.handles]
    targets += [(POINTER, pointer, zone.by_pointer(pointer), zone.read_pointer)
                for pointer in zone.pointers]
    targets += [(NAME, name, zone.by_name(name), zone.read_name)
                for name in zone.names]
    for by, number, block, read in targets:
        _same_block(library, same, by, number, block, read)
    _same_refusals(library, zone, same)


def _same_block(library, same, by, number, block, read) -> None:
    what, data = (WORDS[by], number), read(number)
    same(f"size of {what}", (0, block.data_size),
         library.call("size", by, number))
    same(f"bytes of {what}", (0, data),
         library.read(by, number, 0, len(data)))
    same(f"place of {what}", (block.data_offset, len(data)),
         library.call("view", by, number, 0, len(data)))
    half = len(data) // 2
    same(f"second half of {what}", (0, read(number, half)),
         library.read(by, number, half, len(data) - half))
    same(f"past the end of {what}", _refused(read, number, half, len(data)),
         library.call("view", by, number, half, len(data)) == (0, 0)
         and library.read(by, number, half, len(data))[0] == 8)
    # offset + count is not wrapped
    same(f"far past the end of {what}", _refused(read, number, 2**32 - 1, 1),
         library.read(by, number, 2**32 - 1, 1)[0] == 8)


def _same_refusals(library, zone, same) -> None:
    """Handles, pointers and names that are none."""
    for master in zone.chain:
        same(f"free master {master}", _refused(zone.by_handle, master),
             library.call("size", HANDLE, master) == (6, 0))
    for block in zone.blocks:
        # its start, where older images had a pointer, where one may be
        for at in (block.offset, block.offset + 2, block.offset + 4):
            same(f"pointer {at}", _refused(zone.by_pointer, at),
                 library.call("size", POINTER, at) == (7, 0))
    for name in {0, 1, 2**32 - 1, *(name ^ 1 for name in zone.names)}:
        same(f"name {name}", _refused(zone.by_name, name),
             library.call("size", NAME, name) == (13, 0))


def _refused(call, *arguments) -> bool:
    try:
        call(*arguments)
    except nafelode.ZoneError:
        return True
    return False


def _same_sums(library, zone, same) -> None:
    same("sum", (0, *zone.sum()), library.call("sum"))
    same_roster(library, zone, same)


def _refusal(number: int) -> Tuple[int, ...]:
    return number, *(0,) * STRATA


def same_census(library, zone, lent: bytes, same) -> None:
    """Counts by these limits, or 14."""
    try:
        told = 0, *zone.census(lent)
    except nafelode.ZoneError:
        told = _refusal(14)
    same(f"census by {lent.hex() or 'the formula'}", told, library.census(lent))


def same_roster(library, zone, same) -> None:
    """The second buffer whole: records by rising handle, later bytes stay."""
    records = builder.roster_bytes(zone.roster())
    later = b"later"
    number, count, second = library.roster(bytes(len(records)) + later)
    same("roster", (0, zone.live_handles), (number, count))
    same("roster's bytes", records + later, second)
    if second == records + later:
        same("roster's records", zone.roster(),
             nafelode.decode_roster(second, count))
