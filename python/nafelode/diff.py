"""What differs between two zones, block by block.

A block of one is the same as a block of the other if it has the same handle,
pointer or name. Whether it was freed in between, and its handle given out
again, no byte tells.
"""

from typing import Dict, Iterator, List, NamedTuple, Optional, Tuple

from .format import Block
from .zone import Zone

Run = Tuple[int, int]  # from an offset in the data up to another one


class Change(NamedTuple):
    """A block in zone a (`before`) and in zone b (`after`); None: not there.

    `runs` are the data bytes in b that are others than in a. Bytes that were
    added count as zeros in a, which is what a resize adds.
    """

    before: Optional[Block]
    after: Optional[Block]
    runs: Tuple[Run, ...] = ()

    @property
    def target(self) -> str:
        block = self.after or self.before
        return "-" if block is None else block.target

    @property
    def slid(self) -> int:
        """By how many bytes, upward; 0 if it is not in both zones."""
        if self.before is None or self.after is None:
            return 0
        return self.after.offset - self.before.offset

    @property
    def grown(self) -> int:
        """By how many data bytes; 0 if it is not in both zones."""
        if self.before is None or self.after is None:
            return 0
        return self.after.data_size - self.before.data_size

    @property
    def changed(self) -> int:
        """How many data bytes are others."""
        return sum(end - start for start, end in self.runs)

    @property
    def marks(self) -> Tuple[str, ...]:
        """What was done to a page's flags and stamp, in words."""
        if self.before is None or self.after is None:
            return ()
        old, new = self.before.page, self.after.page
        if old is None or new is None:
            return ()
        words = [f"{flag} {'set' if now else 'cleared'}"
                 for flag, was, now in (("dirty", old.dirty, new.dirty),
                                        ("lock", old.lock, new.lock))
                 if was != now]
        return (*words, *(["stamped"] if old.stamp != new.stamp else []))

    @property
    def words(self) -> Tuple[str, ...]:
        """All that happened to the block; nothing if it is alike."""
        if self.after is None:
            return ("went",)
        if self.before is None:
            return ("came",)
        found = (("slid", self.slid != 0), ("grew", self.grown > 0),
                 ("shrank", self.grown < 0), ("bytes changed", self.runs))
        return (*(word for word, so in found if so), *self.marks)


def changes(a: Zone, b: Zone) -> Tuple[Change, ...]:
    """Every block but free ones: those of a by address, then those that came,
    by address in b."""
    after = _by_target(b)
    found: List[Change] = []
    for target, block in _by_target(a).items():
        there = after.pop(target, None)
        runs = () if there is None else tuple(_runs(
            a.read_block(block), b.read_block(there)))
        found.append(Change(block, there, runs))
    found += [Change(None, block) for block in after.values()]
    return tuple(found)


def _by_target(zone: Zone) -> Dict[str, Block]:
    return {block.target: block for block in zone.blocks
            if block.data_offset is not None}


def _runs(old: bytes, new: bytes) -> Iterator[Run]:
    old = old[:len(new)].ljust(len(new), b"\0")
    if old == new:
        return
    start = None
    for at, (was, now) in enumerate(zip(old, new)):
        if was != now and start is None:
            start = at
        elif was == now and start is not None:
            yield start, at
            start = None
    if start is not None:
        yield start, len(new)
