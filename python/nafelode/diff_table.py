"""Two zones as text: their numbers side by side, then the blocks that are not
alike."""

from typing import Iterator, List, Sequence, Tuple

from .diff import Change
from .table import table
from .zone import Zone

WORDS = ("slid", "grew", "shrank", "bytes changed")


def lines(a: Zone, b: Zone, changes: Sequence[Change]) -> Iterator[str]:
    """All lines of the print, without line ends."""
    yield from table(["", "a", "b", "by"], _numbers(a, b), left={0})
    yield ""
    yield summary(changes)
    rows = [_row(change) for change in changes if change.words]
    if rows:
        yield from table(
            ["block", "offset in a", "in b", "by", "data size in a", "in b",
             "by", "bytes changed", "from", "what"], rows, left={0, 9})


def summary(changes: Sequence[Change]) -> str:
    """How many blocks there are of each sort."""
    both = [change for change in changes
            if change.before is not None and change.after is not None]
    sorts = [f"{sum(not change.words for change in both)} alike"]
    sorts += [f"{sum(word in change.words for change in both)} {word}"
              for word in WORDS]
    sorts += [f"{sum(bool(change.marks) for change in both)} marked"]
    went = sum(change.after is None for change in changes)
    came = sum(change.before is None for change in changes)
    return (f"blocks: {len(both)} in both ({', '.join(sorts)}), {went} went, "
            f"{came} came")


def _numbers(a: Zone, b: Zone) -> Iterator[List[str]]:
    for what, old, new in zip(_NUMBERS, _values(a), _values(b)):
        yield [what, str(old), str(new), _by(new - old)]
    if a.chain != b.chain and len(a.chain) == len(b.chain):
        yield ["chain of free masters", "", "", "other"]


_NUMBERS = ("L", "bkFst", "m", "hFstFree", "clock", "live masters",
            "free masters", "free bytes", "largest bay's sum", "scatter",
            "bays")


def _values(zone: Zone) -> Tuple[int, ...]:
    return (zone.length, zone.bk_fst, zone.m, zone.h_fst_free, zone.clock,
            zone.live_handles, len(zone.chain), *zone.sum(),
            zone.scatter().apart, len(zone.bays))


def _row(change: Change) -> List[str]:
    old, new = change.before, change.after
    return [change.target,
            "-" if old is None else str(old.offset),
            "-" if new is None else str(new.offset), _by(change.slid),
            "-" if old is None else str(old.data_size),
            "-" if new is None else str(new.data_size), _by(change.grown),
            str(change.changed) if change.runs else "-",
            str(change.runs[0][0]) if change.runs else "-",
            ", ".join(change.words)]


def _by(number: int) -> str:
    return f"{number:+}" if number else "-"
