"""Holds the vectors against the package in Python, and looks what they cover.

usage: vectors/check.py LIBRARY FILE..

The files are read with FORMAT.md's own reader. The package must give every
answer that it can give, and after each call, on all the bytes, what the
proved library says: check, blocks, bytes by handle, pointer and name, sums,
census, roster. Each list must go the way that its name says.
"""

import os
import re
import sys
from collections import Counter, defaultdict

HERE = os.path.dirname(os.path.abspath(__file__))
sys.path.insert(0, os.path.join(HERE, os.pardir, "python", "tests"))

from builder import roster_bytes
from library import Library, differences
from nafelode import Zone, ZoneError, check
from nafelode.rules import LIMITS
from ways import REFUSALS, WAYS, refusal_names, ways

READING = ("size", "read", "view", "sum", "check", "length", "roster", "census",
           "walker_start", "walker_step")


def reader():
    """The page's reader: what is printed there is what is run."""
    with open(os.path.join(HERE, "FORMAT.md"), encoding="utf-8") as page:
        names = {}
        exec(re.search(r"```python\n(.*?)```", page.read(), re.S).group(1), names)
    return names["steps"]


def unhex(word):
    """As the page's reader has it."""
    return bytes.fromhex(re.sub(r"(..)\*(\d+)\.", lambda run: run[1] * int(run[2]), word.replace("-", "")))


def package_answer(zone, call):
    """What the package says to an accepted call that changes nothing, in the file's words."""
    name, words = call[0], call[1:]
    if name in ("size", "read", "view"):
        find = {"handle": zone.by_handle, "pointer": zone.by_pointer, "name": zone.by_name}
        block = find[words[0]](int(words[1]))
        if name == "size":
            return {"answer": [0, block.data_size]}
        offset, count = int(words[2]), int(words[3])
        data = zone.read_block(block, offset, count)
        if name == "view":
            return {"view": [block.data_offset + offset, len(data)]}
        given = unhex(words[4])
        return {"answer": [0], "second": data + given[count:]}
    if name == "roster":
        records, given = roster_bytes(zone.roster()), unhex(words[0])
        return {"answer": [0, zone.live_handles], "second": records + given[len(records):]}
    if name == "walker_start":
        return {"walker": [zone.bk_fst]}
    if name == "walker_step":
        at = int(words[0])
        found = next((b for b in zone.blocks if b.offset == at), None)
        step = [found.type, found.offset, found.size] if found else [0, 0, 0]
        return {"answer": [0, *step], "walker": [found.end if found else at]}
    if name == "census":
        return {"answer": [0, *zone.census(limits_of(call))]}
    return {"answer": [0, *{"sum": zone.sum,
                            "length": lambda: (zone.length,)}[name]()]}


def limits_of(call):
    """The limits that a census is lent; a call without any has none."""
    return unhex(call[1]) if call[1:] else b""


def agrees(before, call, told):
    """Whether the package agrees with a reading call's answer."""
    if call[0] == "check":
        yes, count = check(before)
        return told["answer"] == [0, yes, count]
    number = told.get("answer", [0])[0]
    refused = number or told.get("view") == [0, 0] or told.get("walker") == [0]
    try:
        given = package_answer(Zone(before), call)
    except ZoneError as error:
        # 14 for the limits' rules alone: a broken zone is told before them
        return bool(refused) and (number == 14) == (error.rule in LIMITS)
    # the package has no second buffer that could be too short
    return number == 10 or given == told


def fail(where, what):
    print(f"vectors/check: {where}: {what}")
    sys.exit(1)


class Coverage:
    """What the lists do, and what their names say that they do."""

    def __init__(self):
        self.ways, self.of_list, self.refused = Counter(), defaultdict(set), defaultdict(set)
        self.made = defaultdict(list)  # the live handles of each list, oldest first

    def add(self, name, before, call, told):
        number = told.get("answer", [0])[0]
        if number or told.get("view") == [0, 0]:
            self.refused[name].add((call[0], number))
        else:
            found = ways(before, call, self.made[name])
            self.ways.update(found)
            self.of_list[name] |= found
            self.follow(self.made[name], call, told)

    def follow(self, made, call, told):
        if call[0] == "initialize":
            made.clear()
        elif call[0] == "allocate_relocatable":
            made.append(told["answer"][1])
        elif call[0] == "free_handle" and int(call[1]) in made:  # else put there by no call
            made.remove(int(call[1]))

    def judge(self):
        named = {name.split(".")[0] for name in self.of_list}
        for name, found in self.of_list.items():
            way = name.split(".")[0]
            if way in WAYS and way not in found:
                fail(name, "no call goes that way")
        for way in WAYS:
            # every way has a list of its own; an old place that merges with none shows in every other move
            if way not in named and way != "resize_old_alone" or self.ways[way] == 0:
                fail(way, "no list shows it")
        for number in REFUSALS:
            name = f"refusal_{number}"
            for call in refusal_names(name):
                if (call, 0 if call == "view" else number) not in self.refused[name]:
                    fail(name, f"{call} is not refused with {number}")
        if unknown := set(self.ways) - set(WAYS):
            fail("ways", f"not on the list: {sorted(unknown)}")


def main():
    library, steps, coverage = Library(sys.argv[1]), reader(), Coverage()
    lists, calls, reading, zones = set(), 0, 0, set()
    for path in sys.argv[2:]:
        with open(path, encoding="ascii") as file:
            if max(map(len, file)) > 1101 and not path.endswith("masters.txt"):
                fail(path, "the page says that no line has more than 1,100 characters")
        for name, before, call, told, after in steps(path):
            where = f"{os.path.basename(path)}: {name}: {' '.join(call)}"
            if call[0] in READING:
                reading += 1
                if after != before:
                    fail(where, "a call that only reads has changed the zone")
                if not agrees(before, call, told):
                    fail(where, f"the package in Python does not agree with {told}")
            if told.get("answer", [0])[0] and after != before:
                fail(where, "a refused call has changed the zone")
            if len(after) > 512 and not path.endswith(("limits.txt", "masters.txt")):
                fail(where, "the page says that no buffer has more than 512 bytes")
            if after not in zones and (found := differences(library, after)):
                fail(where, "\n  ".join(found[:5]))
            coverage.add(name, before, call, told)
            zones.add(after)
            lists.add(name)
            calls += 1
    coverage.judge()
    print(f"in Python: {len(lists)} lists, {calls} calls; {reading} answers and {len(zones)} different zones as the package reads them")
    print(f"covered: {len(WAYS)} ways, {sum(len(refusal_names(f'refusal_{n}')) for n in REFUSALS)} refusals by call")


main()
