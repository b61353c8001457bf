#!/usr/bin/env python3
"""Tests that docs/ZONE.md says what holds: its numbers, rules, refusals and codes are the definitions', its calls and constants the header's for C, and the
library answers each call that it shows as it shows it, and leaves the bytes that it takes apart.

Usage: tools/zone_page.py ARCHIVE            tests the page
       tools/zone_page.py --write ARCHIVE    writes the example's bytes first: examples/bytes.zone, and on the page its bytes and what they say
"""
import pathlib
import re
import sys
import tempfile

import answers
import c_header
import definitions

ROOT = pathlib.Path(__file__).resolve().parent.parent
PAGE = "docs/ZONE.md"
EXAMPLE = "examples/bytes.zone"

FIELDS = {"L": "length_at", "bkFst": "first_at", "m": "masters_at", "hFstFree": "chain_at", "clock": "clock_at", "zero": "zero_at"}
BLOCKS = {"free": ("free_code", "free_header", None), "fixed": ("fixed_code", "fixed_header", "fixed_limit"),
          "relocatable": ("reloc_code", "reloc_header", "reloc_limit"), "page": ("page_code", "page_header", "page_limit")}
DUMPED = "([examples/bytes.zone](../examples/bytes.zone)):\n\n```\n"
TAKEN_APART = "| at | bytes | what they say |\n|---:|---|---|\n"


# ---- reading the page


def table(page, head):
    """The rows of the table that has these words for a head, each a list of its cells."""
    start = page.index(f"| {head} |\n")
    lines = page[start:].split("\n\n")[0].split("\n")[2:]
    return [[cell.strip() for cell in line.strip("|").split("|")] for line in lines if line.startswith("|")]


def digits(cell):
    return int(cell.replace(",", ""))


def fenced(page, word):
    """The blocks between fences that a word marks."""
    return re.findall(rf"^```{word}\n(.*?)^```$", page, re.M | re.S)


def sections(page):
    """The calls, each with its arguments and the numbers that refuse it, as the page has them."""
    found = {}
    for heads, text in re.findall(r"^### ((?:`\w+\([^)\n]*\)`(?:, )?)+)\n(.*?)(?=^#)", page, re.M | re.S):
        refused = re.search(r"^- Refused: ([\d, ]+|never)\.$", text, re.M)
        numbers = None if refused is None else [] if refused[1] == "never" else [int(n) for n in refused[1].split(", ")]
        for name, arguments in re.findall(r"`(\w+)\(([^)\n]*)\)`", heads):
            found[name] = (arguments.split(", ") if arguments else [], numbers)
    return found


# ---- against the definitions and the header


def differ(what, page, other):
    """A line where the page has something else; of tables the rows that differ."""
    if isinstance(page, dict) and set(page) & set(other):
        differing = [key for key in {**page, **other} if page.get(key) != other.get(key)]
        return [line for key in differing for line in differ(f"{what}, {key}", page.get(key), other.get(key))]
    return [] if page == other else [f"{what}: the page has {page}, and it is {other}"]


def refusals(root, name, order):
    """The refusals of a call in their order; where no definition has them, that."""
    try:
        return sorted(definitions.refusals(root, name), key=order.index)
    except LookupError as missing:
        return str(missing)


def number_faults(root, page):
    named = lambda name: definitions.number(root, name)
    fields = {row[2]: int(row[0]) for row in table(page, "at | bytes | field | what it says")}
    yield from differ("the header's fields", fields, {field: named(name) for field, name in FIELDS.items()})
    blocks = {row[1]: (int(row[0]), int(row[2]), digits(row[5]) if row[5] else None) for row in table(page, "type | block | header | it is named by | bytes for c data bytes | largest c")}
    yield from differ("blocks", blocks, {block: tuple(name and named(name) for name in names) for block, names in BLOCKS.items()})
    for _, number, name in table(page, "limit | number | definition"):
        yield from differ(name, digits(number), named(name.strip("`")))


def rule_faults(root, page):
    rows = [row[1].strip("`") for row in table(page, "rule | definition")]
    yield from differ("the rules of a zone", sorted(rows), sorted(definitions.rules(root)))


def call_faults(root, page, said):
    calls, found = sections(page), c_header.functions(said)
    yield from differ("calls", sorted(calls), sorted(found))
    order = definitions.order(root)
    for name in sorted(set(calls) & set(found)):
        arguments, numbers = calls[name]
        yield from differ(f"{name}'s arguments", arguments, found[name])
        yield from differ(f"{name}'s refusals", numbers, refusals(root, name, order))


def refusal_faults(root, page, said):
    rows = table(page, "number | in C | cause")
    yield from differ("the order of refusals", [int(row[0]) for row in rows], definitions.order(root))
    yield from differ("the constants of refusals", {int(row[0]): row[1].strip("`") for row in rows}, c_header.constants(said))


def record_faults(root, page):
    places = definitions.record_places(root)
    fields = {row[2]: (int(row[0]), int(row[1])) for row in table(page, "at | bytes | field")}
    a, b, d, end = (places[name] for name in ("a_at", "b_at", "d_at", "record_length"))
    yield from differ("a record", fields, {"code": (0, 1), "zero": (1, a - 1), "a": (a, b - a), "b": (b, d - b), "d": (d, end - d)})
    codes = [(row[0], *re.match(r"`(\w+)\(([^)]*)\)`", row[1]).groups()) for row in table(page, "code | call")]
    yield from differ("zone-run's codes", codes, [(str(code), name, ", ".join(numbers)) for code, (name, numbers) in enumerate(definitions.actions(root))])
    if f"a buffer of {definitions.buffer_length(root):,} zero bytes" not in page:
        yield f"zone-run's buffer has {definitions.buffer_length(root):,} bytes"
    shown = [line.split("  → ") for block in fenced(page, "records") for line in block.splitlines()]
    yield from differ("the records of the example", "".join(record for record, _ in shown).replace(" ", ""), (root / "examples/first.records").read_bytes().hex().upper())
    yield from differ("the lines of the example", [line for _, line in shown], (root / "examples/first.expected").read_text().splitlines())


# ---- the example


def dump(image):
    """The bytes in lines of sixteen, each with its offset."""
    rows = [image[at:at + 16] for at in range(0, len(image), 16)]
    return "".join(f"{16 * n:4}  {row[:8].hex(' ').upper()}  {row[8:].hex(' ').upper()}".rstrip() + "\n" for n, row in enumerate(rows))


def taken_apart(page, image):
    """The example's bytes as the page's own decoder takes them apart: the rows of the table. They must be all bytes, each once."""
    decoder = {}
    exec(fenced(page, "python")[0], decoder)
    rows, at = [], 0
    for place, count, said in decoder["fields"](image):
        if place != at:
            raise ValueError(f"the decoder is at {place}, and {at} comes next")
        rows.append(f"| {place} | `{image[place:place + count].hex(' ').upper()}` | {said} |\n")
        at = place + count
    if at != len(image):
        raise ValueError(f"the decoder ends at {at}")
    return "".join(rows)


def with_example(page, image):
    """The page with these bytes and what they say in their places."""
    start = page.index(DUMPED) + len(DUMPED)
    page = page[:start] + dump(image) + page[page.index("```", start):]
    start = page.index(TAKEN_APART) + len(TAKEN_APART)
    return page[:start] + taken_apart(page, image) + page[page.index("\n\n", start - 1) + 1:]


def example_faults(root, page):
    try:
        if with_example(page, (root / EXAMPLE).read_bytes()) != page:
            yield f"the bytes on the page, or what it says of them, are not those of {EXAMPLE}"
    except ValueError as fault:
        yield str(fault)


# ---- against the library


def shown_calls(page):
    """The lists of calls that the page shows, each call with the answer after its arrow; a list that begins with no buffer goes on where the last one ended."""
    lists = []
    for block in fenced(page, "calls"):
        lines = block.splitlines()
        if lines[0].startswith("buffer "):
            lists.append([(lines.pop(0), None)])
        lists[-1] += [tuple(part.strip() for part in line.split("→")) for line in lines]
    return lists


def library_faults(root, page, run):
    for calls in shown_calls(page):
        told, _ = run([call for call, _ in calls])
        yield from differ("how many answers", len(calls) - 1, len(told))
        for (call, said), answer in zip(calls[1:], told):
            yield from differ(call, said, answer)
    yield from differ(EXAMPLE, (root / EXAMPLE).read_bytes(), made(page, run))


def made(page, run):
    """The bytes that the page's first calls leave."""
    calls = fenced(page, "calls")[0].splitlines()
    return run([line.split("→")[0].strip() for line in calls])[1]


# ----


def faults(root):
    """What the page, the definitions, the header and the example say differently."""
    page, said = (root / PAGE).read_text(encoding="utf-8"), c_header.text(root)
    found = [*number_faults(root, page), *rule_faults(root, page), *call_faults(root, page, said), *refusal_faults(root, page, said)]
    return [*found, *record_faults(root, page), *example_faults(root, page)]


def main(arguments):
    write = arguments[:1] == ["--write"]
    if len(arguments) != 1 + write:
        sys.exit(__doc__)
    with tempfile.TemporaryDirectory() as folder:
        run = answers.writer(ROOT, pathlib.Path(arguments[-1]).resolve(), folder)
        page = (ROOT / PAGE).read_text(encoding="utf-8")
        if write:
            (ROOT / EXAMPLE).write_bytes(made(page, run))
            page = with_example(page, made(page, run))
            (ROOT / PAGE).write_text(page, encoding="utf-8")
        return faults(ROOT) + list(library_faults(ROOT, page, run))


if __name__ == "__main__":
    sys.exit("\n".join(f"{PAGE}: {line}" for line in main(sys.argv[1:])) or 0)
