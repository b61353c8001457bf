#!/usr/bin/env python3
"""Tables in Markdown of what the benchmark measured: times of several runs, least and median, and instructions.

    tables.py times RUN.. [--counts COUNTS]   the zones' tables, the peers, growth
    tables.py counts COUNTS                   the zones' tables, instructions alone
    tables.py parts LINES DIRECTORY           COUNTS, from callgrind's parts

A RUN is what `bench times` prints, LINES what `bench counts` does. Lines have a table, a row, a column and a number.
"""
import argparse
import pathlib
import re
import statistics
import sys

SIDES = ("proved", "Rust")


def read(text):
    """Numbers by (table, row, column), in the order of the lines."""
    numbers = {}
    for line in text.splitlines():
        table, row, column, number = line.split("\t")
        if (table, row, column) in numbers:
            raise ValueError(f"twice: {table}, {row}, {column}")
        numbers[table, row, column] = float(number)
    return numbers


def merge(runs):
    """(least, median) over the runs, which have the same keys."""
    for run in runs[1:]:
        if run.keys() != runs[0].keys():
            raise ValueError("the runs have different rows")
    return {key: (min(run[key] for run in runs), statistics.median(run[key] for run in runs)) for key in runs[0]}


def part_totals(texts):
    """The totals of callgrind's parts that were written after a row, by their number."""
    totals = {}
    for text in texts:
        if "desc: Trigger: --dump-after=end_of_row" not in text:
            continue  # what is written where the program ends
        part = re.search(r"^part: (\d+)$", text, re.MULTILINE)
        total = re.search(r"^totals: (\d+)$", text, re.MULTILINE)
        if part is None or total is None:
            raise ValueError("a part without a number or without a total")
        totals[int(part[1])] = int(total[1])
    return totals


def counts_of(lines, totals):
    """Instructions a call by (table, row, side): the nth line, which has the number of calls, is of the nth part."""
    calls = read(lines)
    if sorted(totals) != list(range(1, len(calls) + 1)):
        raise ValueError(f"{len(calls)} rows, but {len(totals)} parts")
    return {key: totals[part] / number for part, (key, number) in enumerate(calls.items(), 1)}


def shown(number):
    return f"{number:,.0f}" if number >= 10 else f"{number:.1f}"


def ratio(a, b):
    return f"{a / b:,.0f}" if a >= 100 * b else f"{a / b:.2f}"


def print_table(title, columns, rows):
    print(f"\n### {title}\n")
    print("| " + " | ".join(columns) + " |")
    # what has words comes first, numbers stand to the right
    words = [any(re.search("[a-z]", row[i]) for row in rows) for i in range(len(columns))]
    print("|" + "|".join("---" if word else "---:" for word in words) + "|")
    for row in rows:
        print("| " + " | ".join(row) + " |")


def unique(items):
    return list(dict.fromkeys(items))


def zones(numbers):
    """The tables that have a column for each side."""
    return unique(table for table, _, column in numbers if column == SIDES[0])


def rows_of(numbers, table):
    return unique(row for name, row, column in numbers if name == table and column == SIDES[0])


def time_cells(times, table, row):
    proved, rust = (times[table, row, side] for side in SIDES)
    cells = [shown(number) for number in proved + rust]
    return cells + [ratio(proved[i], rust[i]) for i in range(2)]


def count_cells(counts, table, row):
    proved, rust = (counts[table, row, side] for side in SIDES)
    return [shown(proved), shown(rust), ratio(proved, rust)]


TIME_COLUMNS = ["proved, ns: least", "median", "Rust, ns: least", "median", "proved / Rust: least", "median"]
COUNT_COLUMNS = ["instructions: proved", "Rust", "proved / Rust"]


def print_zones(times, counts):
    """A table for each zone; then the rows in which the proved library is above the Rust implementation."""
    if times and counts and zones(times) != zones(counts):
        raise ValueError("times and instructions are of different zones")
    parts = [(times, TIME_COLUMNS, time_cells), (counts, COUNT_COLUMNS, count_cells)]
    parts = [part for part in parts if part[0]]
    ratios = []
    for table in zones(parts[0][0]):
        rows = []
        for row in rows_of(parts[0][0], table):
            cells = [cell for numbers, _, make in parts for cell in make(numbers, table, row)]
            rows.append([row] + cells)
            ratios.append([table, row] + (cells[4:6] if times else []) + (cells[-1:] if counts else []))
        print_table(table, ["call"] + [name for _, columns, _ in parts for name in columns], rows)
    print_above(ratios, (["time: least", "median"] if times else []) + (["instructions"] if counts else []))


def print_above(ratios, names):
    """The rows that are above 1 by more than a tenth in one column, and how many are above at all."""
    def is_above(cell, limit):
        return float(cell.replace(",", "")) > limit

    rows = [row for row in ratios if any(is_above(cell, 1.1) for cell in row[2:])]
    print_table("Above the Rust implementation by more than a tenth: proved / Rust", ["zone", "call"] + names, rows)
    for i, name in enumerate(names, 2):
        numbers = [sum(is_above(row[i], limit) for row in ratios) for limit in (1, 1.05, 1.1)]
        print(f"\n{name}: of {len(ratios)} rows {numbers[0]} are above 1.00, {numbers[1]} above 1.05, {numbers[2]} above 1.10.")


def print_peers(times):
    """The least times of what a user might do instead, beside those of the two sides, in each zone."""
    cells = {}
    for table, row, peer in times:
        if table in zones(times) and peer not in SIDES:
            least = [times[table, row, column][0] for column in (peer, *SIDES)]
            cells.setdefault((row, peer), {})[table] = " : ".join(shown(number) for number in least)
    tables = unique(table for by_table in cells.values() for table in by_table)
    rows = [[row, peer] + [by_table[table] for table in tables] for (row, peer), by_table in cells.items()]
    print_table("Peers, ns: peer : proved : Rust", ["call", "peer"] + tables, rows)


def print_growth(times):
    """The proved library's least times where a number doubles, and the largest step of either side."""
    for table in unique(table for table, _, _ in times if table not in zones(times)):
        sides = {}
        for (name, row, column), (least, _) in times.items():
            if name == table:
                step, side = column.rsplit(", ", 1)
                sides.setdefault((row, side), {})[step] = least
        steps = list(next(iter(sides.values())))

        def largest(row, side):
            numbers = [sides[row, side][step] for step in steps] if (row, side) in sides else []
            return f"{max(b / a for a, b in zip(numbers, numbers[1:])):.2f}" if numbers else ""

        rows = []
        for row, side in sides:
            if side == SIDES[0]:
                cells = [shown(sides[row, side][step]) for step in steps]
                rows.append([row] + cells + [largest(row, one) for one in SIDES])
        print_table(table, ["call, ns"] + steps + ["largest step", "Rust's largest step"], rows)


def main():
    parser = argparse.ArgumentParser(description=__doc__, formatter_class=argparse.RawDescriptionHelpFormatter)
    commands = parser.add_subparsers(dest="command", required=True)
    times = commands.add_parser("times")
    times.add_argument("runs", nargs="+", type=pathlib.Path)
    times.add_argument("--counts", type=pathlib.Path)
    counts = commands.add_parser("counts")
    counts.add_argument("counts", type=pathlib.Path)
    parts = commands.add_parser("parts")
    parts.add_argument("lines", type=pathlib.Path)
    parts.add_argument("directory", type=pathlib.Path)
    given = parser.parse_args()
    if given.command == "parts":
        totals = part_totals(path.read_text() for path in given.directory.iterdir())
        for key, number in counts_of(given.lines.read_text(), totals).items():
            print("\t".join(key), f"{number:.1f}", sep="\t")
        return
    counted = read(given.counts.read_text()) if given.counts else {}
    if given.command == "counts":
        print_zones({}, counted)
        return
    timed = merge([read(path.read_text()) for path in given.runs])
    print_zones(timed, counted)
    print_peers(timed)
    print_growth(timed)


if __name__ == "__main__":
    sys.exit(main())
