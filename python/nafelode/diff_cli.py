"""The command zone-diff."""

import argparse
from typing import List, Optional

from . import __version__, as_json, command, diff_table
from .command import STANDARD, Failure
from .diff import changes
from .diff_draw import draw_both
from .rules import ZoneError
from .zone import Zone

ALIKE = 0
DIFFERENT = 1
FAILED = 2


def main(argv: Optional[List[str]] = None) -> int:
    """Run the command; answers the exit status."""
    parser = _parser()

    def work(arguments: argparse.Namespace) -> int:
        if arguments.a == arguments.b == STANDARD:
            parser.error("one of A and B must be a file")
        if arguments.map == STANDARD and arguments.json:
            parser.error("--map - takes standard output for itself")
        return _compare(arguments)

    return command.run(parser, work, argv, FAILED)


def _parser() -> argparse.ArgumentParser:
    parser = argparse.ArgumentParser(
        prog="zone-diff", usage="zone-diff [OPTIONS] A B",
        description="Print which blocks of two images of a zone slid, grew, "
                    "shrank, went and came, and whose bytes changed.",
        epilog="Exit status: 0 if the zones are alike, byte by byte; 1 if "
               "not; 2 for an image that is not well-formed, a file that "
               "can't be read or written, and wrong arguments.")
    parser.add_argument("a", metavar="A",
                        help="the earlier image, or - for standard input")
    parser.add_argument("b", metavar="B",
                        help="the later image, or - for standard input")
    parser.add_argument("--map", metavar="SVG",
                        help="also draw both zones into this file, whose "
                             "folder is made if there is none; with - only "
                             "draw them, on standard output")
    parser.add_argument("--json", action="store_true",
                        help="print JSON, with every block")
    parser.add_argument("--version", action="version",
                        version=f"%(prog)s {__version__}")
    return parser


def _compare(arguments: argparse.Namespace) -> int:
    a, b = _zone(arguments.a), _zone(arguments.b)
    found = changes(a, b)
    if arguments.map is not None:
        # Before the table, so that a reader who leaves early has the map.
        names = command.title(arguments.a), command.title(arguments.b)
        command.write(arguments.map, draw_both(a, b, found, *names),
                      ("image", arguments.a), ("image", arguments.b))
    if arguments.json:
        print(as_json.changes_text(a, b, found), end="")
    elif arguments.map != STANDARD:
        for line in diff_table.lines(a, b, found):
            print(line)
    return ALIKE if a.data == b.data else DIFFERENT


def _zone(file: str) -> Zone:
    try:
        return Zone(command.read(file))
    except ZoneError as fault:
        raise Failure(f"{command.named(file)}: not a well-formed zone: "
                      f"{fault}") from None
