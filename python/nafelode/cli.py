"""The command zone-print."""

import argparse
from typing import List, Optional

from . import __version__, as_json, command, dump, part, table
from .command import DONE, STANDARD, Failure
from .content import Content, ZonePart
from .draw import draw
from .format import Block
from .limits import decode_limits
from .rules import ZoneError
from .zone import Zone

FAILED = 1


def main(argv: Optional[List[str]] = None) -> int:
    """Run the command; answers the exit status."""
    parser = _parser()

    def work(arguments: argparse.Namespace) -> int:
        if arguments.map == STANDARD and (arguments.json or _asked(arguments)):
            parser.error("--map - takes standard output for itself")
        if arguments.file == arguments.strata == STANDARD:
            parser.error("one of FILE and LIMITS must be a file")
        return _print(arguments)

    return command.run(parser, work, argv, FAILED)


def _parser() -> argparse.ArgumentParser:
    parser = argparse.ArgumentParser(
        prog="zone-print", usage="zone-print [OPTIONS] FILE",
        description="Print the blocks and bays of a zone's image, its free "
                    "bytes and their scatter, and how many free blocks there "
                    "are of which size.",
        epilog="Exit status: 0 if the image is a well-formed zone and was "
               "printed; 1 if not: of a damaged image what stands before the "
               "fault is printed, and the broken rule and its offset are told "
               "on standard error; 2 for wrong arguments.")
    parser.add_argument("file", metavar="FILE",
                        help="the image, or - for standard input; bytes "
                             "beyond the zone's length are left alone")
    parser.add_argument("--map", metavar="SVG",
                        help="also draw the zone into this file, whose folder "
                             "is made if there is none; with - only draw it, "
                             "on standard output")
    parser.add_argument("--strata", metavar="LIMITS",
                        help="count free blocks by the limits in this file: 76 "
                             "bytes, nineteen numbers of words, high byte "
                             "first; all strata are shown, without it those "
                             "of the formula that are not empty")
    parser.add_argument("--json", action="store_true",
                        help="print JSON, with all data in hexadecimal")
    block = parser.add_mutually_exclusive_group()
    for option, what in (("handle", "relocatable block of this handle"),
                         ("pointer", "fixed block of this pointer"),
                         ("name", "page of this name")):
        block.add_argument(f"--{option}", metavar="N", type=command.number,
                           help=f"print the {what} alone, byte by byte")
    parser.add_argument("--version", action="version",
                        version=f"%(prog)s {__version__}")
    return parser


def _print(arguments: argparse.Namespace) -> int:
    image = command.read(arguments.file)
    try:
        zone = Zone(image)
    except ZoneError as fault:
        _print_part(ZonePart(image), fault, arguments)
        raise Failure(f"{command.named(arguments.file)}: not a well-formed "
                      f"zone: {fault}") from None
    lent = None if arguments.strata is None else _limits(arguments.strata)
    if arguments.map is not None:
        # Before the table, so that a reader who leaves early has the map.
        spared = [("image", arguments.file)]
        if arguments.strata is not None:
            spared.append(("limits", arguments.strata))
        command.write(arguments.map,
                      draw(zone, command.title(arguments.file), lent), *spared)
    if arguments.map != STANDARD:
        _print_zone(zone, lent, arguments)
    return DONE


def _limits(file: str) -> bytes:
    """A mill's limits as they are lent, within the rules."""
    lent = command.read(file)
    try:
        decode_limits(lent)
    except ZoneError as error:
        raise Failure(f"{command.named(file)}: not a mill's limits: "
                      f"{error}") from None
    return lent


def _print_zone(zone: Zone, lent: Optional[bytes],
                arguments: argparse.Namespace) -> None:
    if _asked(arguments):
        try:
            _print_block(zone, _block(zone, arguments), None, arguments.json)
        except ZoneError as error:
            raise Failure(f"{command.named(arguments.file)}: {error.detail}") \
                from None
    elif arguments.json:
        print(as_json.zone_text(zone, lent or b""), end="")
    else:
        for line in table.lines(zone, lent):
            print(line)


def _print_part(read: ZonePart, fault: ZoneError,
                arguments: argparse.Namespace) -> None:
    """What can be printed of a damaged image; no map is drawn of it."""
    if _asked(arguments):
        try:
            _print_block(read, _block(read, arguments), fault, arguments.json)
        except ZoneError as error:
            raise Failure(f"{command.named(arguments.file)}: {error.detail} "
                          f"before the fault; not a well-formed zone: "
                          f"{fault}") from None
    elif arguments.json:
        print(as_json.part_text(read, fault), end="")
    elif arguments.map != STANDARD:
        for line in part.lines(read):
            print(line)


def _asked(arguments: argparse.Namespace) -> bool:
    """Whether one block is asked for."""
    return any(number is not None for number in
               (arguments.handle, arguments.pointer, arguments.name))


def _block(content: Content, arguments: argparse.Namespace) -> Block:
    if arguments.handle is not None:
        return content.by_handle(arguments.handle)
    if arguments.pointer is not None:
        return content.by_pointer(arguments.pointer)
    return content.by_name(arguments.name)


def _print_block(content: Content, block: Block, fault: Optional[ZoneError],
                 in_json: bool) -> None:
    if in_json:
        print(as_json.block_text(content, block, fault), end="")
    else:
        for line in dump.block_lines(content, block):
            print(line)
