"""What the commands share: reading images, writing pictures, messages."""

import argparse
import os
import sys
from typing import Callable, List, Optional, Tuple

from .format import LENGTH_LIMIT

DONE = 0
INTERRUPTED = 130
STANDARD = "-"  # stands for standard input and standard output


class Failure(Exception):
    """A message for standard error."""


def run(parser: argparse.ArgumentParser,
        work: Callable[[argparse.Namespace], int], argv: Optional[List[str]],
        failed: int) -> int:
    """Parse the arguments and do the work; answers the exit status.

    `failed` is the status where something cannot be read or written, or where
    a Failure says so.
    """
    try:
        return _done(parser, work, argv)
    except Failure as failure:
        _complain(parser.prog, str(failure))
    except BrokenPipeError:
        _drop_output()  # the reader has gone: no message
    except OSError as error:
        _drop_output()
        _complain(parser.prog, f"standard output: {reason(error)}")
    except KeyboardInterrupt:
        _drop_output()
        return INTERRUPTED
    return failed


def _done(parser: argparse.ArgumentParser,
          work: Callable[[argparse.Namespace], int],
          argv: Optional[List[str]]) -> int:
    try:
        return work(parser.parse_args(argv))
    except SystemExit as stop:  # after --help, or a message on usage
        return stop.code if isinstance(stop.code, int) else 1
    finally:
        if sys.stdout is not None:
            sys.stdout.flush()  # a message comes after what was printed


def number(text: str) -> int:
    """A whole number of the command line, decimal or with 0x."""
    return int(text, 0)


def read(file: str) -> bytes:
    """As many bytes of a file as any rule can touch."""
    try:
        if file != STANDARD:
            with open(file, "rb") as stream:
                return stream.read(LENGTH_LIMIT)
        if sys.stdin is None:
            raise Failure("standard input is closed")
        return sys.stdin.buffer.read(LENGTH_LIMIT) or b""
    except (OSError, ValueError) as error:
        raise Failure(f"{named(file)}: {reason(error)}") from None


def write(target: str, text: str, *spared: Tuple[str, str]) -> None:
    """Write a picture to a file, or to standard output.

    The file's folder is made where it is missing. `spared` are files that it
    must not be, each after a word for it.
    """
    if target == STANDARD:
        sys.stdout.write(text)
        return
    try:
        for what, file in spared:
            if file != STANDARD and os.path.exists(target) \
                    and os.path.samefile(file, target):
                raise Failure(f"{target}: the map would overwrite the {what}")
        os.makedirs(os.path.dirname(target) or ".", exist_ok=True)
        with open(target, "w", encoding="utf-8", newline="\n") as stream:
            stream.write(text)
    except (OSError, ValueError) as error:
        raise Failure(f"{target}: {reason(error)}") from None


def named(file: str) -> str:
    """How messages call a file that is read."""
    return "standard input" if file == STANDARD else file


def title(file: str) -> str:
    """How pictures call an image."""
    return "" if file == STANDARD else os.path.basename(file)


def reason(error: Exception) -> str:
    return getattr(error, "strerror", None) or str(error)


def _complain(prog: str, message: str) -> None:
    if sys.stderr is None:  # closed: the exit status alone must do
        return
    try:
        print(f"{prog}: {message}", file=sys.stderr, flush=True)
    except OSError:
        pass


def _drop_output() -> None:
    """Keep the interpreter from flushing to a lost output at its end."""
    if sys.stdout is None:
        return
    try:
        nowhere = os.open(os.devnull, os.O_WRONLY)
        os.dup2(nowhere, sys.stdout.fileno())
        os.close(nowhere)
    except (OSError, ValueError):
        pass
