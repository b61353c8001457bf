#!/usr/bin/env python3
"""Notes what `rt ci` built from the tree, so that zone-run and c-library need not have all of it proved once more.

What `rt ci` proves lies in the crates' out/, but rt itself does not go on from there: the next `rt run`, `rt lib` or `rt check` begins with what such a command
kept before, and in a fresh clone with nothing. So the gate notes, right after an `rt ci` that passed, from which texts it built what lies there, and whoever wants a
program, or the libraries below one, asks here first. Each new `rt ci` clears out/, and the notes with it.

Usage: tools/proved.py --texts       prints a sum of all that a proof of the tree reads
       tools/proved.py --note SUM    after an `rt ci` that passed: notes it of each program and each static library, if the texts still have the sum that they had before
       tools/proved.py NAME          status 0 if `rt ci` built the program NAME, or the libraries below NAME, from these very texts with this toolchain, and these are there as it left them
"""
import hashlib
import pathlib
import re
import subprocess
import sys

ROOT = pathlib.Path(__file__).resolve().parent.parent
READ = ("src", "specs", "proofs")
NOTE = "out/by_rt_ci"


def crates(root):
    """The crates of crates.txt: whether each is a static library, and what it stands on."""
    rows = re.findall(r"^(\w+)( +staticlib)? *:([^#\n]*)", (root / "crates.txt").read_text(encoding="utf-8"), re.M)
    return {name: (bool(static), uses.split()) for name, static, uses in rows}


def below(known, name):
    """The crates below one, lowest first; the toolchain's are none of them."""
    found = []
    for use in known[name][1]:
        if use in known:
            found += [crate for crate in [*below(known, use), use] if crate not in found]
    return found


def is_program(root, name):
    return (root / "crates" / name / "src" / "main.rt").is_file()


def library(root, name):
    """A library as it is built. Its file `format` has the sums of what it holds."""
    return root / "crates" / name / "out" / "rlib" / f"{name}.rlib"


def built(root, known, name):
    """What rt ci builds of a program or for a static library. Of a library that another command built since, rt has a stamp."""
    if is_program(root, name):
        return [root / "crates" / name / "out" / name]
    return [library(root, crate) / "format" for crate in below(known, name)]


def is_mixed(root, known, name):
    return not is_program(root, name) and any((library(root, crate).parent / "stamp").exists() for crate in below(known, name))


def summed(root, names, more=()):
    """A sum of the toolchain, of what says what the crates are, of the crates' texts, and of further files; nothing where a file is not there."""
    sums = hashlib.sha256(subprocess.run(["rt", "version"], check=True, capture_output=True).stdout)
    files = [root / "crates.txt", *root.glob("HANDLES")]
    for name in sorted(names):
        files += sorted(path for part in READ for path in (root / "crates" / name / part).glob("**/*") if path.is_file())
    try:
        for path in [*files, *more]:
            sums.update(repr((path.relative_to(root).as_posix(), path.read_bytes())).encode())
    except FileNotFoundError:
        return None
    return sums.hexdigest()


def sum_of(root, known, name):
    return None if is_mixed(root, known, name) else summed(root, [*below(known, name), name], built(root, known, name))


def note(root, texts):
    known = crates(root)
    if summed(root, known) != texts:
        return "the texts changed while rt ci ran: what it built is not noted"
    for name in known:
        found = sum_of(root, known, name) if known[name][0] or is_program(root, name) else None
        if found:
            (root / "crates" / name / "out").mkdir(exist_ok=True)
            (root / "crates" / name / NOTE).write_text(found + "\n")
    return None


def is_proved(root, name):
    path = root / "crates" / name / NOTE
    return path.is_file() and path.read_text().strip() == sum_of(root, crates(root), name)


def main(words):
    if words == ["--texts"]:
        print(summed(ROOT, crates(ROOT)))
    elif len(words) == 2 and words[0] == "--note":
        return note(ROOT, words[1])
    elif len(words) == 1 and words[0] in crates(ROOT):
        return not is_proved(ROOT, words[0])
    else:
        return __doc__
    return 0


if __name__ == "__main__":
    sys.exit(main(sys.argv[1:]))
