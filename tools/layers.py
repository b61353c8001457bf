#!/usr/bin/env python3
"""Tests what must be believed, and what it rests on.

No definition (crates/*/specs) and no contract (crates/*/src) mentions a proof of the tree (the toolchain's library has definitions below its own `proofs`). Each file of the table in docs/TRUST.md mentions, of the crates, only
files above it in that table, and has as many lines as the table says; the examples that are computed over them mention no other. An exported
contract takes its names from files of the table, from what the crates declare, and from the toolchain's libraries.
"""
import pathlib
import re
import sys

import sources

ROOT = pathlib.Path(__file__).resolve().parent.parent

# `Rattle` and what follows it is a path into a crate, or into a library of the toolchain
MENTION = re.compile(r"(?<![\w.])(?:package\.)?Rattle(?:\.[^\s{}();,@\"]*)?(?![\w])")
USED = re.compile(r"(?<![\w.])use\s+$")  # what stands before a path to a module

# names that an exported contract takes from a file which only passes them on from one of the table: CONTRACT NAME
PASSED_ON = set()


def code_of(root, name):
    """What counts of a file of definitions or of code."""
    text = sources.read(root, name)
    return sources.bare(sources.uncommented(text) if name.endswith(".antt") else sources.masked(text))


def files(root):
    """All definitions and all code."""
    paths = [*root.glob("crates/*/specs/**/*.antt"), *root.glob("crates/*/src/**/*.rt")]
    return sorted(path.relative_to(root).as_posix() for path in paths)


def without_toolchain(line):
    """A line without the paths into libraries of the toolchain."""
    return MENTION.sub(lambda path: path[0] if sources.of_crates(path[0]) else "", line)


def mentions_of_proofs(root):
    """The lines of definitions and contracts that mention a proof, and the comments that could hide one from these tools."""
    faults = []
    for name in files(root):
        lines = code_of(root, name).split("\n")
        faults += [f"{name} mentions a proof: {line.strip()}" for line in lines if re.search(r"(?<!\w)proofs(?!\w)", without_toolchain(line))]
        faults += [f"{name} has a comment other than by lines: {line.strip()}" for line in lines if "{-" in line or "/*" in line]
        faults += [f"{name} gives the name of a library, {library}, to something else" for library in sources.covered(sources.read(root, name))]
    return faults


def leads_to(root, path, file, allowed):
    """Whether a path leads into one of the toolchain's libraries, to what code declares, or, by the file that it goes into, to an allowed one."""
    return not sources.of_crates(path) or sources.declared(root, path) or file in allowed


def outside(root, text, allowed):
    """The paths into crates that a text mentions and that lead to no allowed file."""
    found = []
    for mention in MENTION.finditer(text):
        path, is_module = mention[0].rstrip("."), mention[0].endswith(".") or USED.search(text[: mention.start()])
        file = sources.file_of(root, path) if is_module else sources.file_of_name(root, path)
        found += [] if leads_to(root, path, file, allowed) else [path]
    return found


def children(name, text):
    """The files that a file declares as modules below it."""
    return [f"{name[:-5]}/{child}.antt" for child in sources.CHILD.findall(text)]


def faults_of_table(root):
    """What the files of the table mention that is not above them, and line counts that differ."""
    rows, above, faults = sources.table(root), set(), []
    for name, count in rows:
        if not (root / name).is_file():
            faults.append(f"{name} of docs/TRUST.md is not there")
            continue
        text, lines = code_of(root, name), len(sources.read(root, name).rstrip("\n").split("\n"))
        if lines != count:
            faults.append(f"{name} has {lines} lines, docs/TRUST.md says {count}")
        lower = outside(root, text, above) + [child for child in children(name, text) if child not in above]
        faults += [f"{name} mentions {path}, which is not above it in docs/TRUST.md" for path in lower]
        above.add(name)
    for name in sources.examples(root):
        paths = outside(root, code_of(root, name), above | set(sources.examples(root)))
        faults += [f"{name} mentions {path}, which is not in docs/TRUST.md" for path in paths]
    return faults if rows else ["docs/TRUST.md has no table"]


def taken(root):
    """Each name that an exported contract takes from elsewhere than it may: the contract's name, the name and its path."""
    table = set(sources.believed(root))
    for contract, places in sources.exported(root).items():
        for item, text in places:
            brought = sources.imports(text)
            for name in sorted(sources.used(item.text, brought)):
                if not leads_to(root, brought[name], sources.file_of_brought(root, text, name), table):
                    yield contract.split(" ", 1)[1], name, brought[name]
            for path in outside(root, sources.bare(item.text), table):
                yield contract.split(" ", 1)[1], path, path


def faults_of_contracts(root):
    found = {f"{contract} {name}": path for contract, name, path in taken(root)}
    table = set(sources.believed(root))
    passing = {key for key, path in found.items() if key in PASSED_ON and sources.file_of_name(root, sources.resolved(root, path)) in table}
    faults = [f"{key} comes from {path}, which is not in docs/TRUST.md" for key, path in found.items() if key not in passing]
    return faults + [f"{key} is listed as passed on, and is not" for key in sorted(PASSED_ON - passing - set(found))]


def faults(root):
    return mentions_of_proofs(root) + faults_of_table(root) + faults_of_contracts(root)


if __name__ == "__main__":
    sys.exit("\n".join(faults(ROOT)) or 0)
