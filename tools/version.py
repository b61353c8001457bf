#!/usr/bin/env python3
"""Tests that one version stands everywhere: the header for C, the vectors and the first row of docs/LANDINGS.md's versions have that of the file VERSION, a row that brings a
request of document 02 has its number in the middle, and README.md names one toolchain. Where `rt` is another one, that is said, and is no fault."""
import pathlib
import re
import subprocess
import sys

import c_header

ROOT = pathlib.Path(__file__).resolve().parent.parent


def read(root, name):
    return (root / name).read_text(encoding="utf-8")


def rows(root):
    """The versions of docs/LANDINGS.md, each with what is new in it."""
    return re.findall(r"^\| (\d+\.\d+\.\d+) \| ([^|]*) \|", read(root, "docs/LANDINGS.md"), re.M)


def version_faults(root):
    version = read(root, "VERSION")
    if not re.fullmatch(r"\d+\.\d+\.\d+\n", version):
        yield f"VERSION is {version!r}, and no line of three numbers"
    if c_header.version(c_header.text(root)) != version.strip():
        yield f"the header for C has version {c_header.version(c_header.text(root))}, and VERSION {version.strip()}"
    for path in sorted((root / "vectors").glob("*.txt")):
        with path.open(encoding="ascii") as lines:
            if [next(lines, ""), next(lines, "")][1] != f"# written by Nafelode {version}":
                yield f"vectors/{path.name} is not of version {version.strip()}: vectors/check --write ARCHIVE writes it"
    if [said for said, _ in rows(root)][:1] != [version.strip()]:
        yield f"docs/LANDINGS.md does not begin with version {version.strip()}"


def row_faults(root):
    numbers = [tuple(int(part) for part in version.split(".")) for version, _ in rows(root)]
    if numbers != sorted(set(numbers), reverse=True):
        yield "docs/LANDINGS.md: the versions do not fall from row to row"
    for version, new in rows(root):
        request = re.match(r"U(\d+): ", new)
        if request and version.split(".")[1:] != [request[1], "0"]:
            yield f"docs/LANDINGS.md: version {version} brings U{request[1]}"


def toolchains(root):
    """Those that README.md names, by their logic's number."""
    return re.findall(r"^    \S+ (logic [0-9a-f]+)$", read(root, "README.md"), re.M)


def toolchain_faults(root):
    if len(toolchains(root)) != 1:
        yield f"README.md names {len(toolchains(root))} toolchains, not one"


def another_toolchain(root, said):
    """`said` is what `rt version` prints: what there is to say where README.md names another."""
    if not any(said.strip().endswith(f" {named}") for named in toolchains(root)):
        yield f"this is {said.strip()}; README.md names another, by which the tree was proved last"


def main():
    said = subprocess.run(["rt", "version"], check=True, capture_output=True, text=True).stdout
    for note in another_toolchain(ROOT, said):
        print(note)
    return [*version_faults(ROOT), *row_faults(ROOT), *toolchain_faults(ROOT)]


if __name__ == "__main__":
    sys.exit("\n".join(main()) or 0)
