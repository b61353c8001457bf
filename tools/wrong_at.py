#!/usr/bin/env python3
"""Tests what must-fail edits of code say after `# wrong at:`: the calls give this answer, or leave this byte, with the edit, and that one without it.

Usage: tools/wrong_at.py [CRATE..]

A line is CALLS: ANSWER, not ANSWER, or CALLS: byte N is X, not Y. The calls are vectors/FORMAT.md's, with `; ` between them, on a buffer of 70 bytes, each 9,
unless a `buffer` says otherwise. The code is compiled as Rust 2024 (by rustc 1.88 or later), its contracts taken out, with tools/wrong_at.rs for its main. Nothing here is proved.
What edits of definitions say is not tested here: the prover computed it.
"""
import concurrent.futures
import os
import pathlib
import re
import signal
import subprocess
import sys
import tempfile

import edits
import proved
import sources

ROOT = pathlib.Path(__file__).resolve().parent.parent
SAID = re.compile(r"(.*): (?:byte (\d+) is (\d+), not (\d+)|(.*), not (.*))")


# what no copy can be made of: it is lent to be changed, or owns what it holds
NO_COPY = re.compile(r"&(?:'\w+ )?mut\b|\b(?:Vec|String|Box|Rc)\b")
TYPE = re.compile(r"^((?:#\[derive\([^)]*\)\]\n)?)((?:pub(?:\([^)]*\))? )?(?:struct|enum) (\w+))", re.M)


def derived(said):
    """The names of a `derive` line that Rust has, too."""
    return [name for name in re.findall(r"\w+", said.partition("(")[2]) if name != "Drop"]


def whole(code, at):
    """A struct or an enum from its head on."""
    end = re.compile(r"[{;]").search(code, at)
    return code[at : sources.closing(code, end.start()) if end[0] == "{" else end.end()]


def copied(code):
    """Each type derives what it did, and Copy where Rust can make one: a private type may be a part of one that a test copies."""
    bodies = {head[3]: whole(code, head.start(2)) for head in TYPE.finditer(code)}
    unlike = {name for name, body in bodies.items() if NO_COPY.search(body)}
    while more := {name for name in set(bodies) - unlike if unlike & (set(re.findall(r"\w+", bodies[name])) - {name})}:
        unlike |= more

    def line(head):
        names = list(dict.fromkeys([*(() if head[3] in unlike else ("Clone", "Copy")), *derived(head[1])]))
        return (f"#[derive({', '.join(names)})]\n" if names else "") + head[2]

    return TYPE.sub(line, code)


def opened(code):
    """The code with no private function. Those of a trait or of its impls are as public as the trait."""
    parts, at = [], 0
    for head in re.finditer(r"^[ \t]*(?:(?:pub )?trait \w|impl\b[^{;]*\bfor\b)[^{;]*\{", code, re.M):
        if head.start() >= at:
            end = sources.closing(code, head.end() - 1)
            parts += [re.sub(r"^(\s*)((?:const )?fn )", r"\1pub \2", code[at : head.start()], flags=re.M), code[head.start() : end]]
            at = end
    return "".join(parts) + re.sub(r"^(\s*)((?:const )?fn )", r"\1pub \2", code[at:], flags=re.M)


def bounded(code):
    """Bounds as Rust has them: each type can be dropped there, and a formatter is one whatever it writes to."""
    code = re.sub(r"\bDrop \+ |(?:: | \+ )Drop\b(?=[^;{}()]*[>,{\n])", "", code)
    return re.sub(r"\bfn fmt<(\w+): fmt::Write>\(&self, (\w+): &mut fmt::Formatter<\1>\)", r"fn fmt(&self, \2: &mut fmt::Formatter<'_>)", code)


def rust(text):
    """Rattle's code as Rust: no contract, nothing for the prover, no private function, data is Copy, and a sum that wraps by Rust's name."""
    code = re.sub(r"^[ \t]*ghost use [^;]*;\n", "", sources.masked(text), flags=re.M)
    code = re.sub(r"\bstd::num::wrapping_(add|sub)_(u\w+)\(", r"\2::wrapping_\1(", code)
    code = re.sub(r"^[ \t]*#!?\[(?:tactic|cycle)\b[^\n]*\]\n", "", code, flags=re.M)
    parts, at = [], 0
    for clause in iter(lambda: re.compile(sources.CLAUSE).search(code, at), None):
        before = code[at : clause.start()]
        parts.append(before if clause["kind"] else re.sub(r"\bpub(?:\([^)]*\))?\s+$", "", before))
        at = sources.closing(code, clause.end() - 1)
        at += not clause["kind"] and code.startswith((",", ";"), at)  # a ghost field's, or an impl's ghost member's
    return copied(opened(bounded("".join(parts) + code[at:])))


def libraries():
    """The crates that are libraries, lowest first, each with those that it stands on."""
    return [(name, uses) for name, (_, uses) in proved.crates(ROOT).items() if not proved.is_program(ROOT, name)]


def module(crate, file, uses, changed):
    """A file of code as a module's text, with the files that its `mod` lines name inside."""
    name = f"crates/{crate}/src/{file}.rt"
    text = rust(changed.get(name) or sources.read(ROOT, name))
    inner = lambda found: f"pub mod {found[1]} {{\n{module(crate, found[1], uses, changed)}\n}}"
    return f"use crate::{{{', '.join(uses)}}};\n" + re.sub(r"^(?:pub )?mod (\w+);", inner, text, flags=re.M)


def program(changed):
    """All libraries as one program, the changed files in the place of the tree's."""
    parts = ["#![allow(warnings)]"]
    parts += [f"pub mod {name} {{\n{module(name, 'lib', uses, changed)}\n}}" for name, uses in libraries()]
    return "\n".join([*parts, (ROOT / "tools" / "wrong_at.rs").read_text(encoding="utf-8")])


def built(folder, name, changed):
    source, binary = pathlib.Path(folder) / f"{name}.rs", pathlib.Path(folder) / name
    source.write_text(program(changed), encoding="utf-8")
    subprocess.run(["rustc", "--edition", "2024", "-C", "overflow-checks=on", "-o", binary, source], check=True)
    return binary


def last_step(binary, calls):
    """What the last call answers, and the bytes after it."""
    text = "case\n" + "\n".join(calls) + "\n"
    # ten seconds of processor time, which others that run beside do not take away
    done = subprocess.run(["sh", "-c", 'ulimit -t 10 && exec "$0"', binary], input=text, capture_output=True, text=True, check=False)
    if done.returncode in (-signal.SIGXCPU, -signal.SIGKILL):
        return "does not end", b""
    done.check_returncode()
    answer, _, digits = done.stdout.rstrip("\n").split("\n")[-1].partition(" | ")
    return answer, bytes.fromhex(digits.replace("-", ""))


def edited(path):
    """The one file of code that an edit changes, with its text; nothing for an edit of definitions."""
    said = edits.read_edit(path)
    if not said["file"].startswith("src/"):
        return {}
    file = path.parent.parent / said["file"]
    text = file.read_text(encoding="utf-8")
    for old, new in zip(said["old"], said["new"]):
        text = text.replace(old, new, 1)
    return {file.relative_to(ROOT).as_posix(): text}


def fault(said, with_edit, without):
    """What is wrong with what an edit says; nothing where it is so."""
    found = SAID.fullmatch(said)
    if not found:
        return "cannot be read"
    calls, byte, new_byte, old_byte, new, old = found.groups()
    steps = [last_step(binary, calls.split("; ")) for binary in (with_edit, without)]
    got = [bytes_[int(byte)] for _, bytes_ in steps] if byte else [answer for answer, _ in steps]
    wanted = [int(new_byte), int(old_byte)] if byte else [new, old]
    return None if got == wanted else f"gives {got[0]}, not {got[1]}"


def tested(folder, without, path, number):
    """A fault of an edit, with its name; nothing for an edit of definitions or one that says nothing."""
    crate, said, changed = path.parent.parent.name, edits.read_edit(path)["wrong"], edited(path)
    if not changed or not said:
        return None
    try:
        with_edit = built(folder, f"edit_{number}", changed)
    except subprocess.CalledProcessError:
        return f"{crate}/{path.stem}: is no code"
    wrong = fault(said, with_edit, without)
    return f"{crate}/{path.stem}: {wrong}: {said}" if wrong else None


def main(crates):
    paths = [path for path in sorted(ROOT.glob("crates/*/must-fail/*.edit")) if not crates or path.parent.parent.name in crates]
    with tempfile.TemporaryDirectory() as folder, concurrent.futures.ThreadPoolExecutor(os.cpu_count()) as pool:
        without = built(folder, "without", {})
        found = list(pool.map(lambda pair: tested(folder, without, pair[1], pair[0]), enumerate(paths)))
    return [wrong for wrong in found if wrong]


if __name__ == "__main__":
    sys.exit("\n".join(main(sys.argv[1:])) or 0)
