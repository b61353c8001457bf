#!/usr/bin/env python3
"""Writes docs/MUST_FAIL.md: each must-fail edit with its text, an input at which it is wrong, and the fact that refused it, between
tools/edits.txt and tools/edits_not_kept.txt.

Usage: tools/edits.py reads what `rt ci` said last, which the gate keeps in target/rt-ci.log, and writes the page. It stops at an edit whose first error is no
       fact of the program: an edited text that does not check, a bound of a sum or a cast, or a proof's text that no longer fits the code. (rt's line on an edit ends
       after 160 letters of the error, which is enough for all that is looked at here.)
       tools/edits.py --check tests that the page has each edit of the tree, and no other, with what the edit says and, where rt's line on it is there, with
       the fact of that line; that each edit can be read and applied; and that the edits that are not kept are edits of a text that is there.
"""
import pathlib
import re
import sys

ROOT = pathlib.Path(__file__).resolve().parent.parent
PAGE = ROOT / "docs" / "MUST_FAIL.md"
NOT_KEPT = ROOT / "tools" / "edits_not_kept.txt"
LOG = ROOT / "target" / "rt-ci.log"
SAID = re.compile(r"^rt: must-fail (\w+)/(\S+)\.edit: (.*)$", re.M)
REFUSED = re.compile(r"refused, as it must be: (.*)")
ERROR = re.compile(r"(?:\./)?(\S+?):(\d+):\d+: error: (?:`([^`]+)`: )?(.*)")
UNPROVED = re.compile(r"note: (?:\./)?(\S+?):(\d+):\d+: it is not proved that (.*?) \(`([\w-]+)`\).*")
FUNCTION = re.compile(r"^\s*(?:pub )?(?:extern \"C\" )?fn (\w+)")
WRONG = "# wrong at: "
ROW_NOT_KEPT = re.compile(r"\| (\w+) \| (.*?) \| (`.*`) \| .* \|")
OLD_TEXT = re.compile(r"`([^`]*)` → `[^`]*`")

# A goal that is not met. Any other message is about a text: it does not parse, a name is not there, a clause is missing, the arguments are
# too many.
NOT_MET = re.compile(
    r"`search`: no proof of"
    r"|`omega`: the goal does not follow"
    r"|`simp`: no equation of the list has an instance in the goal"
    r"|(?:computed as far as they go|as printed), the two (?:types|indices|values) "
    r"|expected type `(?:mathlib\.Core\.Path\.)?(?:Path|◌≡◌) "
    r"|expected type `(?!(?:\S+\.)?(?:List|Option|Result) )(\S+) [^`]*`, but this has type `\1 "
    r"|on the face `\w+ = [01]` this λ's body is "
)


def read_edit(path):
    """What an edit says: its comment, where it is wrong, the file, and the pairs of old and new text."""
    said = {"note": "", "wrong": "", "file": "", "old": [], "new": []}
    for line in path.read_text(encoding="utf-8").split("\n"):
        if line.startswith(WRONG):
            said["wrong"] = line[len(WRONG) :]
        elif line.startswith("# "):
            said["note"] = line[2:]
        elif line.startswith("file: "):
            said["file"] = line[6:]
        elif line.startswith(("old: ", "new: ")):
            said[line[:3]].append(line[5:])
    return said


def function_at(path, line):
    """The function of a source file that a line stands in; an attribute stands before its function."""
    lines = path.read_text(encoding="utf-8").split("\n")
    while lines[line - 1].startswith("#["):
        line += 1
    return next(m.group(1) for m in map(FUNCTION.match, reversed(lines[:line])) if m)


def fact_of(goal, function):
    """What a goal of a function says, in words; nothing for a bound. A dash joins the parts of a goal's name: what is asked, where, and on which way through the code."""
    if re.fullmatch(r"returns(?:-.*)?", goal):
        return f"what `{function}` returns"
    callee = re.fullmatch(r"(\w+)(?:-\w+)*?-requires(?:-.*)?", goal)
    if callee:
        return f"what `{callee[1]}` requires, in `{function}`"
    if re.fullmatch(r"\w+(?:-\w+)*?-(?:init|preserved)(?:-.*)?", goal):
        return f"the invariant of the loop of `{function}`"
    if re.fullmatch(r"\w+(?:-\w+)*?-smaller(?:-.*)?", goal):
        return f"that the loop of `{function}` ends"
    held = re.fullmatch(r"invariant_of-(\w+)(?:-.*)?", goal)
    if held:
        return f"what the type of `{held[1]}` says of it, in `{function}`"
    return None


def fact_of_error(place, need, message):
    """The fact at which an error of the prover stands; nothing where it stands at none."""
    if not place.startswith("proofs/") or place.endswith("/Invariants.antt") or not need or not NOT_MET.match(message):
        return None
    function = re.fullmatch(r"proofs/(?:.*/)?(\w+)/(?:Answers|Proof)\.antt", place)
    return fact_of(need, function[1]) if function else f"law `{need}` of `{place}`"


def lines_of(log):
    """What rt said of each edit."""
    text = log.read_text(encoding="utf-8") if log.is_file() else ""
    return {(crate, name): said for crate, name, said in SAID.findall(text)}


def refused_by(root, crate, said):
    """The fact at which the error stands that rt names of an edit. (An edit puts one line in the place of one, so the tree's own file tells the function.)"""
    refused = REFUSED.fullmatch(said)
    error, unproved = (refused and form.fullmatch(refused[1]) for form in (ERROR, UNPROVED))
    if error:
        return fact_of_error(error[1], error[3], error[4])
    if unproved:
        return fact_of(unproved[4], function_at(root / "crates" / crate / unproved[1], int(unproved[2])))
    return None


def code(text):
    return "`" + text.replace("|", "\\|") + "`"


def start_of_row(crate, name):
    """The columns that the edit alone gives."""
    said = read_edit(ROOT / "crates" / crate / "must-fail" / f"{name}.edit")
    text = "; ".join(f"{code(o.strip())} → {code(n.strip())}" for o, n in zip(said["old"], said["new"]))
    return f"| {crate} | {said['note'] or name.replace('_', ' ')} | {text} | {said['wrong']} | "


def row(crate, name, lines):
    said = lines.get((crate, name), "rt did not try it")
    fact = refused_by(ROOT, crate, said)
    if fact is None:
        sys.exit(f"{crate}/{name} is refused at no fact of the program: {said}")
    return start_of_row(crate, name) + fact + " |"


def all_edits():
    return sorted((p.parent.parent.name, p.stem) for p in ROOT.glob("crates/*/must-fail/*.edit"))


def expected(crate, name, lines):
    """How the row of an edit starts; all of it where rt's line on it is there."""
    return row(crate, name, lines) if (crate, name) in lines else start_of_row(crate, name)


def unfit(path):
    """Why an edit cannot be applied, or would be read otherwise than it stands there; nothing where all is well."""
    lines = [line for line in path.read_text(encoding="utf-8").split("\n") if line and not line.startswith("#")]
    kinds, said = [line.split(" ")[0] for line in lines], read_edit(path)
    if kinds != ["file:", *["old:", "new:"] * len(said["old"])] or not len(said["old"]) == len(said["new"]) > 0:
        return "it is no line `file:` with pairs of `old:` and `new:`"
    file = path.parent.parent / said["file"]
    text = file.read_text(encoding="utf-8") if file.is_file() else ""
    for old, new in zip(said["old"], said["new"]):
        if text.count(old) != 1 or old == new:
            return f"`{old}` stands {text.count(old)} times in {said['file']}, or is not changed"
        text = text.replace(old, new)
    return None


def not_there(rows, crates):
    """The edits that are not kept whose old text their crate no longer has, each by crate and note, and the rows that cannot be read."""
    lines = [line for line in rows.split("\n") if line.startswith("|") and not line.startswith(("|---", "| crate |"))]
    found = [line for line in lines if not (ROW_NOT_KEPT.fullmatch(line) and OLD_TEXT.search(line))]
    for crate, note, edit in (m.groups() for m in map(ROW_NOT_KEPT.fullmatch, lines) if m):
        sources = [p.read_text(encoding="utf-8") for kind in ("src/**/*.rt", "specs/**/*.antt") for p in (crates / crate).glob(kind)]
        if not all(any(old.replace("\\|", "|") in source for source in sources) for old in OLD_TEXT.findall(edit)):
            found.append(f"{crate}: {note}")
    return found


def check():
    broken = [f"{crate}/{name}: {why}" for crate, name in all_edits() if (why := unfit(ROOT / "crates" / crate / "must-fail" / f"{name}.edit"))]
    if broken:
        sys.exit(f"edits that cannot be tried: {broken}")
    stale = not_there(NOT_KEPT.read_text(encoding="utf-8"), ROOT / "crates")
    if stale:
        sys.exit(f"{NOT_KEPT.name} has edits of a text that is not there: {stale}")
    kept = PAGE.read_text(encoding="utf-8").split("\n## ")[0]
    lines = [line for line in kept.split("\n") if line.startswith("| ")][1:]
    said = lines_of(LOG)
    starts = [expected(*edit, said) for edit in all_edits()]
    missing = [start for start in starts if not any(line.startswith(start) for line in lines)]
    if missing or len(lines) != len(starts):
        sys.exit(f"{PAGE.name} has {len(lines)} edits, the tree {len(starts)}; not on the page: {missing}")


def write():
    said = lines_of(LOG)
    rows = [row(*edit, said) for edit in all_edits()]
    head = (ROOT / "tools" / "edits.txt").read_text(encoding="utf-8")
    tail = NOT_KEPT.read_text(encoding="utf-8")
    PAGE.write_text(head + "\n".join(rows) + "\n\n" + tail, encoding="utf-8")


if __name__ == "__main__":
    if sys.argv[1:] == ["--check"]:
        check()
    elif not sys.argv[1:]:
        write()
    else:
        sys.exit(__doc__)
