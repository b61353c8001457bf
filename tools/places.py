#!/usr/bin/env python3
"""Counts the places in the crates' code that stand in an older form of the language where today's has a better one. docs/DESIGN-PASS.md says what they come to.

Usage: tools/places.py [--at COMMIT]            each count: its point, its name, how many places there are, what is counted
       tools/places.py [--at COMMIT] COUNT..    the places themselves

A count is taken of crates/*/src, but where it says otherwise, of the tree or of a commit. Its name ends in `-b` where it is the other way to count a point: by
the words of the code, its comments taken out, and not by lines.
"""
import collections
import functools
import io
import pathlib
import re
import subprocess
import sys
import tarfile
import tempfile
from typing import NamedTuple

import sources

ROOT = pathlib.Path(__file__).resolve().parent.parent
INTEGERS = r"u8|u16|u32|u64|usize"


# ---- what is read


class Function(NamedTuple):
    """A function of code: its parameters as pairs of a name and a type, its result, the texts of its clauses, and its body with no comment."""

    file: str
    line: int
    name: str
    params: tuple
    result: str
    requires: tuple
    body: str


def code_files(root):
    return sorted(path.relative_to(root).as_posix() for path in root.glob("crates/*/src/**/*.rt"))


def proof_files(root):
    return sorted(path.relative_to(root).as_posix() for path in root.glob("crates/*/proofs/**/*.antt"))


def short(name):
    """A file's name as the places say it."""
    return re.sub(r"^crates/(\w+)/(?:src/)?(?:lib\.rt)?", r"\1/", name).rstrip("/")


def place(name, line, text=""):
    return f"{short(name)}:{line} {' '.join(text.split())}".rstrip()


@functools.lru_cache(maxsize=None)
def plain(text):
    """Code with no comment and no `ghost use` line, and without its tests, each thing on its line."""
    code = sources.masked(text)
    tests = re.search(r"^#\[cfg\(test\)\]", code, re.M)
    code = code[: tests.start()] if tests else code
    code = re.sub(r"[ \t]//[^\n]*", "", code)
    return re.sub(r"^[ \t]*ghost use [^;]*;", lambda use: re.sub(r"[^\n]", " ", use[0]), code, flags=re.M)


def split(text, mark=","):
    """The parts of a list, whose marks inside brackets count for nothing."""
    parts, depth = [""], 0
    for letter in text.replace("->", "\0"):
        depth += {"(": 1, "[": 1, "{": 1, "<": 1, ")": -1, "]": -1, "}": -1, ">": -1}.get(letter, 0)
        if letter == mark and depth == 0:
            parts.append("")
        else:
            parts[-1] += letter
    return [part.replace("\0", "->").strip() for part in parts if part.strip()]


def bracket(text, at):
    """The place after the round bracket that closes the one at a place."""
    depth = 0
    for here in range(at, len(text)):
        depth += {"(": 1, ")": -1}.get(text[here], 0)
        if depth == 0:
            return here + 1
    return len(text)


def function(name, code, head):
    """The function at a head; nothing where it has no body."""
    text, _ = sources.function_at(code, head.start(), head.end())
    if ";" in re.sub(r"\[[^\]]*\]", "", re.split(sources.CLAUSE, text)[0]):
        return None
    start = head.start() + len(text)
    body = code[start : sources.closing(code, start)]
    opened = text.index("(", head.end() - head.start())
    closed = bracket(text, opened)
    params = [part.partition(":") for part in split(text[opened + 1 : closed - 1])]
    result = re.match(r"\s*->\s*([^\n{]*)", text[closed:])
    requires = [text[clause.end() : sources.closing(text, clause.end() - 1) - 1] for clause in re.finditer(sources.CLAUSE, text) if clause["kind"] == "requires"]
    pairs = tuple((before.removeprefix("mut ").strip(), after.strip()) for before, _, after in params)
    return Function(name, code.count("\n", 0, head.start(3)) + 1, head[3], pairs, result[1].strip() if result else "", tuple(requires), body)


@functools.lru_cache(maxsize=None)
def functions(root):
    """All functions beside tests."""
    found = []
    for name in code_files(root):
        code = plain(sources.read(root, name))
        found += [function(name, code, head) for head in sources.HEAD.finditer(code) if head[2] == "fn"]
    return [each for each in found if each]


def inner(root):
    """All functions but C's, whose forms are C's."""
    return [each for each in functions(root) if not each.file.startswith("crates/nafelode_c/")]


@functools.lru_cache(maxsize=None)
def types(root):
    """The structs and enums of code: file, line, what stands before the name, name, body."""
    found = []
    for name in code_files(root):
        code = plain(sources.read(root, name))
        for head in re.finditer(r"((?:^[ \t]*#\[[^\]\n]*\]\n)*)^[ \t]*(?:pub )?(?:struct|enum) (\w+)[^{;(]*\{", code, re.M):
            found.append((name, code.count("\n", 0, head.start(2)) + 1, head[1], head[2], code[head.end() : sources.closing(code, head.end() - 1) - 1]))
    return found


def fields(body):
    """A struct's fields: pairs of a name and a type."""
    return re.findall(r"^[ \t]*(?:pub )?(\w+): ([^,\n{]+)", body, re.M)


def words(text):
    return re.findall(r"\w+|[^\s\w]", text)


# ---- ways to count


def lines(pattern, without=None, beside=None):
    """The lines of code, comments too, that a pattern is found in, but those that another is found in too, and those of a crate."""

    def found_in(root):
        found = []
        for name in code_files(root):
            if beside and name.startswith(beside):
                continue
            for at, line in enumerate(sources.read(root, name).split("\n"), 1):
                if re.search(pattern, line) and not (without and re.search(without, line)):
                    found.append(place(name, at, line))
        return found

    return found_in


def all_in_lines(pattern):
    """Each time that a pattern is found in a line of code."""

    def found_in(root):
        every = ((name, at, line) for name in code_files(root) for at, line in enumerate(sources.read(root, name).split("\n"), 1))
        return [place(name, at, found[0]) for name, at, line in every for found in re.finditer(pattern, line)]

    return found_in


def mixed_structs(root):
    """Structs in which some fields mean something only where another says so: a bool, or a refusal's number, beside others."""
    found = []
    for name, line, _, struct, body in types(root):
        flags = [field for field, kind in fields(body) if kind.strip() == "bool" or field == "number"]
        if flags and len(fields(body)) > len(flags):
            found.append(place(name, line, f"{struct}: {', '.join(flags)}"))
    return found


def told_early(root):
    """Answers by a literal or a constant before a function's end, of functions that answer an integer."""
    found = []
    for each in inner(root):
        if re.fullmatch(INTEGERS, each.result):
            found += [place(each.file, each.line, f"{each.name}: {said}") for said in re.findall(r"return (?:\d+|[\w:]*[A-Z]{2,})\s*;", each.body)]
    return found


def shape(body):
    """A body with its names, numbers, constants and integer types taken away."""
    body = re.sub(r"\b[A-Z][A-Z_]+\b", "K", body)
    body = re.sub(rf"\b(?:{INTEGERS})\b", "T", body)
    body = re.sub(r"\b\d+\b", "N", body)
    keep = set("if else return let mut while for in as K T N true false match loop break".split())
    seen = {}
    body = re.sub(r"[A-Za-z_]\w*", lambda name: name[0] if name[0] in keep else seen.setdefault(name[0], f"v{len(seen)}"), body)
    return re.sub(r"\s+", "", body)


def twins(root):
    """Groups of functions whose bodies are alike but for names, numbers, constants and integer types."""
    groups = collections.defaultdict(list)
    for each in inner(root):
        groups[shape(each.body)].append(each)
    large = [group for body, group in groups.items() if len(group) > 1 and len(body) > 12]
    return ["  ".join(place(each.file, each.line, each.name) for each in group) for group in sorted(large, key=len, reverse=True)]


def repeats(root, width=60):
    """Pairs of functions that have sixty words in a row in common, each name standing for any other."""
    keep = set("if else return let mut while for in as match loop break true false".split())
    holders = collections.defaultdict(set)
    every = inner(root)
    for number, each in enumerate(every):
        said = [word if word in keep or not re.match(r"\w", word) else ("0" if word[0].isdigit() else "x") for word in words(each.body)]
        for at in range(len(said) - width + 1):
            holders[tuple(said[at : at + width])].add(number)
    pairs = {(a, b) for group in holders.values() for a in group for b in group if a < b}
    return [f"{place(every[a].file, every[a].line, every[a].name)}  {place(every[b].file, every[b].line, every[b].name)}" for a, b in sorted(pairs)]


def stepped(root):
    """Loops by `while` or `loop` that step a number which their head tests or which names a place in a slice."""
    found = []
    for each in functions(root):
        for head in re.finditer(r"\b(?:while|loop)\b([^{]*)\{", each.body):
            inside = each.body[head.end() - 1 : sources.closing(each.body, head.end() - 1)]
            steps = set(re.findall(r"\b(\w+) [-+]= ", inside)) | {name for name in re.findall(r"(?<!let )\b(\w+) = ", inside)}
            used = set(re.findall(r"\w+", head[1])) | {word for index in re.findall(r"\[([^\[\]]*)\]", inside) for word in re.findall(r"\w+", index)}
            used |= {word for call in re.findall(r"\w\(([^()]*)\)", inside) for word in re.findall(r"\w+", call)}
            if steps & used:
                line = each.line + each.body.count("\n", 0, head.start())
                found.append(place(each.file, each.line, f"{each.name}, line {line - each.line} of its body: {', '.join(sorted(steps & used))}"))
    return found


def built_anew(root):
    """Structs written out of variables of the same names, three or more."""
    found = []
    for each in functions(root):
        for name, inside in re.findall(r"\b([A-Z]\w+) \{([^{}]*)\}", each.body):
            same = [part for part in split(inside) if re.fullmatch(r"\w+", part)]
            if len(same) > 2:
                found.append(place(each.file, each.line, f"{each.name}: {name} of {len(same)}"))
    return found


def choices(root):
    """Functions that only choose between two values by a comparison, or only turn a number into another type."""
    either = r"\{\s*if (\w+) <=? (\w+) \{\s*(?:return )?(?:\1|\2);?\s*\}\s*(?:else \{\s*)?(?:\1|\2)\s*\}?\s*\}"
    turned = rf"\{{\s*\w+ as (?:{INTEGERS})\s*\}}"
    return [place(each.file, each.line, each.name) for each in functions(root) if re.fullmatch(either, each.body) or re.fullmatch(turned, each.body)]


FACTS = {
    "IsZone": r"IsZone ",
    "first ≡ first_field": r"first ≡ first_field",
    "Row (drop ..)": r"Row \(drop",
    "length ≤ longest_zone": r"length [zs]\.\w+ ≤ longest_zone",
    "first ≤ length": r"first ≤ length",
    "place < length": r"\b\w+ < length [zs]\.",
    "at + smallest_block ≤ length": r"at \+ smallest_block ≤",
    "Stepped": r"Stepped ",
    "IsWord, IsHeader": r"Is(?:Word|Header) ",
    "h < argument_range": r"h < argument_range",
    "IsBay": r"IsBay ",
    "ZoneBay": r"ZoneBay ",
    "IsLow": r"IsLow ",
    "Pages": r"Pages z",
    "Links, Tree": r"\b(?:Links|Tree) \w",
    "Fit": r"\bFit z",
    "limits_length": r"limits_length",
    "lent_ok": r"lent_ok",
    "page_in": r"page_in",
    "Fresh": r"Fresh \(",
    "clock_at": r"clock_at <",
    "CellHere": r"CellHere",
}


def facts(root):
    """Facts by name, with the functions whose `requires` have them: those of three functions or more."""
    found = []
    for name, pattern in FACTS.items():
        having = [each for each in functions(root) if any(re.search(pattern, clause) for clause in each.requires)]
        if len(having) > 2:
            found.append(f"{name}: {len(having)}: {', '.join(short(each.file) + ' ' + each.name for each in having)}")
    return found


def fact_clauses(root):
    """The functions of each fact, one by one."""
    return [f"{fact.split(':')[0]}: {each}" for fact in facts(root) for each in fact.split(": ", 2)[2].split(", ")]


def alike(root):
    """Parts of `requires` that stand in three functions or more once the parameters' names are taken away."""
    holders = collections.defaultdict(set)
    for each in functions(root):
        names = {name: f"‹{kind.replace('mut ', '')}›" for name, kind in each.params}
        for clause in each.requires:
            for part in re.split(r" × |\n", " ".join(clause.split())):
                part = re.sub(r"^\((.*)\)$", r"\1", part.strip())
                key = re.sub(r"\.(?:now|old)\b", "", part)
                key = re.sub(r"[A-Za-z_]\w*", lambda word, names=names: names.get(word[0], word[0]), key)
                holders[key].add(f"{short(each.file)} {each.name}")
    return [f"{key}: {len(having)}: {', '.join(sorted(having))}" for key, having in sorted(holders.items(), key=lambda pair: -len(pair[1])) if len(having) > 2]


def together(root):
    """Names of parameters that stand side by side in three functions or more."""
    holders = collections.defaultdict(list)
    for each in inner(root):
        names = [name for name, _ in each.params]
        for size in (2, 3, 4):
            for at in range(len(names) - size + 1):
                holders[tuple(names[at : at + size])].append(each.name)
    return [f"{len(having)} {' '.join(names)}: {', '.join(having)}" for names, having in sorted(holders.items(), key=lambda pair: -len(pair[1])) if len(having) > 2]


def many(root):
    """Functions of six parameters or more."""
    return [place(each.file, each.line, f"{each.name}: {len(each.params)}") for each in inner(root) if len(each.params) > 5]


def beside_slices(root):
    """Functions that take a slice and, beside it, a number that they or their contract use as a place in it or its length."""
    found = []
    for each in inner(root):
        slices = [name for name, kind in each.params if re.search(r"&[^\[]*\[", kind)]
        numbers = [name for name, kind in each.params if re.fullmatch(r"(?:mut )?usize", kind)]
        text = each.body + " ".join(each.requires)
        used = [number for number in numbers for slice_ in slices if re.search(rf"\b{slice_}\[[^\]]*\b{number}\b", text) or re.search(rf"\b{slice_}, [^()]*\b{number}\b", text) or re.search(rf"\b{number}\b[^×]*length {slice_}\b", text)]
        if used:
            found.append(place(each.file, each.line, f"{each.name}: {', '.join(slices)}; {', '.join(dict.fromkeys(used))}"))
    return found


def arrays(root):
    """Functions that take two slices or arrays of numbers, no bytes, and use one's content as a place in another: parallel arrays and arenas."""
    return [place(each.file, each.line, each.name) for each in inner(root) if sum(bool(re.search(r"\[u(?:16|32|64|size)\b", kind)) for _, kind in each.params) > 1]


def flag_params(root):
    """Functions that are handed a bool."""
    found = []
    for each in inner(root):
        handed = [name for name, kind in each.params if kind == "bool"]
        if handed:
            found.append(place(each.file, each.line, f"{each.name}: {', '.join(handed)}"))
    return found


# ---- proofs

HEADER = re.compile(r"^(?:(?:abbrev|unfoldable|opaque)\s+)?(pub )?(?:record |data )?([^\s:(){}]+)\s*(?:[({].*)?:\s")
TOKEN = re.compile(r"[^\s(){}\[\],;→↦λ∷]+")
GENERAL = {"length", "take", "drop", "map", "sum", "max", "min", "cond"}


def headed(text):
    """The definitions of a file of definitions or proofs: line, name, whole head."""
    every = text.split("\n")
    for at, line in enumerate(every):
        head = HEADER.match(line)
        if head and not line.startswith((" ", "use ")):
            more = []
            for further in every[at + 1 :]:
                if not further.startswith("    "):
                    break
                more.append(further.strip())
            yield at + 1, head[2], " ".join([line, *more])


@functools.lru_cache(maxsize=None)
def own_names(root):
    """The names that the crates' definitions and proofs define, constructors and fields too."""
    found = set()
    for path in root.glob("crates/*/*/**/*.antt"):
        name = path.relative_to(root).as_posix()
        if name.split("/")[2] in ("specs", "proofs"):
            text = sources.read(root, name)
            found |= {own for _, own, _ in headed(text)} | set(re.findall(r"^[ \t]+(?:pub )?([\w'-]+) :", text, re.M))
    return found - GENERAL


def general(root):
    """Lemmas that name no definition of the crates, so that a library could have them."""
    found = []
    for name in proof_files(root):
        if not name.endswith(("Answers.antt", "Invariants.antt")):
            for at, own, head in headed(sources.uncommented(sources.read(root, name))):
                if re.match(r"(?:abbrev|unfoldable|opaque|pub data|pub record|data|record)\b", head):
                    continue
                said = head[head.index(own) + len(own) :]
                bound = {word for group in re.findall(r"[({]\s*([^:(){}]+?)\s*:", said) for word in group.split()}
                if not ({word for token in TOKEN.findall(said) for word in re.findall(r"[^.:≡+×≤<∀]+", token)} - bound) & own_names(root):
                    found.append(place(name, at, head))
    return found


def uncited(root):
    """Lemmas that nothing cites: no proof, no definition, no clause."""
    uses, known = collections.Counter(), []
    for path in sorted([*root.glob("crates/*/*/**/*.antt"), *root.glob("crates/*/src/**/*.rt")]):
        name = path.relative_to(root).as_posix()
        if name.split("/")[2] not in ("specs", "proofs", "src"):
            continue
        owner = None
        for at, line in enumerate(sources.read(root, name).split("\n"), 1):
            said = re.sub(r"//.*" if name.endswith(".rt") else r"(?:^|\s)--.*", "", line)
            head = HEADER.match(said) if name.endswith(".antt") and not said.startswith((" ", "use ")) else None
            if head:
                owner = head[2]
                if "/proofs/" in name and not name.endswith(("Answers.antt", "Invariants.antt", "Proof.antt")):
                    known.append((name, at, owner))
            elif not said.strip():
                owner = None
            uses.update({part for token in TOKEN.findall(said) for part in (token, token.split(".")[-1])} - {owner})
    return [place(name, at, own) for name, at, own in known if not uses[own]]


def answers(root):
    """The answers to what the check leaves open."""
    return [place(name, at, own) for name in proof_files(root) if name.endswith("Answers.antt") for at, own, _ in headed(sources.uncommented(sources.read(root, name)))]


def said_again(root):
    """Answers' terms of forty letters or more that stand in three answers or more, names of places in the code taken away."""
    holders = collections.defaultdict(list)
    for name in proof_files(root):
        if name.endswith("Answers.antt"):
            text = sources.uncommented(sources.read(root, name))
            for own, term in re.findall(r"^(?!pub |use )(\S+)[^=\n]* =\s((?:.*)(?:\n[ \t]+\S.*)*)", text, re.M):
                key = " ".join(re.sub(r"\bc(?:\.[\w-]+)+", "c", term).split())
                if len(key) > 39:
                    holders[key].append(f"{short(name)} {own}")
    return [f"{len(having)} {key[:90]}: {', '.join(having)}" for key, having in sorted(holders.items(), key=lambda pair: -len(pair[1])) if len(having) > 2]


# ---- the counts


class Count(NamedTuple):
    point: int
    name: str
    what: str
    places: object


def count(point, name, places, where=""):
    """A count that says what its function says."""
    said = places.__doc__.rstrip(".")
    return Count(point, name, said[0].lower() + said[1:] + where, places)


COUNTS = [
    Count(1, "number-fields", "structs that carry a refusal's number beside values", lines(r"^\s*(pub )?number: u32,")),
    Count(1, "bare-numbers", "functions, C's aside, that answer a refusal's number and nothing else", lines(r"ensures \{ .*(told result 0|shows result)", beside="crates/nafelode_c/")),
    Count(1, "refusals-in-digits", "refusals written as digits", lines(r"number: ([1-9]|1[0-4]),|no_(plan|growth)\([0-9]|=> (6|7|13),|return 14;")),
    Count(1, "flags", "flags with a value beside them", lines(r"^\s*(pub )?(ok|found|skip|tidy|grows|free|page|certain): bool,")),
    Count(1, "none-by-number", "comments that say which number means none", lines(r"//.*(0 for n|0 where|0 for each|else 0|RANK_RANGE|one more than the bytes)")),
    Count(1, "number-tests", "tests of a number for done", lines(r"number (==|!=) 0")),
    Count(1, "types-by-code", "block types by their number, outside block_type", lines(r"BlockType::[A-Z]*_CODE", beside="crates/block_type/")),
    count(1, "mixed-structs-b", mixed_structs),
    count(1, "told-early-b", told_early),
    count(2, "twins", twins),
    count(2, "repeats-b", repeats),
    Count(3, "loops", "loops by `while` or `loop`", lines(r"^\s*(while|loop)\b")),
    Count(3, "for-loops", "loops by `for`: today's form", lines(r"^\s*for ")),
    count(3, "stepped-b", stepped),
    Count(4, "copied-fields", "fields copied one by one", lines(r"^\s*let \w+ = \w+\.\w+;$")),
    Count(4, "own-largest", "the larger or smaller of two by hand", lines(r"fn (larger|larger_of|higher|lesser|lesser_of)\(")),
    Count(4, "own-widening", "wider numbers by hand", lines(r"fn (wide|wider|node)\(")),
    Count(4, "casts", "casts between integers", all_in_lines(rf" as ({INTEGERS})\b")),
    Count(4, "drop-alone", "types that derive Drop alone", lines(r"#\[derive\(Drop\)\]")),
    count(4, "built-anew-b", built_anew),
    count(4, "choices-b", choices),
    count(5, "facts", facts),
    Count(5, "fact-clauses", "the functions of those facts, each fact's counted", fact_clauses),
    count(5, "together", together),
    count(5, "many-parameters", many),
    count(5, "alike-b", alike),
    Count(6, "parts", "part of a buffer by a length beside it", lines(r"&(mut )?z(one)?\[\.\.\w+\]")),
    Count(6, "fields-by-place", "a field of the zone's header by its place", lines(r"get[24]\(\w+, block_type::(LENGTH|FIRST|MASTERS|CHAIN)_AT\)")),
    count(6, "beside-slices-b", beside_slices),
    count(6, "arrays-b", arrays),
    Count(7, "matches", "lines with `match`", lines(r"match ", without="//")),
    Count(7, "flags-that-choose", "flags that choose a step", lines(r"if (p\.|r\.)?(tidy|grows)\b")),
    count(7, "flag-parameters-b", flag_params),
    count(8, "general-lemmas", general, " (crates/*/proofs)"),
    count(8, "uncited", uncited, " (crates/*/proofs)"),
    count(8, "answers", answers, " (crates/*/proofs)"),
    count(8, "said-again-b", said_again, " (crates/*/proofs)"),
]


def tree_of(commit, folder):
    """A commit's crates in a folder."""
    made = subprocess.run(["git", "-C", ROOT, "archive", commit, "crates"], check=True, capture_output=True)
    with tarfile.open(fileobj=io.BytesIO(made.stdout)) as archive:
        archive.extractall(folder)
    return pathlib.Path(folder)


def told(root, names):
    """The lines that are printed."""
    if not names:
        return [f"{each.point}  {each.name:<18} {len(each.places(root)):>4}  {each.what}" for each in COUNTS]
    known = {each.name: each for each in COUNTS}
    return [line for name in names for line in (f"{name}: {known[name].what}", *(f"  {each}" for each in known[name].places(root)))]


def main(arguments):
    commit = arguments[1] if arguments[:1] == ["--at"] and len(arguments) > 1 else None
    names = arguments[2:] if commit else arguments
    if set(names) - {each.name for each in COUNTS}:
        return __doc__
    with tempfile.TemporaryDirectory() as folder:
        print("\n".join(told(tree_of(commit, folder) if commit else ROOT, names)))
    return 0


if __name__ == "__main__":
    sys.exit(main(sys.argv[1:]))
