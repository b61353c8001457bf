"""What the tools of this folder read: the table of docs/TRUST.md, definitions (.antt), functions and their contracts (.rt)."""
import functools
import re
from typing import NamedTuple

# examples, and laws in their own terms: nobody has to believe them, but emptied they would show nothing
EXAMPLES = ("RigSheet.antt", "ReelB.antt", "WhichBay.antt", "Choice.antt", "OneChoice.antt", "RosterSays.antt", "Growth.antt", "GrowthSheet.antt", "Formula.antt", "Strata.antt", "PageSays.antt", "PageSheet.antt", "FixedSheet.antt", "StrataSheet.antt")
EXPORTED = ("nafelode", "nafelode_c", "records", "zone_run")

ROW = re.compile(r"^\| \d+ \| (crates/\S+) \| (\d+) \|", re.M)

# an antt name is any run of other characters than these
NAME = r"[^\s(){}.;,@\"«»]+"
ATOM = re.compile(NAME)
USE = re.compile(rf"(?:^|[;{{}}])[ \t]*(?:(?:pub|unfoldable|ghost)\s+)*use\s+({NAME}(?:\.{NAME})*)(?:\.\{{([^}}]*)\}}|\s+as\s+({NAME}))?", re.M)
CODE_USE = re.compile(r"^[ \t]*(pub(?:\([^)]*\))? )?use ([^;]*);", re.M)
CRATE_PATH = re.compile(r"(?:package\.)?Rattle\.(\w+)\.specs\.(\S+)")
# the libraries of the toolchain: whatever else a path begins with may lead into a crate
TOOLCHAIN = re.compile(r"(?:mathlib|Prim|native|lib|Rattle\.std)(?![^.])")
LIBRARIES = {"mathlib", "Prim", "native", "lib", "Rattle"}
CHILD = re.compile(r"^[ \t]*(?:pub )?mod (\S+)", re.M)

HEAD = re.compile(r"^[ \t]*(?:#\[[^\]\n]*\]\s*)*(pub )?(?:(?:const|unsafe|final|extern \"C\") )*(fn|struct|enum|const|static|type|trait) (\w+)", re.M)
OWNER = re.compile(r"^impl(?:<[^>]*>)? (\w+)", re.M)
# where a text of antt's begins: a clause, which may have a name, or a ghost field
CLAUSE = r"\b(?:(?P<kind>requires|ensures)\*?(?:\s+\w+)?|ghost(?:\s+\w+\s*(?::(?:\s*\w+)?|=))?)\s*\{"
NO_CODE = re.compile(rf"^[ \t]*(?P<comment>//.*)$|{CLAUSE}", re.M)


def read(root, name):
    return (root / name).read_text(encoding="utf-8")


def table(root):
    """The files of docs/TRUST.md's table in order, each with the number of lines that it says."""
    return [(name, int(count)) for name, count in ROW.findall(read(root, "docs/TRUST.md"))]


def believed(root):
    """The files of the table."""
    return [name for name, _ in table(root)]


def examples(root):
    return sorted(path.relative_to(root).as_posix() for name in EXAMPLES for path in root.glob(f"crates/*/specs/**/{name}"))


# ---- antt


def line_said(line):
    """A line without its `--` comment. In a quoted text nothing begins one."""
    comment = re.match(r'([^"]*?)(?:^|\s)--', line)
    return comment[1] if comment else line


@functools.lru_cache(maxsize=None)
def uncommented(text):
    """The text without its `--` comments. (A `{-` stays: the tools refuse it.)"""
    return "\n".join(line_said(line) for line in text.split("\n"))


@functools.lru_cache(maxsize=None)
def said(text):
    """What a file of definitions says: its lines without comments and blank lines, runs of blanks inside a line as one."""
    lines = (line.rstrip() for line in uncommented(text).split("\n"))
    return "\n".join(re.match(r"\s*", line)[0] + " ".join(line.split()) for line in lines if line)


def bring(found, name, origin):
    """Puts a name with where it comes from; a name that comes from two places comes from neither."""
    found[name] = origin if found.get(name, origin) == origin else f"({found[name]}, {origin})"


def bare(text):
    """A text without the marks of escaped names."""
    return re.sub("[«»]", "", text)


@functools.lru_cache(maxsize=None)
def use_lines(text):
    """What the `use` lines of a file bring, of code those that begin with `ghost`: the path, the items, another name for the module."""
    text = bare(uncommented(text))
    ghost = re.findall(r"\bghost\s+use\b[^;]*", text)
    return [line for line in USE.findall("\n".join(ghost) or text) if "::" not in line[0]]


def modules(text):
    """The names that a file's `use` lines bring for modules."""
    return {alias or path.rsplit(".", 1)[-1] for path, items, alias in use_lines(text) if not items}


@functools.lru_cache(maxsize=None)
def imports(text):
    """Each name that the `use` lines of a file bring, with where it comes from."""
    found = {}
    for path, items, alias in use_lines(text):
        for item in items.split(","):
            words = item.split()
            if words:
                origin = f"{path}.{words[0]}" if words[0] != "syntax" else f"{path}.{' '.join(words)}"
                bring(found, words[-1].rsplit(".", 1)[-1], origin)
        if not items:
            bring(found, alias or path.rsplit(".", 1)[-1], path)
    return found


@functools.lru_cache(maxsize=None)
def atoms(text):
    return set(ATOM.findall(text))


def used(text, brought):
    """The names of `brought` that a text uses; an operator by one of its parts."""
    there = atoms(text)
    return {name for name in brought if name in there or any(part in there for part in name.split("◌") if part and "◌" in name)}


def place_of(root, path, least):
    """The file of definitions that a path goes into, the longest beginning that is one, and the parts that follow, `least` of them or more. The module of a crate's
    definitions as a whole is specs/Lib.antt. Nothing for a path that is not a crate's."""
    found = CRATE_PATH.match(path)
    parts = found[2].split(".") if found else []
    names = [("/".join(parts[:n]), parts[n:]) for n in range(len(parts) - least, 0, -1)] + ([("Lib", parts)] if least else [])
    files = [(f"crates/{found[1]}/specs/{name}.antt", rest) for name, rest in names] if found else []
    return next(((file, rest) for file, rest in files if (root / file).is_file()), (None, parts))


def file_of(root, path):
    """The file of definitions that a path to a module goes into; none for a path that is not a crate's."""
    return place_of(root, path, 0)[0]


def file_of_name(root, path):
    """The file of definitions that has the name at the end of a path. A module of that spelling, which may stand beside it, is another thing."""
    return place_of(root, path, 1)[0]


def covered(text):
    """The libraries whose names a file of definitions or proofs, or the clauses of a file of code, use for something else."""
    return LIBRARIES & {*imports(text), *CHILD.findall(bare(uncommented(text)))}


def file_of_brought(root, text, name):
    """The file of definitions that a name which a text's `use` lines bring comes from."""
    path = imports(text)[name]
    return file_of(root, path) if name in modules(text) else file_of_name(root, path)


def resolved(root, path):
    """Where a name is defined that a path names: files that pass it on are followed, or pass on a module on its way."""
    file, rest = place_of(root, path, 1)
    if file is None:
        return path
    passing = "\n".join(re.findall(r"^[ \t]*(?:unfoldable )?pub use .*(?:\n[ \t].*)*", uncommented(read(root, file)), re.M))
    further = imports(passing).get(rest[0])
    return resolved(root, ".".join([further, *rest[1:]])) if further else path


def of_crates(path):
    """Whether a path leads into a crate, and not into one of the toolchain's libraries."""
    return not TOOLCHAIN.match(path.removeprefix("package."))


def declared(root, path):
    """Whether a path goes to what the code of a crate declares: its structs and enums."""
    found = CRATE_PATH.match(path)
    return found is not None and found[2].split(".")[0] == "declared" and not list(root.glob(f"crates/{found[1]}/specs/declared*"))


# ---- Rattle


class Item(NamedTuple):
    """A declaration of code: a function up to its body, any other whole."""

    kind: str
    name: str
    public: bool
    text: str
    clauses: tuple


def closing(text, at):
    """The place after the brace that closes the one at a place."""
    depth = 0
    for here in range(at, len(text)):
        depth += {"{": 1, "}": -1}.get(text[here], 0)
        if depth == 0:
            return here + 1
    return len(text)


@functools.lru_cache(maxsize=None)
def masked(text):
    """The code with its comment lines blanked, at the same places. What stands in a clause is antt, which has other comments, and stays."""
    parts, at = [], 0
    for found in iter(lambda: NO_CODE.search(text, at), None):
        end = found.end() if found["comment"] else closing(text, found.end() - 1)
        parts.append(text[at : found.start()] + (" " * len(found[0]) if found["comment"] else text[found.start() : end]))
        at = end
    return "".join(parts) + text[at:]


def function_at(code, start, at):
    """The text of a function from its head to its body, and the kinds of its clauses."""
    clauses, head = [], re.compile(CLAUSE)
    while True:
        brace = code.find("{", at)
        clause = head.search(code, at)
        if brace < 0 or not clause or clause.end() - 1 != brace:
            unread = re.search(r"\b(?:requires|ensures|ghost)\b", code[at:brace])
            return code[start:brace], (*clauses, *(["unread"] if unread else []))
        clauses.append(clause["kind"] or "ghost")
        at = closing(code, brace)


def whole_at(code, start, at):
    """The text of a struct, an enum, a constant or a type."""
    end = re.compile(r"[{=]|;\s*$", re.M).search(code, at)
    if end[0] == "{":
        return code[start : closing(code, end.start())]
    return code[start : re.compile(r";\s*$", re.M).search(code, at).start()]


def clause_texts(text):
    """What stands between the braces of a declaration's clauses."""
    return [text[clause.end() : closing(text, clause.end() - 1) - 1] for clause in re.finditer(CLAUSE, text)]


@functools.lru_cache(maxsize=None)
def items(text):
    """The declarations of a file of code; those of an `impl` are named TYPE::NAME."""
    code, found = masked(text), []
    for head in HEAD.finditer(code):
        kind, name = head[2], head[3]
        owners = OWNER.findall(code, 0, head.start()) if head[0][0] in " \t" else []
        if kind == "fn":
            body, clauses = function_at(code, head.start(), head.end())
        else:
            body, clauses = whole_at(code, head.start(), head.end()), ()
        found.append(Item(kind, "::".join([*owners[-1:], name]), bool(head[1]), body, clauses))
    return found


def leaves(path):
    """The paths of a `use` line, each with the name that it brings."""
    head, group, rest = path.partition("{")
    if not group:
        whole, _, alias = path.strip().partition(" as ")
        whole = whole.strip().removesuffix("::self")
        return [(whole, alias.strip() or whole.rsplit("::", 1)[-1])]
    depth, parts = 0, [""]
    for letter in rest[: rest.rindex("}")]:
        depth += {"{": 1, "}": -1}.get(letter, 0)
        parts = [*parts, ""] if letter == "," and depth == 0 else [*parts[:-1], parts[-1] + letter]
    return [leaf for part in parts if part.strip() for leaf in leaves(head.strip() + part.strip())]


@functools.lru_cache(maxsize=None)
def code_imports(text):
    """Each name that the code's `use` lines bring, with its path and whether it is passed on."""
    lines = [(public == "pub ", path) for public, path in CODE_USE.findall(masked(text))]
    return {name: (whole, public) for public, path in lines for whole, name in leaves(path)}


def sources(root, crate):
    """The files of code of a crate."""
    return sorted(path.relative_to(root).as_posix() for path in root.glob(f"crates/{crate}/src/**/*.rt"))


def constants(root):
    """The names of all constants of code."""
    files = sorted(root.glob("crates/*/src/**/*.rt"))
    return {item.name.rsplit("::", 1)[-1] for file in files for item in items(file.read_text(encoding="utf-8")) if item.kind in ("const", "static")}


# ---- what is exported


def public_items(root, crate, wanted):
    """The public declarations of a crate whose names are wanted: `contract` or `type` with the name, the declarations and their files' texts."""
    found = {}
    for file in sources(root, crate):
        text = read(root, file)
        for item in items(text):
            if item.public and wanted(item.name):
                kind = "contract" if item.kind == "fn" else "type"
                found.setdefault(f"{kind} {crate}::{item.name}", []).append((item, text))
    return found


def passed_on(root, crate):
    """What a crate's `pub use` lines pass on: pairs of a crate and a name, whatever module of the crate has it."""
    paths = [path.split("::") for file in sources(root, crate) for path, public in code_imports(read(root, file)).values() if public]
    return sorted((path[0], path[-1]) for path in paths)


def renamed(root, crate):
    """What a crate's `pub use` lines pass on under another name."""
    brought = [pair for file in sources(root, crate) for pair in code_imports(read(root, file)).items()]
    return sorted(f"{path} as {name}" for name, (path, public) in brought if public and path.split("::")[-1] != name)


def exports(root):
    """The exported crates, and what they pass on: pairs of a crate and a name, each with the declarations found there, and what that crate passes on of it."""
    todo, found = [(crate, None) for crate in EXPORTED], []
    for crate, name in todo:
        items_of = public_items(root, crate, lambda n, name=name: name is None or n == name or n.startswith(name + "::"))
        further = [pair for pair in passed_on(root, crate) if name is None or pair[1] == name]
        found.append((crate, name, items_of, further))
        todo += [pair for pair in further if pair not in todo]
    return found


def exported(root):
    """The declarations of the exported crates, and of what they pass on with its methods."""
    return {name: places for _, _, items_of, _ in exports(root) for name, places in items_of.items()}
