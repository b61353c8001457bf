#!/usr/bin/env python3
"""Seals what has to be believed: a digest of each file of docs/TRUST.md's table, of the examples that are computed over them, of each exported contract
and type, of how a type is printed, of each program, and of the theorems that must be there. What a comment says moves no seal; everything else does.

Usage: tools/seals.py writes tools/seals.txt and prints which seals moved, for the note on a landing.
       tools/seals.py --check tests the tree against it: each seal that differs, is missing or is superfluous is a line, and so is an exported function
       that promises nothing, what the exported crates have that no seal reads, and a theorem that is not there.
"""
import functools
import hashlib
import pathlib
import re
import sys

import sources

ROOT = pathlib.Path(__file__).resolve().parent.parent
SEALS = "tools/seals.txt"
THEOREMS = "tools/theorems.txt"

# exported functions without an `ensures`: NAME: why
PROMISE_NOTHING = {}


def digest(text):
    return hashlib.sha256(text.encode("utf-8")).hexdigest()[:16]


# ---- files


def sealed_files(root):
    """What is sealed of files: a name and a text for each."""
    kinds = [("file", sources.believed(root)), ("example", sources.examples(root))]
    found = {f"{kind} {name}": sources.said(sources.read(root, name)) for kind, names in kinds for name in names if (root / name).is_file()}
    return {**found, f"list {THEOREMS}": "\n".join(theorem_lines(root))}


def is_program(root, crate):
    return (root / f"crates/{crate}/src/main.rt").is_file()


def programs(root):
    """The code of programs, bodies too: no contract says what is read and written."""
    names = [name for crate in sources.EXPORTED if is_program(root, crate) for name in sources.sources(root, crate)]
    return {f"program {name}": " ".join(sources.masked(sources.read(root, name)).split()) for name in names}


# ---- exported contracts and types


def origins(root, text, declaration, code):
    """Where the names that a declaration uses come from, with those that code's own `use` lines bring: a line for each."""
    ghost = sources.imports(text)
    from_ghost = [f"{name} = {sources.resolved(root, ghost[name])}" for name in sources.used(declaration, ghost)]
    words = set(re.findall(r"\w+", declaration))
    return sorted(from_ghost + [f"{name} = {code[name][0]}" for name in code if name in words])


def sealed_contracts(root):
    found = {}
    for name, places in sources.exported(root).items():
        item, text = places[0]
        said = " ".join(item.text.split())
        found[name] = "\n".join([said, *origins(root, text, item.text, sources.code_imports(text))])
    return found


# what gives a type or a contract another meaning, or declares something, and is no declaration of those that are sealed
OTHER_FORMS = re.compile(r"^[ \t]*(?:unsafe )?(?:impl\b[^{;]*\bfor\b|extern \"C\" \{|union\b|(?:pub )?macro_rules!)[^{;]*", re.M)
# an impl of a trait for a type
OF_TRAIT = re.compile(r"[ \t]*impl(?:<[^>]*>)? (?:\w+::)*(\w+)(?:<.*>)? for (\w+)(?:<.*>)?\s*")
# traits that an exported type may have: the impl is sealed as it stands, its functions' bodies too. (A `Model` says what the contracts see of a type, so none may have one.)
SEALED_TRAITS = ("Display", "Error", "From", "Iterator", "TryFrom")


def exported_crates(root):
    """The exported crates that are no programs, and those whose declarations they pass on: each with the names of the types that are exported of it."""
    found = {}
    for crate, _, items_of, _ in sources.exports(root):
        if items_of and not is_program(root, crate):
            found.setdefault(crate, set()).update(name.split("::", 1)[1] for name in items_of if name.startswith("type "))
    return found


def other_forms(root, exported):
    """The forms of exported crates that are no declarations: the crate, the file, its text, where the form begins, and the form."""
    for crate in sorted(exported):
        for file in sources.sources(root, crate):
            text = sources.read(root, file)
            for form in OTHER_FORMS.finditer(sources.masked(text)):
                yield crate, file, text, form.start(), form[0]


def own_types(root, crate):
    """The structs and enums that a crate declares."""
    return {item.name for file in sources.sources(root, crate) for item in sources.items(sources.read(root, file)) if item.kind in ("struct", "enum")}


def sealed_impls(root):
    """The impls of exported types that are sealed: a name and a text for each."""
    exported, found = exported_crates(root), {}
    for crate, _, text, at, form in other_forms(root, exported):
        trait = OF_TRAIT.fullmatch(form)
        if trait and trait[1] in SEALED_TRAITS and trait[2] in exported[crate]:
            code = sources.masked(text)
            whole = " ".join(code[at : sources.closing(code, code.index("{", at))].split())
            name = f"impl {crate}::{' '.join(form.split())}"
            found[name] = "\n".join([*filter(None, [found.get(name)]), whole, *origins(root, text, whole, sources.code_imports(text))])
    return found


def is_read(root, crate, exported, form):
    """Whether a form is an impl that is sealed, or one of a type of the crate's own that is not exported."""
    trait = OF_TRAIT.fullmatch(form)
    if not trait or trait[1] == "Model":
        return False
    return trait[1] in SEALED_TRAITS if trait[2] in exported else trait[2] in own_types(root, crate)


def form_faults(root):
    """What the exported crates, and those whose declarations they pass on, have that no seal reads; programs are sealed as they stand."""
    faults, exported = [], exported_crates(root)
    for crate, name, found, further in sources.exports(root):
        faults += [f"passed on and not sealed: {crate}::{name} is no declaration"] if name and not found and not further else []
        if name is None or found:
            faults += [f"passed on under another name: {path} in {crate}" for path in sources.renamed(root, crate)]
    return faults + [f"no seal reads: {form.strip()} in {file}" for crate, file, _, _, form in other_forms(root, exported) if not is_read(root, crate, exported[crate], form)]


def contract_faults(root):
    """Exported names that are declared twice, functions that promise nothing, and what is not read."""
    faults, constants = form_faults(root), sources.constants(root)
    for name, places in sources.exported(root).items():
        function, (item, _) = name.split(" ", 1)[1], places[0]
        if len(places) > 1:
            faults.append(f"declared {len(places)} times: {name}")
        for constant in sorted(constants & set(re.findall(r"\w+", " ".join(sources.clause_texts(item.text))))):
            faults.append(f"not sealed: a clause of {name} names the code's constant {constant}")
        if "unread" in item.clauses:
            faults.append(f"cannot be read: {name} has a clause of another form")
        if item.kind == "fn" and "ensures" not in item.clauses and function not in PROMISE_NOTHING:
            faults.append(f"promises nothing: {name} has no `ensures`")
        if "ensures" in item.clauses and function in PROMISE_NOTHING:
            faults.append(f"promises something: {name} is listed as a function that promises nothing")
    return faults


# ---- theorems: tools/theorems.txt has FILE : NAME : TYPE in a line


def theorem_lines(root):
    lines = (" ".join(line.split()) for line in sources.read(root, THEOREMS).split("\n"))
    return [line for line in lines if line and not line.startswith("#")]


MARKS = r"(?:(?:pattern|axiom|unfoldable|abbrev|pub) )*"


@functools.lru_cache(maxsize=None)
def signatures(text):
    """Each name that a file declares at its top level, with its type as one line."""
    code = sources.said(text)
    found = re.findall(rf"^{MARKS}({sources.NAME}) (?:\{{[^}}]*\}} )?: (.*(?:\n .*)*)", code, re.M)
    kinds = re.findall(rf"^(?:pub )?(?:data|record) ({sources.NAME})", code, re.M)
    return {**{name: " ".join(of.split()) for name, of in found}, **{name: "" for name in kinds}}


@functools.lru_cache(maxsize=None)
def named_in(text):
    """All names that a file gives to something, wherever: in blocks, sections and `open` lines too."""
    code = sources.bare(sources.said(text))
    found = re.findall(rf"^ *{MARKS}((?:{sources.NAME} )+)(?:\{{[^}}]*\}} )?: ", code, re.M)
    found += re.findall(rf"^ *{MARKS}(?:data|record) ({sources.NAME})", code, re.M)
    found += [" ".join(item.split()[-1] for item in re.split(r"[,{{}}]", items) if item.strip()) for items in re.findall(r"^ *(?:pub )?open [^\n]*? use \{(.*)\}", code, re.M)]
    return {name for group in found for name in group.split()}


def bound(of):
    """The names that a type binds itself."""
    groups = re.findall(r"[({]([^(){}:]+) : ", of) + re.findall(r"λ ([^.(]+)\.", of)
    return {name for group in groups for name in group.split()}


def sealed_names(root):
    """The files whose definitions a theorem's type may name, each with their names."""
    files = [file for file in [*sources.believed(root), *sources.examples(root)] if (root / file).is_file()]
    return {file: set(signatures(sources.read(root, file))) for file in files}


def is_constant(root, path):
    """Whether a path goes to a constant that code declares: a theorem may say which number it is."""
    return sources.declared(root, path) and ".declared.TheConstants." in path and path.rsplit(".", 1)[-1] in sources.constants(root)


def name_faults(root, text, of, sealed):
    """What is wrong with where a file takes the names of a type from; nothing for the toolchain's names and for the code's constants."""
    brought, own, names = sources.imports(text), signatures(text), set().union(*sealed.values())
    for name in sorted(sources.used(of, own) | sources.used(of, named_in(text)) - bound(of)):
        yield f"`{name}` is defined in the same file"
    for library in sorted(sources.covered(text)):
        yield f"the library `{library}` is something else"
    if any(origin.endswith(".*") for origin in brought.values()):
        yield "names come by a glob"
    for name in sorted(sources.used(of, names) - bound(of) - {*brought, *own}):
        yield f"`{name}` is not imported"
    for name in sorted(sources.used(of, brought)):
        origin = brought[name]
        if sources.of_crates(origin) and sources.file_of_brought(root, text, name) not in sealed and not is_constant(root, origin):
            yield f"`{name}` comes from {origin}, which is not sealed"
        if not origin.endswith(f".{name}"):
            yield f"`{name}` is {origin} under another name"


def theorem_fault(root, sealed, file, name, of):
    """What is wrong with a theorem that must be there."""
    if not (root / file).is_file():
        return f"no theorem: {file} is not there"
    text = sources.read(root, file)
    there = re.findall(rf"^(?:abbrev |unfoldable )*pub {re.escape(name)} : (.*(?:\n .*)*)", sources.said(text), re.M)
    if [" ".join(t.split()) for t in there] != [of]:
        return f"no theorem: {file} does not declare `pub {name} : {of}`"
    if "{-" in sources.uncommented(text):
        return f"no theorem: {file} has a comment other than by lines"
    if set(re.findall(rf"({sources.NAME})\.{sources.NAME}", of)) - bound(of):  # `a.number` of a bound `a` is a field
        return f"no theorem: the type of {name} in {file} names something by a path"
    return next((f"no theorem: in the type of {name} in {file}, {fault}" for fault in name_faults(root, text, of, sealed)), None)


def statements(root):
    """The statements of the files to be believed: closed abbreviations and records that say an equation for all of something."""
    texts = [sources.said(sources.read(root, file)) for file in sources.believed(root) if (root / file).is_file()]
    closed = re.compile(rf"^(?:(?:unfoldable |abbrev )+pub ({sources.NAME}) : Type 0\n(?:unfolding .*\n)?\1 =|pub record ({sources.NAME}) : Type 0 where)(.*(?:\n .*)*)", re.M)
    return [one or other for text in texts for one, other, meaning in closed.findall(text) if "→" in meaning and "≡" in meaning]


def theorems(root):
    """The lines of tools/theorems.txt, taken apart."""
    return [line.split(" : ", 2) for line in theorem_lines(root)]


def sealed_theorems(root):
    """Each theorem's type, with where its names come from."""
    there = [line for line in theorems(root) if len(line) == 3 and (root / line[0]).is_file()]
    return {f"theorem {file} {name}": "\n".join([of, *origins(root, sources.read(root, file), of, {})]) for file, name, of in there}


def theorem_faults(root):
    lines = theorems(root)
    faults = [f"cannot be read: {THEOREMS}: {' : '.join(line)}" for line in lines if len(line) != 3]
    whole = [line for line in lines if len(line) == 3]
    proved = {of for _, _, of in whole}
    faults += [f"no theorem: `{name}` has none in {THEOREMS}" for name in statements(root) if name not in proved]
    sealed = sealed_names(root)
    return faults + [fault for fault in (theorem_fault(root, sealed, *line) for line in whole) if fault]


# ---- the seals


def seals(root):
    said = {**sealed_files(root), **programs(root), **sealed_contracts(root), **sealed_impls(root), **sealed_theorems(root)}
    return {name: digest(text) for name, text in said.items()}


def stored(root):
    """The seals of tools/seals.txt."""
    path = root / SEALS
    lines = path.read_text(encoding="utf-8").split("\n") if path.is_file() else []
    return {name: seal for seal, _, name in (line.partition(" ") for line in lines if line and not line.startswith("#"))}


def moved(old, new, words):
    """A line for each seal that differs, is missing or is superfluous, in three words for these."""
    differs, missing, superfluous = words
    lines = [f"{differs}: {name} ({old[name]}, now {new[name]})" for name in new if name in old and old[name] != new[name]]
    lines += [f"{missing}: {name}" for name in new if name not in old]
    return lines + [f"{superfluous}: {name}" for name in old if name not in new]


def faults(root):
    """Everything that the gate holds against a tree."""
    found = [] if sources.believed(root) else ["docs/TRUST.md has no table"]
    found += [f"no file: {name}" for name in sources.believed(root) if not (root / name).is_file()]
    there = sources.examples(root)
    found += [f"no example: {name}" for name in sources.EXAMPLES if not any(file.endswith(f"/{name}") for file in there)]
    return found + moved(stored(root), seals(root), ("seal differs", "no seal", "sealed and not there")) + contract_faults(root) + theorem_faults(root)


def write(root):
    old, new = stored(root), seals(root)
    head = "# What has to be believed, sealed: a digest of each. Made by tools/seals.py, which says what a digest is of.\n"
    (root / SEALS).write_text(head + "".join(f"{new[name]} {name}\n" for name in sorted(new)), encoding="utf-8")
    return moved(old, new, ("moved", "new", "gone"))


def main(arguments):
    if arguments not in ([], ["--check"]):
        sys.exit(__doc__)
    lines = faults(ROOT) if arguments else write(ROOT)
    print("\n".join(lines) if lines else "no seal moved")
    return 1 if arguments and lines else 0


if __name__ == "__main__":
    sys.exit(main(sys.argv[1:]))
