"""What the definitions say that a page repeats: numbers by name, the rules of a zone, the order of refusals, which of them a call can have, zone-run's records."""
import functools
import re

import sources

LIMITS = "crates/block_type/specs/Limits.antt"
RULES = "crates/format/specs/WellFormed.antt"
CALLS = "crates/calls/specs/Calls.antt"
TABLE = "crates/calls/specs/Table.antt"
WALKER = "crates/zone/specs/Walker.antt"
RECORDS = "crates/records/specs/Records.antt"
BOOK = "crates/records/specs/Book.antt"

CLAUSE = re.compile(r"^(?!use |pub |abbrev |unfoldable |module )(\S+)([^=\n]*) =(?= |\n)(.*(?:\n[ \t]+\S.*)*)", re.M)


@functools.lru_cache(maxsize=None)
def clauses_of(text):
    """Each clause of a file of definitions: the name, what stands before `=`, what stands after it."""
    return [(name, before.strip(), " ".join(after.split())) for name, before, after in CLAUSE.findall(sources.uncommented(text))]


def clauses(root, file, name):
    found = [(before, after) for said, before, after in clauses_of(sources.read(root, file)) if said == name]
    if not found:
        raise LookupError(f"{file} has no clause of {name}")
    return found


def body(root, file, name):
    return clauses(root, file, name)[0][1]


def terms(text):
    """The parts of a list that `∷` separates, those in brackets whole, without the end of the list."""
    parts, depth = [""], 0
    for letter in text:
        depth += {"(": 1, ")": -1}.get(letter, 0)
        if letter == "∷" and depth == 0:
            parts.append("")
        else:
            parts[-1] += letter
    return [part.strip() for part in parts if part.strip() != "[]"]


# ---- numbers and rules


def number(root, name, file=LIMITS):
    """A number by its name, which is one in digits or a product of such names."""
    said = body(root, file, name)
    factors = [int(word) if word.isdigit() else number(root, word, file) for word in said.split(" * ")]
    return functools.reduce(lambda a, b: a * b, factors)


def rules(root):
    """The names of the rules of a well-formed zone."""
    tests = set(re.findall(r"^(?:(?:abbrev|unfoldable|pub) )*(\S+) :(?:.*\n[ \t]+)*.*→ Bool$", sources.uncommented(sources.read(root, RULES)), re.M))
    whole = ("well_formed", "zone_rules", "block_rules")
    named = {word for name in whole for word in sources.atoms(body(root, RULES, name))}
    return (named & tests) - {*whole, "every"}


# ---- refusals


def order(root, name="order"):
    """The numbers in the order of the table."""
    words = re.findall(r"\w+", body(root, TABLE, name))
    return [n for word in words for n in ([int(word)] if word.isdigit() else order(root, word))]


def cause_numbers(root, term):
    """The numbers of a cause, or of a list of causes, as a call's clause names it; by its first argument, where that is a constructor's."""
    name, _, arguments = term.partition(" ")
    asked = re.match(r"\((\w+)", arguments)
    found = set()
    for before, after in clauses(root, TABLE, name):
        given = re.match(r"\((\w+)", before)
        if not (asked and given) or asked[1] == given[1]:
            found.add(int(re.match(r"cause (\d+) ", after)[1]))
    return found


def of_terms(root, text):
    return set().union(*(cause_numbers(root, term) for term in terms(text)))


def clause_for(root, name, constructor):
    """What the clause of a constructor says; the constructor may stand alone or with arguments, first or last."""
    for before, after in clauses(root, TABLE, name):
        if re.search(rf"(?:^|[ (]){re.escape(constructor)}(?:$|[ )])", before):
            return after
    return None


def marks(root):
    """The constructors of a mark."""
    block = re.search(r"^pub data Mark .*\n((?:[ \t]+.*\n)+)", sources.uncommented(sources.read(root, CALLS)), re.M)
    return re.findall(r"^ *(\w+) :", block[1], re.M)


def refusals(root, call):
    """The numbers that a call, by its name in C, can be refused with."""
    alone = {"initialize": "init_refusal", "census": "census_refusal"}
    if call in alone:
        return of_terms(root, re.fullmatch(r"first order \((.*)\)", body(root, TABLE, alone[call]))[1])
    if call.startswith("walker_"):
        return {int(n) for n in re.findall(r"\bwalked (\d+)", body(root, WALKER, {"walker_start": "start_of_walk", "walker_step": "walk_step"}[call]))}
    constructor = {"sum": "sums", "length": "length_of"}.get(call, call)
    said = clause_for(root, "causes", constructor)
    if said is not None:
        return of_terms(root, said)
    of_page = clause_for(root, "page_causes", "mark_page" if constructor in marks(root) else constructor)
    if of_page is None:
        raise LookupError(f"{TABLE} has no causes of {call}")
    every = [term for term in terms(clause_for(root, "causes", "on_page")) if not term.startswith("page_causes")]
    return of_terms(root, of_page).union(*(cause_numbers(root, term) for term in every))


# ---- zone-run


def record_places(root):
    """How long a record is, and where its numbers stand."""
    return {name: number(root, name, RECORDS) for name in ("record_length", "a_at", "b_at", "d_at")}


def actions(root):
    """What each code asks, in order: the call's name and the numbers that it takes."""
    plain = [re.sub(r"^call \(?", "", term) for term in terms(body(root, RECORDS, "actions"))]
    names = [re.match(r"\w+", term)[0] for term in plain]
    return [("read" if name == "read_byte" else name, re.findall(r"\b[abd]\b", term)) for name, term in zip(names, plain)]


def buffer_length(root):
    return number(root, "buffer_length", BOOK)
