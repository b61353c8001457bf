#!/usr/bin/env python3
"""Tests that header lengths, limits, type codes and the places of fields stand by name: no definition, no contract, no proof and no code has one of the
papers' numbers as digits, but crates/block_type, where they are defined, and what MEANINGS and ALLOWED list with a reason.

Every number of the text whose value is one of NUMBERS is looked at, so a new one is a fault until it is named, or listed here. What is listed and allows
nothing (any more) is a fault too.
"""
import pathlib
import re
import sys

import sources

ROOT = pathlib.Path(__file__).resolve().parent.parent
DEFINITIONS = "crates/block_type/"

# each number of the papers, with the names that it has in crates/block_type/specs/Limits.antt
NUMBERS = {
    2: "tag_at or reloc_code",
    4: "free_header, fixed_header, reloc_header, smallest_block, master_size, first_at, amount_at or limit_size",
    8: "masters_at, record_size, added_masters or page_header",
    12: "chain_at",
    14: "clock_at",
    15: "zero_at",
    16: "zone_header",
    19: "strata",
    32: "added_bytes",
    64: "type_byte_unit",
    76: "limits_length",
    8188: "most_masters",
    16384: "type_unit or lock_bit",
    32756: "page_limit",
    32760: "fixed_limit or reloc_limit",
    32764: "largest_block",
    32768: "reloc_code * type_unit, first_block most_masters or dirty_bit",
    65536: "handle_range",
    524288: "highest_limit",
    1048576: "longest_zone",
    4294967296: "argument_range",
}

# an argument: a name, or what stands in parentheses
ATOM = r"(?:[^\s()]+|\((?:[^()]|\((?:[^()]|\((?:[^()]|\((?:[^()]|\([^()]*\))*\))*\))*\))*\))"

# smaller numbers that have a name where they stand in such a form: the form, whose group is the number, and the name
FORMS = [
    (rf"\b(?:type_of|code) {ATOM} (?:≡|=|==) ([013])\b", "free_code, fixed_code or page_code"),
    (rf"\beqb \((?:type_of|code) {ATOM}\) ([013])\b", "free_code, fixed_code or page_code"),
    (rf"\bk ≡ type_of {ATOM} → .*\beqb k ([01])\b", "free_code or fixed_code"),
    (rf"\bslice {ATOM} (0) 4\b", "length_at"),
    (r"(?:\boverwrite [^\s()]+|\)) (0) \(to_be 4\b", "length_at"),
    (r"\b(?:get4|put4)\(\w+, (0)\b", "block_type::LENGTH_AT"),
]

# what such a number means wherever it stands in such a form: the form (its group, if it has one), and why it needs no name
MEANINGS = [
    (r"(?<![\w-])(?:length-|be-)?to_be [24]\b", "the width of a number that is written, in bytes"),
    (r"(?<![\w-])(?:big|big-is) [24]\b", "the same, in a second definition of the bytes"),
    (r"(?<![\w-])(?:take|take[-_]take|part[-_]bytes|be[-_]front|peel) [24]\b", "the width of a number that stands in front, in bytes"),
    (rf"\bslice {ATOM} {ATOM} ([24])\b", "the width of a number that is read, in bytes"),
    (rf"\bslice-take {ATOM} {ATOM} {ATOM} ([24])\b", "the width of a number that is read, in bytes"),
    (r"\b(?:length|first|masters|chain|tag)_at \+ ([24])\b", "the end of a field: its place and its width"),
    (r"% 4\b", "a multiple of 4"),
    (r"/ (?:handle_range|BlockType::HANDLE_RANGE) % 2\b", "the same of a size in words"),
    (r"/ 4 \* 4\b", "rounding to a multiple of 4"),
    (r"/ 2\b", "bytes to words"),
    (r"\* 2\b", "words to bytes"),
    (r"(?<![\w.])2 \^", "a power of 2"),
    (r"(?<![\w-])(?:cause|counted|told|shows|refused|holds_in|number(?: ≡|:| =)|number_of c entry ≡|stretch_number [\w ]+ ≡) ([248]|1[24])\b", "a refusal number"),
]

# where such a number means something else: the file (or what its name begins with), the form (its group, if it has one), and why
CALLS = r"(?<![\w-])(?:allocate_(?:relocatable|fixed)|free_handle|enlarge|by_handle) \d+\b"
ALLOWED = [
    # widths, and bytes within a number
    ("crates/bigendian/", r"\bat \+ [24](?: ≤|;)", "the width of the number that is read or written"),
    ("crates/bigendian/", r"\bat \+ 2\b(?= ?[)\]])", "the third byte of a number"),
    ("crates/bigendian/", r"[*/] 65536\b", "what the second of four bytes counts"),
    ("crates/memory/proofs/", r"\b(?:length bs ≡|first_chunks|rest|take|chunk-at|length-take-le) (8)\b", "the bytes of the number that is tested at a time"),
    ("crates/memory/proofs/", r"\b8 \*|[*/] 8\b", "the same"),
    ("crates/kinds/proofs/KindLaws.antt", r"\b(?:drop[-_]drop|take[-_]append[-_]drop|part[-_]small) [24]\b|\(drop [24]\)", "the width of a handle or a status word, and of a name"),
    ("crates/kinds/proofs/KindLaws.antt", r"(?:\bu|\bd|\(e \.bytes\)) ([24])\b(?= \(length-to_be)", "the same"),
    ("crates/turn/proofs/rank/Page.antt", r"\bstatus_at \+ (2)\b", "the status word's width"),
    ("crates/structure/proofs/Back.antt", rf"\bat-seam {ATOM} {ATOM} (4)\b", "the width of a master's number"),
    ("crates/calls/specs/Roster.antt", r"handle = from_be \(slice bs 0 4", "the handle is the first number of a record"),
    # trees of names
    ("crates/names/specs/Tree.antt", r"^(?:branches|name_bits) = \d+$", "the names of what a tree of names goes by"),
    ("crates/names/src/trees.rt", r"^(?:pub )?const (?:BRANCHES|NAME_BITS): usize = (\d+);$", "the same names in code"),
    ("crates/names/specs/Seen.antt", r"^(?:probes|print_range) = \d+$", "the names of what a table of fingerprints goes by"),
    ("crates/names/src/seen.rt", r"^const (?:PROBES: usize|PRINT_RANGE: u64) = (\d+);$", "the same names in code"),
    # a search by halving
    ("crates/turn/specs/Limit.antt", r"\b2 \* \(high' - low'\)", "half as far"),
    # the census
    ("crates/zone/specs/Formula.antt", r"% 2\b", "an even number"),
    ("crates/zone/specs/Formula.antt", r"^bits = 32$", "the bits of a number in code, which are named here"),
    ("crates/calls/", r"(?:\beqb (?:n|\(get_or ls 0 0\))|\((?:n|get_or ls 0 0) ≡|\beqb-true n) (2)\b", "the first limit is 1 or 2"),
    ("crates/zone/specs/Strata.antt", r"\blimit_at lent 0 ≡ (2)\b", "the same"),
    ("crates/zone/specs/Strata.antt", r"\bat \+ (2)\b", "the third byte of a limit"),
    ("crates/zone/proofs/Strata.antt", r"\bn ≡ (2)\b", "the same"),
    ("crates/inspect/", r"(?:\beqb first|\bfirst ==|\bv ≡) (2)\b", "the same"),
    # refusal numbers
    ("crates/calls/specs/Refusals.antt", r"^code_of (?:\w+|\(DirtyPage name\)) = ([248]|1[24])$", "the number of a refusal"),
    ("crates/calls/src/lib.rt", r"^ +Refusal::\w+(?:\(_\))? => ([248]|1[24]),$", "the same in code"),
    ("crates/calls/specs/Table.antt", r"(?<![\w.])(?:[248]|1[24]) ∷", "the order of the refusal numbers"),
    ("crates/calls/specs/Table.antt", r"\beqb n (12)\b", "a refusal number"),
    ("crates/calls/proofs/Order.antt", r"(?<![\w.])(?:[248]|1[24]) ∷", "the order of the refusal numbers"),
    ("crates/calls/proofs/Order.antt", r"\bcond s 0 (12)\b", "a refusal number"),
    ("crates/calls/proofs/Order.antt", r"\bcond (?:l|\(lent_ok lent\)) 0 (14)\b", "a refusal number"),
    ("crates/zone/proofs/Strata.antt", r"\bcond \(lent_ok lent\) 0 (14)\b", "a refusal number"),
    ("crates/inspect/", r"\bcensus_number s lent ≡ (14)\b", "a refusal number"),
    ("crates/nafelode/proofs/Demands.antt", r"\b(?:n ≡|ne[-_]eqb n) (12)\b", "a refusal number"),
    ("crates/turn/", r"(?:\(is_none \w+\)\)|\beqb number|\bnumber ==|\bInTurn z need) (12)\b", "a refusal number"),
    ("crates/zone/proofs/PageDrops.antt", r" 0 (12)$", "a refusal number"),
    ("crates/zone/proofs/PageSays.antt", r"(?:\bcreate_number a l e s ≡|\bcond t 0|\bne[-_]eqb \(suc k\)|\bnumber_told \(suc k\) b ≡|\bsuc k ≡) (12)\b", "a refusal number"),
    ("crates/zone/proofs/PageSays.antt", r"\bc (12) q\b", "the refusal number 13 less one"),
    ("crates/zone/proofs/PageRead.antt", r"\(facts true z\) ≡ (8)$", "a refusal number"),
    ("crates/stretch/specs/Stretch.antt", r"\(cond \(leb n have\) 0 10\) (8)\b", "a refusal number"),
    ("crates/zone/proofs/Initial.antt", r"\bclear \(bad_initialize .*\) (2)\b", "a refusal number"),
    ("crates/zone/proofs/Passed.antt", r"\bpassed \(allocate_relocatable c\) z e (4)\b", "a refusal number"),
    ("crates/calls/proofs/Order.antt", r" 0 5\) (4)$", "a refusal number"),
    ("crates/zone/specs/Growth.antt", r"^ +4\)$", "a refusal number"),
    ("crates/allocate/proofs/growth/Laws.antt", r" 0 5\) (4)(?:$|\))", "a refusal number"),
    ("crates/records/", r"\bline 2 0\b", "a refusal number, in a line that zone-run prints"),
    # zone-run
    ("crates/records/specs/Records.antt", r"^(?:record_length|a_at|b_at|d_at) = \d+$", "the names of zone-run's records"),
    ("crates/records/src/lib.rt", r"^const (?:RECORD_LENGTH|A_AT|B_AT|D_AT): usize = (\d+);$", "the same names in code"),
    ("crates/records/specs/Book.antt", r"^buffer_length = 65536$", "the name of zone-run's buffer length"),
    ("crates/zone_run/specs/Loop.antt", r"^chunk_size = 65536$", "the name of how much zone-run reads at a time"),
    ("crates/zone_run/specs/Loop.antt", r"\b2 \^ 64\b", "what 64 bits hold"),
    ("crates/zone_run/src/main.rt", r"^const (?:ZONE|CHUNK): usize = (65536);$", "the same names in code"),
    ("crates/zone_run/src/main.rt", r"^ +left: (4),$", "a test: how many writes are done before one fails"),
    ("crates/records/src/lib.rt", r"^ +[248] => ", "a record's code"),
    ("crates/records/proofs/Acts.antt", r"\b(?:code ≡|beyond|asks) [248]\b", "a record's code"),
    ("crates/records/", r"(?<![\w.])32\b", "a space in a line that zone-run prints"),
    ("crates/records/", r"\(length \(decimal \w+\) \+ (2)\)", "the space and the end of a line"),
    ("crates/records/proofs/Decimal.antt", r"\bdigits[-_]more 8\b", "how many digits are left"),
    ("crates/records/proofs/Example.antt", r"^example = .*", "document 01's example of zone-run"),
    # pages, C and a walker that is the caller's own
    ("crates/create/", r"(?:\bnumber|≡|\bcond s 0|\(not s\)) (12)\b", "a refusal number"),
    ("crates/nafelode_c/", r"\bby (?:== |≡ )?(2)\b", "how C says that a number is a page's name"),
    ("crates/walker_run/specs/Lines.antt", r"\b32 ∷", "a space in a line that walker_run prints"),
    ("crates/walker_run/specs/Lines.antt", r"^most_steps = 16384$", "the name of how many steps walker_run makes"),
    ("crates/walker_run/src/main.rt", r"^const MOST_STEPS: usize = (16384);$", "the same name in code"),
    ("crates/walker_run/src/main.rt", r"^const LONGEST: usize = (65536);$", "the name of how long a zone walker_run takes"),
    # examples that are computed: their bytes, arguments and answers are the rig sheet's own, and the customer's
    ("crates/zone/specs/RigSheet.antt", r"^fresh = .*", "the rig sheet: a zone of 64 bytes with 4 masters"),
    ("crates/zone/specs/RigSheet.antt", r"\bcalls = [^;]*;", "the rig sheet: what is asked"),
    ("crates/zone/specs/RigSheet.antt", r"\btold = [^;]*;", "the rig sheet: what is answered"),
    ("crates/zone/specs/RigSheet.antt", r"\bpieces = .*|^ +(?:∷ )?piece .*", "the rig sheet: the bytes after it"),
    ("crates/zone/specs/GrowthSheet.antt", r"^ +(?:∷ )?(?:allocate_\w+|resize|write)\b.*|^(?:loose|beyond) = .*", "the growth by example: what is asked"),
    ("crates/zone/specs/GrowthSheet.antt", r"^ +(?:\+\+ )?[(]?(?:word \d|\d).*", "the growth by example: the bytes after it"),
    ("crates/zone/specs/GrowthSheet.antt", r"\b(?:answered \d+ \d+ \d+|zone \d+ [12]\)+(?: zone_header \d+)?|crowded \d+\)) ≡ .*|\bzone 112 2\b", "the growth by example: the zone, and what is answered"),
    ("crates/zone/specs/PageSheet.antt", r"^(?:vacant|round|sides|flagged_pages|filled|between|calls_at_end|growing|broken_zone) = .*", "the pages by example: the zone, and what is asked"),
    ("crates/zone/specs/PageSheet.antt", r"^ +(?:\+\+ )?[(]?(?:word \d|\d).*", "the pages by example: the bytes after it"),
    ("crates/zone/specs/PageSheet.antt", r"^ +pub [\w-]+ : .*", "the pages by example: what is asked, what is answered, and bytes"),
    ("crates/zone/specs/FixedSheet.antt", r"^(?:vacant|older d) = .*", "fixed blocks by example: the zone"),
    ("crates/zone/specs/FixedSheet.antt", r"^ +pub [\w-]+ : .*", "fixed blocks by example: what is asked, what is answered, and bytes"),
    ("crates/zone/specs/StrataSheet.antt", r"^vacant = .*", "strata by example: the zone"),
    ("crates/zone/specs/StrataSheet.antt", r"^ +pub [\w-]+ : .*", "strata by example: what is lent, and what is answered"),
    ("crates/zone/specs/ReelB.antt", CALLS, "the customer's list: an argument"),
    ("crates/zone/specs/ReelB.antt", r"\b(?:read|write|view) \([\w-]+ \d+\) \d+ \d+\b", "the customer's list: an offset and a count"),
    ("crates/zone/specs/ReelB.antt", r"\breplicate (?:4|32) 9\b", "the customer's list: a second buffer"),
    ("crates/zone/specs/ReelB.antt", r"(?<![\w.])(?:[248]|16)(?: ∷|$)", "the customer's list: bytes and refusal numbers"),
    ("crates/zone/proofs/Shown.antt", r"\b96 4\b", "the customer's list: a zone of 96 bytes with 4 masters"),
    ("crates/zone/proofs/Shown.antt", r"≡ 64\b", "the customer's list: where the recipe's data are then"),
]

# an antt name may hold digits and marks; a number stands alone, or with a type's name in code
NUMBER = re.compile(r"(?:(?<![^\s(){}\[\],;!])|(?<=\.\.)|(?<=\.\.=))(0x[\da-fA-F_]+|0o[0-7_]+|0b[01_]+|\d[\d_]*)(?:[ui](?:8|16|32|64|128|size))?(?![^\s(){}\[\],;.])")


def text_of(root, name):
    """A file without comments and imports, at the same lines."""
    text = sources.read(root, name)
    if name.endswith(".antt"):
        text = sources.uncommented(text)
    else:
        text = re.sub(r"//.*", "", sources.masked(text))
    return re.sub(r"^[ \t]*(?:(?:ghost|pub|unfoldable) )*use .*", "", text, flags=re.M)


def files(root):
    """All definitions, proofs and code but the definitions of the numbers."""
    paths = [*root.glob("crates/*/specs/**/*.antt"), *root.glob("crates/*/proofs/**/*.antt"), *root.glob("crates/*/src/**/*.rt")]
    names = sorted(path.relative_to(root).as_posix() for path in paths)
    return [name for name in names if not name.startswith(DEFINITIONS)]


def found(line):
    """The numbers of a line that have a name: where each stands, its text and the name."""
    for number in NUMBER.finditer(line):
        digits = number[1].replace("_", "")
        value = int(digits, 0 if digits[:2] in ("0x", "0o", "0b") else 10)
        if value in NUMBERS:
            yield *number.span(1), number[0], NUMBERS[value]
    for form, named in FORMS:
        for match in re.finditer(form, line):
            yield *match.span(1), match[0], named


def covers(form, line, start, end):
    """Whether a form matches a part of a line that holds a place; of a form with a group, that part is the group's."""
    spans = [match.span(match.re.groups) for match in re.finditer(form, line)]
    return any(low <= start and end <= high for low, high in spans)


def faults_of(root, name, meanings, allowed, used):
    """The numbers of a file that are to be named. The entries that allow one are put to those that are used."""
    faults, entries = [], [entry for entry in allowed if name.startswith(entry[0])]
    for at, line in enumerate(text_of(root, name).split("\n"), 1):
        for start, end, text, named in found(line):
            by = [entry for entry in meanings if covers(entry[0], line, start, end)]
            by = by or [entry for entry in entries if covers(entry[1], line, start, end)]
            used.update(by)
            if not by:
                faults.append(f"{name}:{at}: {text} is to be named: {named}")
    return faults


def faults(root, meanings=tuple(MEANINGS), allowed=tuple(ALLOWED)):
    used = set()
    faults = [fault for name in files(root) for fault in faults_of(root, name, meanings, allowed, used)]
    return faults + [f"tools/by_name.py: allows nothing: {' : '.join(entry)}" for entry in [*meanings, *allowed] if entry not in used]


def main():
    lines = faults(ROOT)
    print("\n".join(lines) if lines else "every number of the papers stands by name")
    return 1 if lines else 0


if __name__ == "__main__":
    sys.exit(main())
