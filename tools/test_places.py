"""Tests of tools/places.py: each count finds what it says, and passes over the same thing in today's form."""
import pathlib
import tempfile
import unittest

import places

# a place of each count, with today's form of it behind, which is no place
OLD = {
    "number-fields": ("pub struct Told {\n    pub number: u32,\n}", "pub fn f() -> Result<u32, Refusal> {\n    g()\n}"),
    "bare-numbers": ("fn f(z: &mut [u8]) -> u32\n    ensures { told result 0 ≡ call z }\n{\n    0\n}", "fn f(z: &mut [u8]) -> Result<(), Refusal>\n    ensures { done_of result ≡ call z }\n{\n    Ok(())\n}"),
    "refusals-in-digits": ("fn f() -> Plan {\n    no_plan(3)\n}", "fn f() -> Result<Plan, Refusal> {\n    Err(Refusal::TooLarge)\n}"),
    "flags": ("struct Bay {\n    found: bool,\n    at: usize,\n}", "fn f() -> Option<Bay> {\n    None\n}"),
    "none-by-number": ("// The place of a page, 0 where there is none.", "// The place of a page."),
    "number-tests": ("fn f(p: Plan) {\n    if p.number == 0 {\n    }\n}", "fn f(p: Plan) {\n    g(p)\n}"),
    "types-by-code": ("fn f(k: usize) -> bool {\n    k == BlockType::FREE_CODE\n}", "fn f(k: BlockType) -> bool {\n    k == BlockType::Free\n}"),
    "mixed-structs-b": ("struct Bay {\n    found: bool,\n    at: usize,\n}", "struct Bay<'a> {\n    z: &'a [u8],\n    at: usize,\n}"),
    "told-early-b": ("fn f(k: u32) -> u32 {\n    if k < 3 {\n        return 14;\n    }\n    k\n}", "fn f(k: u32) -> Option<u32> {\n    if k < 3 {\n        return None;\n    }\n    Some(k)\n}"),
    "twins": ("fn f(a: u32) -> u32 {\n    g(a + 1, a)\n}\n\nfn h(b: u64) -> u64 {\n    g(b + 2, b)\n}", "fn f(a: u32) -> u32 {\n    g(a + 1, a)\n}\n\nfn h(b: u64) -> u64 {\n    g(b, b + 2)\n}"),
    "repeats-b": ("".join(f"fn f{n}(a: u32) -> u32 {{\n{'    let a = g(a, 1);' * 9}\n    a{' + a' * n}\n}}\n" for n in (1, 2)), "fn f(a: u32) -> u32 {\n    a\n}"),
    "loops": ("fn f(z: &[u8]) {\n    while g(z) {\n    }\n}", "fn f(z: &[u8]) {\n    g(z)\n}"),
    "for-loops": ("fn f(z: &[u8]) {\n    for x in z {\n    }\n}", "fn f(z: &[u8]) {\n    g(z)\n}"),
    "stepped-b": ("fn f(z: &[u8]) {\n    let mut i = 0;\n    while i < z.len() {\n        i += 1;\n    }\n}", "fn f(z: &[u8]) {\n    while g(z) {\n        h(z);\n    }\n}"),
    "copied-fields": ("fn f(p: Plan) {\n    let at = p.at;\n    g(at)\n}", "fn f(p: Plan) {\n    g(p.at)\n}"),
    "own-largest": ("fn larger(a: usize, b: usize) -> usize {\n    if a < b { b } else { a }\n}", "fn f(a: usize, b: usize) -> usize {\n    a.max(b)\n}"),
    "own-widening": ("fn wide(a: u8) -> u32 {\n    a as u32\n}", "fn f(a: u8) -> u32 {\n    u32::from(a)\n}"),
    "casts": ("fn f(a: u8) -> u32 {\n    a as u32\n}", "fn f(a: u8) -> u32 {\n    u32::from(a)\n}"),
    "drop-alone": ("#[derive(Drop)]\nstruct Pair {\n    a: u32,\n}", "#[derive(Clone, Copy)]\nstruct Pair {\n    a: u32,\n}"),
    "built-anew-b": ("fn f(at: u32, len: u32, end: u32) -> Plan {\n    Plan { at, len, end }\n}", "fn f(p: Plan) -> Plan {\n    Plan { at: 0, ..p }\n}"),
    "choices-b": ("fn f(a: usize, b: usize) -> usize {\n    if a < b {\n        return b;\n    }\n    a\n}", "fn f(a: usize, b: usize) -> usize {\n    a.max(b)\n}"),
    "facts": ("".join(f"fn f{n}(z: &[u8])\n    requires {{ IsZone z.now }}\n{{\n    g(z)\n}}\n" for n in (1, 2, 3)), "fn f(z: Zone<'_>) {\n    g(z)\n}"),
    "together": ("".join(f"fn f{n}(z: &[u8], first: usize) {{\n    g(z, first)\n}}\n" for n in (1, 2, 3)), "fn f(z: Zone<'_>, first: usize) {\n    g(z)\n}"),
    "many-parameters": ("fn f(a: u8, b: u8, c: u8, d: u8, e: u8, g: u8) {\n}", "fn f(p: Plan) {\n}"),
    "alike-b": ("".join(f"fn f{n}({v}: &[u8])\n    requires {{ Own (length {v}.now) }}\n{{\n    g({v})\n}}\n" for n, v in enumerate("abc")), "fn f(z: Zone<'_>) {\n    g(z)\n}"),
    "parts": ("fn f(z: &[u8], l: usize) {\n    g(&z[..l])\n}", "fn f(zone: Zone<'_>) {\n    g(zone)\n}"),
    "fields-by-place": ("fn f(z: &[u8]) {\n    get4(z, block_type::LENGTH_AT)\n}", "fn f(zone: Zone<'_>) {\n    zone.len()\n}"),
    "beside-slices-b": ("fn f(z: &[u8], at: usize) -> u8 {\n    z[at]\n}", "fn f(block: Block<'_>) -> u8 {\n    block.kind()\n}"),
    "arrays-b": ("fn f(link: &mut [u16], key: &mut [u32]) {\n}", "fn f(trees: &mut Trees) {\n}"),
    "matches": ("fn f(k: Kind) -> u32 {\n    match k {\n        _ => 0,\n    }\n}", "fn f(k: Kind) -> u32 {\n    k.code()\n}"),
    "flags-that-choose": ("fn f(p: Plan) {\n    if p.tidy {\n    }\n}", "fn f(p: Plan) {\n    p.prepare()\n}"),
    "flag-parameters-b": ("fn f(z: &[u8], prev: bool) {\n}", "fn f(z: &[u8], prev: Option<usize>) {\n}"),
}
CODE = "crates/one/src/lib.rt"
LAWS = "crates/one/proofs/Laws.antt"
ANSWERS = "crates/one/proofs/f/Answers.antt"


class Places(unittest.TestCase):
    def found(self, name, texts):
        """The places of a count in a tree of these files."""
        with tempfile.TemporaryDirectory() as folder:
            for file, text in texts.items():
                path = pathlib.Path(folder) / file
                path.parent.mkdir(parents=True, exist_ok=True)
                path.write_text(text + "\n", encoding="utf-8")
            return next(count for count in places.COUNTS if count.name == name).places(pathlib.Path(folder))

    def test_each_count(self):
        for name, (old, today) in OLD.items():
            self.assertEqual(len(self.found(name, {CODE: old})), 1, name)
            self.assertEqual(self.found(name, {CODE: today}), [], name)

    def test_functions_of_a_fact(self):
        old, today = OLD["facts"]
        self.assertEqual(len(self.found("fact-clauses", {CODE: old})), 3)
        self.assertEqual(self.found("fact-clauses", {CODE: today}), [])

    def test_words_pass_over_comments_and_tests(self):
        commented = "// Told: a struct with number\n// while i < 3 { i += 1; }\n#[cfg(test)]\nmod tests {\n    fn f(z: &[u8], at: usize) -> u8 {\n        z[at]\n    }\n}"
        for name in [count.name for count in places.COUNTS if count.name.endswith("-b")]:
            self.assertEqual(self.found(name, {CODE: commented}), [], name)

    def test_proofs(self):
        laws = "pub own : ℕ → ℕ\nown n = n\n\npub of-own : (n : ℕ) → own n ≡ n\nof-own n = refl\n\npub of-all : (n : ℕ) → n + 0 ≡ n\nof-all n = refl\n"
        answers = "pub a-requires : goal.a-requires\na-requires c = search (of-all)\n"
        self.assertEqual([each.split(" ")[2] for each in self.found("general-lemmas", {LAWS: laws})], ["own", "of-all"])
        self.assertEqual([each.split(" ")[1] for each in self.found("uncited", {LAWS: laws, ANSWERS: answers})], ["of-own"])
        self.assertEqual(len(self.found("answers", {ANSWERS: answers})), 1)

    def test_answers_said_again(self):
        term = "search (first-law, second-law, third-law, c.{}.ensures)"
        answers = "\n\n".join(f"pub a{n} : goal.a{n}\na{n} c = {term.format(f'in-{n}')}" for n in range(3))
        self.assertEqual(len(self.found("said-again-b", {ANSWERS: answers})), 1)

    def test_each_point_is_counted_in_two_ways(self):
        for point in range(1, 9):
            names = [count.name for count in places.COUNTS if count.point == point]
            self.assertTrue({name.endswith("-b") for name in names} == {True, False}, point)
        self.assertEqual(len({count.name for count in places.COUNTS}), len(places.COUNTS))

    def test_page_names_each_count(self):
        page = (places.ROOT / "docs" / "DESIGN-PASS.md").read_text(encoding="utf-8")
        for count in places.COUNTS:
            self.assertIn(f"| `{count.name}` | ", page)

    def test_tree_as_it_is(self):
        self.assertEqual(len(places.told(places.ROOT, [])), len(places.COUNTS))


if __name__ == "__main__":
    unittest.main()
