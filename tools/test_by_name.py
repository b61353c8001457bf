"""Tests of tools/by_name.py: a number of document 01 in digits is noticed wherever it stands, and so is an entry that allows nothing."""
import unittest

import by_name
import sources
from trial import ROOT, Trial

DEFINITION = "crates/zone/specs/Inner.antt"
PROOF = "crates/zone/proofs/deep/Inner.antt"
CODE = "crates/zone/src/inner.rt"


class ByName(Trial):
    files = by_name.files(ROOT)

    def found(self, name, text):
        """The faults of a text in a file of its own."""
        self.put(name, text)
        self.assertIn(name, by_name.files(self.root))
        return by_name.faults_of(self.root, name, by_name.MEANINGS, by_name.ALLOWED, set())

    def noticed_in(self, name, lines):
        for line in lines:
            self.assertEqual(len(self.found(name, f"{line}\n")), 1, line)

    def passed_in(self, name, lines):
        self.assertEqual(self.found(name, "".join(f"{line}\n" for line in lines)), [])

    def test_tree_as_it_is(self):
        self.assertEqual(by_name.faults(self.root), [])

    def test_each_number_in_a_definition(self):
        lines = [f"x = at + {number}" for number in by_name.NUMBERS]
        self.assertEqual(len(self.found(DEFINITION, "\n".join(lines))), len(lines))

    def test_each_number_in_a_proof(self):
        lines = [f"  x = omega ({number} ≤ n)" for number in by_name.NUMBERS]
        self.assertEqual(len(self.found(PROOF, "\n".join(lines))), len(lines))

    def test_each_number_in_code(self):
        lines = [f"    f(z, {number});" for number in by_name.NUMBERS]
        self.assertEqual(len(self.found(CODE, "\n".join(lines))), len(lines))

    def test_definition_and_law(self):
        self.noticed_in(DEFINITION, ["x = drop 4 b", "x = 2 + length d", "x = first_block m - 16", "x = slice z 12 2", "x = slice (take l s) 8 4", "x = code_of e * 16384"])

    def test_pages(self):
        self.noticed_in(DEFINITION, ["x = drop 8 b", "x = get_or s 14 0", "x = leb c 32756", "x : type_of b ≡ 3", "x = leb 32768 w", "x = eqb n 12"])
        self.passed_in(DEFINITION, ["x = drop page_header b", "x = cause 12 (not t)", "x = told 12 v", "x : number_of c entry ≡ 12 → ⊥", "x = slice b tag_at 4"])

    def test_contract(self):
        self.noticed_in(CODE, ["    requires { at + 4 ≤ length z.now }", "    ensures told { result ≡ cond (eqb m 0) 0 16 }"])

    def test_body(self):
        lines = ["    while 16 < at {", "    at -= 4;", "    let a = &z[4..];", "    let a = &z[at..16];", "    let n = 16384usize;", "    let n = 1_048_576;", "    let n = 0x4000;", "    if z[14] == 0 {", "    put2(z, 12, h);"]
        self.noticed_in(CODE, lines)

    def test_numbers_of_other_forms(self):
        self.noticed_in(CODE, [f"    let n = {number};" for number in ("16u16", "16i32", "4i64", "0b100", "0o20", "0x10u128", "1_6usize")])
        self.noticed_in(DEFINITION, ["x = at + 0b100", "x = at + 0o20", "x = at + 0x10", "x = at + 1_6"])
        self.passed_in(CODE, ["    let n = pair.4;", "    let n = f16;", "    let n = 0b101;"])

    def test_type_codes(self):
        lines = ["x : type_of b ≡ 0", "x = type_of b == 1", "x : type_of (encode_block (fixed d)) ≡ 1", "x : type_of b ≡ 2", "x = eqb (code b) 1", "code (fixed d) = 1"]
        self.noticed_in(DEFINITION, [*lines, "x : (k : ℕ) → k ≡ type_of r → eqb k 0 ≡ is_free r"])

    def test_length_at_0(self):
        self.noticed_in(DEFINITION, ["x = slice s 0 4", "x = overwrite (overwrite z from f) 0 (to_be 4 l)"])
        self.noticed_in(CODE, ["    let l = bigendian::get4(zone, 0) as usize;", "    bigendian::put4(z, 0, n as u32);"])

    def test_names(self):
        self.passed_in(DEFINITION, ["x = drop free_header b", "x = slice z chain_at 2", "x = to_be 4 (at + reloc_header)", "x : type_of b ≡ fixed_code", "x = overwrite s 0 bs"])
        self.passed_in(CODE, ["    at -= block_type::MASTER_SIZE;", "    let n = (BlockType::FIXED_HEADER + c as usize + 3) / 4 * 4;"])

    def test_digits_of_names(self):
        self.passed_in(DEFINITION, ["x = here .4", "x = up4 k", "x₄ = y₂", "zone-14 = z4", "be2-at s = w8"])
        self.passed_in(CODE, ["    let a = bigendian::get4(z, at) as u32;"])

    def test_comments_and_imports(self):
        self.passed_in(DEFINITION, ["-- bytes 14 and 15", "use A.B.{c}  -- 16", "x = y  -- refused: 4"])
        self.passed_in(CODE, ["// 16 bytes", "    f(z);  // 16 bytes"])

    def test_allowed_elsewhere_only(self):
        for line in ("record_length = 16", "x = goes ! 16 refl", "limits = 16 ∷ []"):
            self.noticed_in(DEFINITION, [line])

    def test_allowed_form_only(self):
        name = "crates/records/specs/Records.antt"
        self.put(name, sources.read(self.root, name) + "\nx = 16\n")
        self.noticed(by_name, [name, "16 is to be named"])

    def test_entry_that_allows_nothing(self):
        for entries in ({"meanings": [*by_name.MEANINGS, (r"nowhere 4\b", "why")]}, {"allowed": [*by_name.ALLOWED, ("crates/zone/", r"nowhere 4\b", "why")]}):
            faults = by_name.faults(self.root, **entries)
            self.assertEqual([fault for fault in faults if "allows nothing" not in fault], [])
            self.assertEqual(len(faults), 1)

    def test_entry_that_another_covers(self):
        faults = by_name.faults(self.root, allowed=[*by_name.ALLOWED, ("crates/", r"\bto_be 4\b", "why")])
        self.assertEqual(len(faults), 1)

    def test_each_has_a_reason(self):
        for entry in [*by_name.MEANINGS, *by_name.ALLOWED]:
            self.assertTrue(len(entry[-1].split()) > 1, entry)


if __name__ == "__main__":
    unittest.main()
