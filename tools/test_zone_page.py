"""Tests of tools/zone_page.py: a number, a rule, a call, a refusal, a code, a byte or an answer that the page has otherwise is noticed, whichever side changed."""
import re
import unittest

import definitions
import zone_page
from trial import Trial

TABLE = definitions.TABLE


class ZonePage(Trial):
    files = ["docs/ZONE.md", "c/header.py", "c/header.txt", "VERSION", "examples/bytes.zone", "examples/first.records", "examples/first.expected"]

    def page(self, pattern, new, words):
        """A change of the page is noticed."""
        self.change(zone_page.PAGE, pattern, new)
        self.noticed(zone_page, words)
        self.restore(zone_page.PAGE)

    def defined(self, file, pattern, new, words):
        """A change of a definition, or of the header's source, is noticed."""
        self.change(file, pattern, new)
        self.noticed(zone_page, words)
        self.restore(file)

    def test_numbers(self):
        self.page(r"^\| 12 \| 2 \| hFstFree", "| 10 | 2 | hFstFree", ["hFstFree", "10", "12"])
        self.page(r"\| 32,756 \|$", "| 32,760 |", ["blocks, page"])
        self.page(r"\| 8,188 \|", "| 8,180 |", ["most_masters", "8180", "8188"])
        self.defined(definitions.LIMITS, r"^fixed_header = 4", "fixed_header = 2", ["blocks, fixed"])
        self.defined(definitions.LIMITS, r"^added_masters = 8", "added_masters = 4", ["added_bytes", "32", "16"])

    def test_rules(self):
        self.page(r"^\| the second word of a fixed block is 0 .*\n", "", ["rules", "second_ok"])
        self.defined(definitions.RULES, r"^    && every second_ok bs\n", "", ["rules", "second_ok"])
        self.defined(definitions.RULES, r"&& every tile_ok bs", "&& every tile_ok bs\n    && every is_fixed bs", ["rules", "is_fixed"])
        for signature in ("unfoldable pub more_ok :\n    List ℕ → Bool", "pub more_ok : List ℕ → Bool", "unfoldable abbrev pub more_ok' : List ℕ\n  → Bool"):
            name = re.search(r"more_ok'?", signature)[0]
            self.change(definitions.RULES, r"\Z", f"\n{signature}\n{name} b = true\n")
            self.defined(definitions.RULES, r"&& every tile_ok bs", f"&& every tile_ok bs\n    && every {name} bs", ["rules", name])

    def test_calls(self):
        self.page(r"^### `compact\(\)`$", "### `pack()`", ["calls", "pack"])
        self.page(r"^### `resize\(handle, c\)`", "### `resize(handle, k)`", ["resize's arguments"])
        self.page(r"^### `set_dirty\(name\)`, ", "### ", ["calls", "set_dirty"])
        self.defined("crates/nafelode_c/src/lib.rt", r"fn nafelode_shrink\(zone: &mut \[u8\], k: u32, ", "fn nafelode_shrink(zone: &mut [u8], k: u32, limit: u32, ", ["shrink's arguments", "limit"])

    def test_refusals_of_a_call(self):
        self.page(r"^- Refused: 1, 3, 4, 5\.$", "- Refused: 1, 3, 5.", ["allocate_relocatable's refusals"])
        self.page(r"^- Refused: 1, 6, 3, 5\.$", "- Refused: 1, 3, 5, 6.", ["resize's refusals"])
        self.page(r"^- Refused: 1, 10\.$", "- Refused: 1 and 10.", ["roster's refusals"])
        self.defined(TABLE, r"^causes compact f = not_well_formed f ∷ \[\]", "causes compact f = []", ["compact's refusals"])
        self.defined(TABLE, r"^causes \(size t\) f = not_well_formed f ∷ no_block t f", "causes (size t) f = not_well_formed f ∷ no_block (by_handle t) f", ["size's refusals"])
        self.defined(TABLE, r"^page_causes n drop_page f = no_block", "page_causes n drop_page f = present", ["drop_page's refusals"])

    def test_order(self):
        self.page(r"^(\| 4 \| .*\n)(\| 5 \| .*\n)", "| 5 | `X` | x |\n| 4 | `Y` | y |\n", ["the order of refusals"])
        self.defined(TABLE, r"12 ∷ 8 ∷ 9 ∷ 10", "8 ∷ 12 ∷ 9 ∷ 10", ["the order of refusals"])

    def test_constants(self):
        self.page(r"`NAFELODE_NO_SPACE`", "`NAFELODE_NO_ROOM`", ["constants", "NAFELODE_NO_ROOM"])
        self.defined("c/header.txt", r"#define NAFELODE_TOO_LARGE 3u", "#define NAFELODE_TOO_LARGE 4u", ["constants", "TOO_LARGE"])

    def test_records(self):
        self.page(r"^\| 9 \| `enlarge\(a\)` \|$", "| 9 | `enlarge(b)` |", ["zone-run's codes"])
        self.page(r"^\| 8 \| 4 \| b \|$", "| 8 | 2 | b |", ["a record", "b"])
        self.page(r"a buffer of 65,536 zero bytes", "a buffer of 65,535 zero bytes", ["65,536"])
        self.page(r"00000000  → 6 0$", "00000000  → 7 0", ["lines of the example"])
        self.page(r"^03000000 00000014", "03000000 00000010", ["records of the example"])
        self.defined(definitions.RECORDS, r"∷ call compact\n", "∷ call (shrink a)\n", ["zone-run's codes"])
        self.defined(definitions.RECORDS, r"^d_at = 12", "d_at = 14", ["a record"])
        self.defined(definitions.BOOK, r"^buffer_length = 65536", "buffer_length = 65540", ["65,540"])

    def test_bytes(self):
        words = ["bytes on the page"]
        self.page(r"^  16  00 00 00 1C", "  16  00 00 00 18", words)
        self.page(r"^\| 54 \| `00 18` \|", "| 54 | `00 14` |", words)
        self.page(r"its handle: 24", "its handle: 20", words)
        self.page(r"^\| 66 \| .*\n", "", words)
        self.page(r"8 if kind == 3 else 4", "6 if kind == 3 else 4", ["the decoder"])


class Answers(Trial):
    """With a library that answers what the page says, and leaves the example's bytes."""

    files = ["docs/ZONE.md", "examples/bytes.zone"]

    def found(self, run):
        return list(zone_page.library_faults(self.root, self.text(), run))

    def text(self):
        return (self.root / zone_page.PAGE).read_text(encoding="utf-8")

    def library(self, calls):
        """What the page says of calls that it shows."""
        said = {tuple(call for call, _ in shown): [answer for _, answer in shown[1:]] for shown in zone_page.shown_calls(self.text())}
        return said.get(tuple(calls), []), (self.root / zone_page.EXAMPLE).read_bytes()

    def test_page_as_it_is(self):
        self.assertEqual(self.found(self.library), [])
        self.assertGreater(sum(map(len, zone_page.shown_calls(self.text()))), 40)

    def test_answer(self):
        wrong = lambda calls: ([*self.library(calls)[0][:-1], "9 9"], self.library(calls)[1])
        self.assertTrue(any("9 9" in fault for fault in self.found(wrong)))

    def test_call_without_answer(self):
        less = lambda calls: (self.library(calls)[0][1:], self.library(calls)[1])
        self.assertTrue(any("how many" in fault for fault in self.found(less)))

    def test_bytes(self):
        other = lambda calls: (self.library(calls)[0], self.library(calls)[1][:-1] + b"\0")
        self.assertTrue(any(zone_page.EXAMPLE in fault for fault in self.found(other)))


if __name__ == "__main__":
    unittest.main()
