"""Tests of tools/seals.py: weakened definitions, examples, contracts and theorems are noticed, comments are not."""
import re
import unittest

import seals
import sources
from trial import ROOT, Trial

THEOREMS = seals.theorems(ROOT)
EXPORTS = "crates/nafelode/src/lib.rt"
PROGRAM = "crates/zone_run/src/main.rt"
STORED = seals.stored(ROOT)
CONTRACTS = [(name, places[0][0].text) for name, places in sources.exported(ROOT).items() if name.startswith("contract ")]


class Seals(Trial):
    files = sorted({file for file, _, _ in THEOREMS if (ROOT / file).is_file()})

    def test_tree_as_it_is(self):
        self.assertEqual(seals.faults(self.root), [])

    def test_comments_move_nothing(self):
        for name in [*sources.believed(self.root), *sources.examples(self.root), *self.files, *sources.sources(self.root, "nafelode")]:
            self.commented(name)
        self.assertEqual(seals.faults(self.root), [])

    def each(self, names, pattern, new):
        """A change of each file that has the pattern moves its seal. Answers how many have it."""
        have = [name for name in names if re.search(pattern, sources.read(self.root, name), re.M)]
        for name in have:
            self.change(name, pattern, new)
            now = {sealed: seals.digest(text) for sealed, text in seals.sealed_files(self.root).items()}
            self.assertEqual([sealed.split()[1] for sealed in now if STORED[sealed] != now[sealed]], [name])
            self.restore(name)
        return len(have)

    def test_relation_that_holds_of_anything(self):
        # `History`, `Never`, `Where` and each other `data` get a case more
        self.assertGreater(self.each(sources.believed(self.root), r"^(pub data .* where)$", "pub data X where\n  anything : X"), 2)

    def test_record_that_says_less(self):
        self.assertGreater(self.each(sources.believed(self.root), r"^  pub \S+ : .*\n", ""), 2)

    def test_definition_of_another_meaning(self):
        self.assertGreater(self.each(sources.believed(self.root), r"^(?!--)\S+ .*= .* \+ .*$", "x = 0"), 2)

    def test_line_moved_in(self):
        # layout has a meaning
        self.assertGreater(self.each(sources.believed(self.root), r"^pub", "  pub"), 2)

    def test_emptied_example(self):
        self.assertEqual(self.each(sources.examples(self.root), r" ∷ \[\]$", " ∷ 0 ∷ []"), 8)
        self.each(sources.examples(self.root), r"^table = .*$", "table = []")

    def test_missing_example(self):
        self.drop(sources.examples(self.root)[0])
        self.noticed(seals, ["no example"])
        self.noticed(seals, ["sealed and not there", "example"])

    def test_row_taken_from_the_table(self):
        last = sources.believed(self.root)[-1]
        self.change("docs/TRUST.md", rf"^\| \d+ \| {re.escape(last)} .*\n", "")
        self.noticed(seals, ["sealed and not there", last])

    def test_row_more_in_the_table(self):
        self.change("docs/TRUST.md", r"^\| 1 \|", "| 0 | crates/zone/specs/Lib.antt | 1 | all |\n| 1 |")
        self.noticed(seals, ["no seal", "crates/zone/specs/Lib.antt"])

    # ---- contracts

    def test_function_without_ensures(self):
        for name in ("nafelode::initialize", "nafelode_c::nafelode_view", "inspect::Walker::advance", "inspect::census", "records::run_chunk"):
            text = dict(CONTRACTS)[f"contract {name}"]
            file = next(f for f in sources.sources(self.root, name.split("::")[0]) if text in sources.read(self.root, f))
            self.put(file, sources.read(self.root, file).replace(text, re.sub(r"ensures( \w+)? \{.*\}\n", "", text)))
            self.noticed(seals, ["promises nothing", name])
            self.noticed(seals, ["seal differs", name])
            self.restore(file)

    def test_weaker_clause(self):
        file = "crates/nafelode_c/src/lib.rt"
        self.change(file, r"ensures \{ InitPromise .*\}$", "ensures { result ≡ 0 }")
        self.noticed(seals, ["seal differs", "nafelode_c::nafelode_initialize"])

    def test_requires_more(self):
        self.change("crates/nafelode/src/lib.rt", r"(?=^    ensures)", "    requires { length zone.now ≡ 0 }\n")
        self.noticed(seals, ["seal differs", "contract nafelode::"])

    def test_name_from_another_file(self):
        self.change("crates/nafelode/src/lib.rt", r"Rattle\.\w+\.specs\.\w+\.\{(?=[A-Z])", "Rattle.zone.specs.Other.{")
        self.noticed(seals, ["seal differs", "contract nafelode::"])

    def test_name_under_another(self):
        self.change("crates/nafelode/src/lib.rt", r"(?<=\.\{)(?=[A-Z])", "Weak as ")
        self.noticed(seals, ["seal differs", "contract nafelode::"])

    def test_file_that_passes_on_something_else(self):
        code, passing = "crates/inspect/src/walker.rt", "crates/inspect/specs/Passing.antt"
        self.change(code, r"Rattle\.zone\.specs\.Walker\.\{", "Rattle.inspect.specs.Passing.{")
        self.put(passing, "pub use Rattle.zone.specs.Walker.{start_of_walk, walk_step}\n")
        self.assertEqual([fault for fault in seals.faults(self.root) if "Walker" in fault], [])
        self.put(passing, "abbrev pub start_of_walk : Type 0\nabbrev pub walk_step : Type 0\n")
        self.noticed(seals, ["seal differs", "inspect::Walker::start"])

    def test_name_that_the_root_of_the_definitions_passes_on(self):
        """A name may be spelled like a module beside it: a path to it goes to specs/Lib.antt, and on to what that passes on."""
        root, told = "crates/zone/specs/Lib.antt", set()
        self.change(EXPORTS, r"^ghost use Rattle\.zone\.specs\.Promise\.\{Promise, InitPromise\};", "ghost use Rattle.zone.specs.{Promise, InitPromise};")
        for name in ("Promise", "Weak as Promise", "Weaker as Promise"):
            self.put(root, f"pub use Rattle.zone.specs.PickBays.{{{name}}}\n" + sources.read(ROOT, root))
            told.add(seals.sealed_contracts(self.root)["contract nafelode::shrink"])
            self.noticed(seals, ["seal differs", "contract nafelode::shrink"])
        self.assertEqual(len(told), 3)

    def test_module_that_the_root_of_the_definitions_passes_on(self):
        root, told = "crates/nafelode/specs/Lib.antt", set()
        self.change(EXPORTS, r"Rattle\.zone\.specs\.Promise\.\{", "Rattle.nafelode.specs.Weak.{")
        for name in ("PickBays", "Steps"):
            self.put(root, f"pub use Rattle.zone.specs.{name} as Weak\n" + sources.read(ROOT, root))
            told.add(seals.sealed_contracts(self.root)["contract nafelode::shrink"])
        self.assertEqual(len(told), 2)

    def test_name_by_a_path_from_elsewhere(self):
        told = {seals.sealed_contracts(self.root)["contract nafelode::shrink"]}
        for path in ("package.Rattle.zone.specs.Promise", "Rattle.other.specs.Promise", "«Rattle».zone.specs.«PickBays»"):
            self.put(EXPORTS, sources.read(ROOT, EXPORTS).replace("ghost use Rattle.zone.specs.Promise.{", f"ghost use {path}.{{"))
            told.add(seals.sealed_contracts(self.root)["contract nafelode::shrink"])
        self.assertEqual(len(told), 4)

    # ---- forms of code

    def form(self, file, pattern, new, words):
        self.change(file, pattern, new)
        self.noticed(seals, words)
        self.restore(file)

    def test_function_of_another_form(self):
        for word in ("const", "unsafe", 'unsafe extern "C"'):
            self.form(EXPORTS, r"\Z", f"\npub {word} fn more(zone: &[u8]) -> u32 {{\n    0\n}}\n", ["promises nothing", "nafelode::more"])
        for text in ("pub static MORE: u32 = 3;", "pub trait More {}", "pub const MORE: u32 = 3;", "pub type More = u32;"):
            self.form(EXPORTS, r"\Z", f"\n{text}\n", ["no seal", "type nafelode::M"])

    def test_clause_of_another_form(self):
        self.form(EXPORTS, r"^    ensures \{", "    ensures «in» {", ["cannot be read", "contract nafelode::"])

    def test_clause_that_names_a_constant(self):
        self.form(EXPORTS, r"\{ Promise compact ", "{ block_type::STRATA ≡ 0 → Promise compact ", ["not sealed", "nafelode::compact", "STRATA"])

    def test_what_a_contract_sees_of_a_type(self):
        for form in ("impl Model for Refusal {", "impl<T> Model for Refusal\n{", "impl Clone for Refusal {", "impl From<u32> for u64 {", "macro_rules! more {", 'extern "C" {'):
            self.form("crates/calls/src/lib.rt", r"\Z", f"\n{form}\n}}\n", ["no seal reads", form.split("\n")[0].removesuffix(" {"), "crates/calls/src/lib.rt"])
        self.form("crates/access/src/rows.rt", r"\Z", "\nimpl Model for Rows<'_> {\n}\n", ["no seal reads", "impl Model for Rows<'_>"])

    def test_impls_of_exported_types(self):
        """How a refusal is printed is sealed, and so is each further such impl; what a type has that is not exported is nobody's promise."""
        file = "crates/calls/src/lib.rt"
        self.form(file, r"f\.write_str\(text\)", 'f.write_str("")', ["seal differs", "impl calls::impl fmt::Display for Refusal"])
        self.form(file, r"^use std::fmt;", "use other::fmt;", ["seal differs", "impl calls::impl fmt::Display for Refusal"])
        self.form(file, r"^impl Error for Refusal \{\}", "", ["sealed and not there", "impl calls::impl Error for Refusal"])
        self.form(file, r"\Z", "\nimpl From<u32> for Refusal {\n}\n", ["no seal", "impl calls::impl From<u32> for Refusal"])
        self.assertEqual([name for name in seals.sealed_impls(self.root) if "Rows" in name], [])

    def test_passed_on_otherwise(self):
        self.form(EXPORTS, r"^pub use calls::Refusal;", "pub use calls::Refusal as Why;", ["passed on under another name", "calls::Refusal as Why"])
        self.form(EXPORTS, r"^pub use tell::Sums;", "pub use tell::{roster::{Listed as Sums}, Sums as Refusal};", ["passed on under another name", "tell::roster::Listed as Sums"])
        self.form(EXPORTS, r"^pub use tell::Sums;", "pub use tell;", ["passed on and not sealed", "tell::tell"])
        self.form(EXPORTS, r"^pub use tell::Sums;", "pub use tell::roster;", ["sealed and not there", "type tell::Sums"])

    def test_type_of_code_under_another_name(self):
        self.form(EXPORTS, r"^pub use calls::Refusal;", "pub use calls::{Refusal as Sums, Other as Refusal};", ["seal differs", "contract nafelode::compact"])

    def test_function_and_type_gone_or_new(self):
        self.change("crates/nafelode/src/lib.rt", r"^pub fn shrink", "fn shrink")
        self.noticed(seals, ["sealed and not there", "contract nafelode::shrink"])
        self.change("crates/nafelode/src/lib.rt", r"^fn shrink", "pub fn strip")
        self.noticed(seals, ["no seal", "contract nafelode::strip"])
        self.change("crates/nafelode/src/lib.rt", r"(?<=[{ ])Walker\};$", "};")
        self.noticed(seals, ["sealed and not there", "contract inspect::Walker::go"])

    def test_type_of_another_form(self):
        self.change("crates/inspect/src/walker.rt", r"^pub struct Walker \{", "pub struct Walker {\n    pub more: u32,")
        self.noticed(seals, ["seal differs", "type inspect::Walker"])

    def test_program_of_another_body(self):
        self.change(PROGRAM, r"^fn main\([^{]*\{", "fn main() {\n    return;")
        self.noticed(seals, ["seal differs", "program"])

    # ---- theorems

    def test_theorem_gone(self):
        for file, name, of in THEOREMS:
            self.change(file, rf"^pub {re.escape(name)} : ", f"pub {name}-other : ")
            self.noticed(seals, ["no theorem", name])
            self.restore(file)

    def test_theorem_of_another_type(self):
        for file, name, of in THEOREMS:
            self.change(file, rf"^pub {re.escape(name)} : .*$", f"pub {name} : Unit → {of}")
            self.noticed(seals, ["no theorem", name])
            self.restore(file)

    def test_theorem_in_a_comment(self):
        file, name, of = THEOREMS[0]
        self.put(file, "{-\n" + sources.read(self.root, file) + "-}\n")
        self.noticed(seals, ["no theorem", "comment", file])

    def test_name_from_two_places(self):
        file, name, of = THEOREMS[0]
        self.put(file, f"use Rattle.zone.specs.PickBays.{{{of}}}\n" + sources.read(self.root, file))
        self.noticed(seals, ["no theorem", name, of])
        self.change("crates/nafelode/src/lib.rt", r"^(?=ghost use Rattle)", "ghost use Rattle.zone.specs.Other.{InitPromise};\n")
        self.noticed(seals, ["seal differs", "contract nafelode::initialize"])

    def test_theorem_under_an_assumption(self):
        file, name, of = THEOREMS[0]
        self.change(file, rf"^pub {re.escape(name)} : ", f"module _ (no : ⊥) where\n  pub {name} : ")
        self.noticed(seals, ["no theorem", name])

    def test_statement_from_elsewhere(self):
        for file, name, of in THEOREMS:
            if of in seals.statements(self.root):
                self.change(file, rf"\b{of}(?=[,}}])", "other")
                self.put(file, f"use Rattle.zone.specs.PickBays.{{{of}}}\n" + sources.read(self.root, file))
                self.noticed(seals, ["no theorem", name, of, "which is not sealed"])
                self.restore(file)

    def test_statement_defined_beside_its_proof(self):
        file, name, of = THEOREMS[0]
        self.change(file, rf"\b{of}(?=[,}}])", "other")
        self.noticed(seals, ["no theorem", "is not imported", of])
        self.put(file, sources.read(self.root, file) + f"\n{of} : Type 0\n{of} = Unit\n")
        self.noticed(seals, ["no theorem", "is defined in the same file", of])

    def test_statement_under_another_name(self):
        file, name, of = THEOREMS[0]
        self.change(file, rf"\b{of}(?=[,}}])", f"Weak as {of}")
        self.noticed(seals, ["no theorem", "under another name", of])

    def test_library_name_from_elsewhere(self):
        for file, name, of in THEOREMS:
            if "≡" in of:
                module, _, operator = sources.imports(sources.read(self.root, file))["◌≡◌"].rpartition(".")
                self.change(file, rf"{re.escape(module)}\.\{{(?=[^}}]*{operator})", "mathlib.Core.Other.{")
                self.noticed(seals, ["seal differs", "theorem", name])
                self.restore(file)
                self.change(file, rf"{operator}(?=[,}}])", f"◌≤◌ as {operator}")
                self.noticed(seals, ["no theorem", "under another name", name])
                self.restore(file)

    def test_name_of_a_theorem_from_beside_its_module(self):
        file = "crates/zone/proofs/PageSays.antt"
        self.put(file, re.sub(r"\bPageSays(, |(?=\}))", "", sources.read(self.root, file), count=1))
        self.put(file, "use Rattle.zone.specs.{PageSays}\n" + sources.read(self.root, file))
        self.noticed(seals, ["no theorem", "page-says", "`PageSays` comes from Rattle.zone.specs.PageSays, which is not sealed"])

    def test_theorem_on_a_constant_of_code(self):
        """It is the code's own, and no other thing of that name."""
        file, said = "crates/block_type/proofs/Constants.antt", ["no theorem", "zone_header-is", "`ZONE_HEADER` comes from", "which is not sealed"]
        self.form(file, r"\.declared\.TheConstants\.\{(?=ZONE_HEADER)", ".Other.{", said)
        self.form("crates/block_type/src/lib.rt", r"\bZONE_HEADER\b", "ZONE_HEADERS", said)
        self.form(file, r"^pub zone_header-is : ZONE_HEADER ≡ zone_header$", "pub zone_header-is : zone_header ≡ zone_header", ["no theorem", "zone_header-is"])
        self.put("crates/block_type/specs/declared.antt", "")
        self.noticed(seals, said)
        self.restore("crates/block_type/specs/declared.antt")

    def test_operator_of_its_own(self):
        """`≡` is something else in the theorem's file, whatever the form of its declaration."""
        file = next(file for file, _, of in THEOREMS if "≡" in of)
        for text in ("abbrev pub ◌≡◌ {ℓ} : {A : Type ℓ} → A → A → Type ℓ", "unfoldable abbrev ◌≡◌ : ℕ", "module _ (n : ℕ) where\n  pub ◌≡◌ : ℕ", "mutual\n  a ◌≡◌ : ℕ", "data ◌≡◌ : Type 0 where",
                     "open evil use {same as ◌≡◌}", "axiom pub ◌≡◌ : ℕ"):
            self.put(file, sources.read(ROOT, file) + f"\n{text}\n")
            self.noticed(seals, ["no theorem", file, "`◌≡◌` is defined in the same file"])

    def test_names_of_libraries(self):
        file = THEOREMS[0][0]
        for line in ("use Rattle.zone.specs.PickBays as mathlib", "pub mod Prim", "use Rattle.zone.specs.PickBays.{x as lib}"):
            self.put(file, f"{line}\n" + sources.read(ROOT, file))
            self.noticed(seals, ["no theorem", file, "is something else"])
        self.put(file, "use Weaker.*\n" + sources.read(ROOT, file))
        self.noticed(seals, ["no theorem", file, "glob"])

    def test_name_of_a_theorem_from_another_library(self):
        for file, name, of in THEOREMS[:3]:
            for path in ("package.Rattle.nafelode.specs.Weak", "Rattle.other.specs.Demands", "Weak"):
                self.put(file, f"use {path}.{{{of}}}\n" + re.sub(rf"\b{of}(?=[,}}])", "other", sources.read(ROOT, file)))
                self.noticed(seals, ["no theorem", name, f"`{of}` comes from {path}.{of}, which is not sealed"])

    def test_statement_without_theorem(self):
        file, name, of = THEOREMS[0]
        self.change("tools/theorems.txt", rf"^.* : {name} : .*\n", "")
        self.noticed(seals, ["no theorem", f"`{of}` has none"])
        self.noticed(seals, ["seal differs", "tools/theorems.txt"])

    def test_record_without_theorem(self):
        file = sources.believed(self.root)[-1]
        self.put(file, sources.read(self.root, file) + "\npub record Demand : Type 0 where\n  pub of : (n : ℕ) → n ≡ 0\n")
        self.noticed(seals, ["no theorem", "`Demand` has none"])

    # ---- writing

    def test_written_seals_hold(self):
        self.change(PROGRAM, r"^fn main\([^{]*\{", "fn main() {\n    return;")
        self.touched.add(seals.SEALS)
        self.assertEqual([line.split(" (")[0] for line in seals.write(self.root)], [f"moved: program {PROGRAM}"])
        self.assertEqual(seals.faults(self.root), [])


if __name__ == "__main__":
    unittest.main()
