"""Tests of tools/layers.py: any mention of a proof, and any name from a file that is not to be believed, is noticed."""
import unittest

import layers
import sources
from trial import Trial

INNER = "crates/zone/specs/Inner.antt"


class Layers(Trial):
    def test_tree_as_it_is(self):
        self.assertEqual(layers.faults(self.root), [])

    def proof_in(self, text):
        """Definitions in a file of their own: whether a proof is seen."""
        self.put(INNER, text)
        return [fault for fault in layers.mentions_of_proofs(self.root) if INNER in fault]

    def test_import_of_a_proof(self):
        for line in ("use Rattle.zone.proofs.Run.{x}", "pub use Rattle.zone.proofs.Run.{x}", "  use Rattle.zone.proofs.Run as Run", "use package.Rattle.zone.proofs.Run", "use Rattle.base64.proofs.Run.{x}"):
            self.assertTrue(self.proof_in(f"{line}\n"), line)

    def test_proof_named_without_import(self):
        for line in ("x = Rattle.zone.proofs.Run.x", "x = f (Rattle.zone.proofs.Run.x)", "x = «Rattle.zone».«proofs».Run.x", "x = Zone.proofs.Run.x"):
            self.assertTrue(self.proof_in(f"use Rattle.zone as Zone\nabbrev pub x : ℕ\n{line}\n"), line)

    def test_library_of_the_toolchain(self):
        self.assertEqual(self.proof_in("use Rattle.std.proofs.Math.Option.{Option}\nabbrev pub x : ℕ\nx = Rattle.std.proofs.Math.Option.x\n"), [])
        self.assertTrue(self.proof_in("use Rattle.std.proofs.Math.Option.{Option}\nx = Zone.proofs.Run.x\n"))

    def test_names_of_libraries(self):
        for line in ("use Rattle.zone.specs as Rattle", "pub mod lib", "use Rattle.zone.specs.Bay as «mathlib»"):
            self.put(INNER, f"{line}\n")
            self.noticed(layers, [INNER, "gives the name of a library"])

    def test_comments_do_not_count(self):
        self.assertEqual(self.proof_in("-- Rattle.zone.proofs.Run\nabbrev pub x : ℕ  -- by proofs\nx = 3 --Rattle.zone.proofs.Run\n"), [])
        self.assertTrue(self.proof_in("{-\nuse Rattle.zone.specs.Bay.{x}\n-}\n"))

    def test_folder_below(self):
        self.put("crates/zone/specs/deep/Inner.antt", "use Rattle.zone.proofs.Run.{x}\n")
        self.noticed(layers, ["mentions a proof", "crates/zone/specs/deep/Inner.antt"])
        self.put("crates/zone/src/deep/inner.rt", "    ghost use Rattle.zone.proofs.Run.{x};\n")
        self.noticed(layers, ["mentions a proof", "crates/zone/src/deep/inner.rt"])

    def test_proof_named_in_a_clause(self):
        self.change("crates/inspect/src/walker.rt", r"ensures \{ ", "ensures {\n// Rattle.access.proofs.Edit.IsZone\n")
        self.noticed(layers, ["mentions a proof", "crates/inspect/src/walker.rt"])

    def test_comment_in_code(self):
        self.commented("crates/inspect/src/walker.rt")
        self.assertEqual(layers.faults(self.root), [])

    # ---- the table

    def table_mentions(self, line):
        """A line more in the last file of the table: whether what it mentions is seen."""
        name = sources.believed(self.root)[-1]
        self.put(name, f"{line}\n" + sources.read(self.root, name))
        found = [fault for fault in layers.faults_of_table(self.root) if "which is not above it" in fault]
        self.restore(name)
        return found

    def test_file_that_is_not_above(self):
        self.put(INNER, "abbrev pub x : Type 0\n")
        lines = ["use Rattle.zone.specs.Inner.{x}", "  use Rattle.zone.specs.Inner as I", "x = Rattle.zone.specs.Inner.x", "use Rattle.zone as Z", "use Rattle.zone.specs as S", "use Rattle as R", "use Rattle.{zone}"]
        lines += ["use package.Rattle.zone.specs.Inner.{x}", "x = package.Rattle.zone.specs.Inner.x", "use Rattle.base64.specs.Inner.{x}", "x = Rattle.zone.specs.Promise", "use A; use Rattle.zone.specs.Inner.{x}"]
        for line in [*lines, "use Rattle.zone.specs.{x}", "x = «Rattle.zone».specs.«Inner».x", "pub mod Inner", f"use {self.path(sources.examples(self.root)[0])}.{{x}}"]:
            self.assertTrue(self.table_mentions(line), line)

    def path(self, name):
        """A file of definitions as another crate names it."""
        _, crate, *rest = name[:-5].split("/")
        return f"Rattle.{crate}." + ".".join(rest)

    def test_file_that_is_above(self):
        first = self.path(sources.believed(self.root)[0])
        for line in (f"use {first}.{{x}}", f"x = {first}.x", f"-- {first}x", "use Rattle.std.specs.Prelude.{x}", "use Rattle.std.proofs.Math.Option.{x}", "use Rattle.access.specs.declared.locate.Target.{Target}"):
            self.assertEqual(self.table_mentions(line), [], line)

    def test_rows_in_another_order(self):
        self.change("docs/TRUST.md", r"^\| 1 \| (.*\n)", "")
        self.noticed(layers, ["which is not above it"])

    def test_line_count(self):
        name = sources.believed(self.root)[0]
        self.put(name, sources.read(self.root, name) + "-- more\n")
        self.noticed(layers, [name, "lines"])

    def test_example_over_other_definitions(self):
        self.put(INNER, "abbrev pub x : Type 0\n")
        name = sources.examples(self.root)[0]
        self.put(name, "use Rattle.zone.specs.Inner.{x}\n" + sources.read(self.root, name))
        self.noticed(layers, [name, "which is not in docs/TRUST.md"])

    # ---- exported contracts

    def test_contract_over_another_file(self):
        self.put(INNER, "abbrev pub Promise : Type 0\n")
        self.change("crates/nafelode/src/lib.rt", r"Rattle\.\w+\.specs\.\w+\.\{(?=[A-Z])", "Rattle.zone.specs.Inner.{")
        self.noticed(layers, ["nafelode::", "comes from Rattle.zone.specs.Inner", "which is not in docs/TRUST.md"])

    def test_contract_over_what_the_root_passes_on(self):
        """A name that is spelled like a file of the table is none of that file's."""
        self.change("crates/nafelode/src/lib.rt", r"Rattle\.zone\.specs\.Promise\.\{", "Rattle.zone.specs.{")
        self.noticed(layers, ["nafelode::shrink Promise comes from Rattle.zone.specs.Promise", "which is not in docs/TRUST.md"])

    def test_contract_over_another_library(self):
        for path in ("package.Rattle.zone.specs.Inner", "Rattle.base64.specs.Promise", "Inner"):
            self.change("crates/nafelode/src/lib.rt", r"Rattle\.zone\.specs\.Promise\.\{", f"{path}.{{")
            self.noticed(layers, [f"nafelode::shrink Promise comes from {path}.Promise", "which is not in docs/TRUST.md"])
            self.restore("crates/nafelode/src/lib.rt")

    def test_path_in_a_contract(self):
        self.put(INNER, "abbrev pub Promise : Type 0\n")
        self.change("crates/nafelode_c/src/lib.rt", r"\{ InitPromise", "{ Rattle.zone.specs.Inner.Promise")
        self.noticed(layers, ["nafelode_c::nafelode_initialize", "which is not in docs/TRUST.md"])


if __name__ == "__main__":
    unittest.main()
