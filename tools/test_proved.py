"""Tests of tools/proved.py: what rt ci built counts as long as the texts, the toolchain and what lies there are the same, and no longer."""
import os
import pathlib
import tempfile
import unittest
from unittest import mock

import proved

LIST = "# a comment\nlow:\nmiddle: low std  # why\napp: middle\nffi staticlib: middle low\nother:\n"


class Proved(unittest.TestCase):
    def setUp(self):
        holder = tempfile.TemporaryDirectory()
        self.addCleanup(holder.cleanup)
        self.root = pathlib.Path(holder.name) / "tree"
        self.tools = pathlib.Path(holder.name) / "tools"
        self.tools.mkdir()
        self.toolchain("kit logic 0123")
        environment = mock.patch.dict(os.environ, {"PATH": f"{self.tools}{os.pathsep}{os.environ['PATH']}"})
        environment.start()
        self.addCleanup(environment.stop)
        self.put("crates.txt", LIST)
        for name in ("low", "middle", "app", "ffi", "other"):
            self.put(f"crates/{name}/src/{'main' if name == 'app' else 'lib'}.rt", f"// {name}\n")
        self.put("crates/low/proofs/deep/Laws.antt", "-- a law\n")
        self.ci()

    def toolchain(self, said):
        (self.tools / "rt").write_text(f"#!/bin/sh\necho '{said}'\n")
        (self.tools / "rt").chmod(0o755)

    def put(self, name, text):
        path = self.root / name
        path.parent.mkdir(parents=True, exist_ok=True)
        path.write_text(text, encoding="utf-8")

    def texts(self):
        return proved.summed(self.root, proved.crates(self.root))

    def ci(self):
        """What rt ci leaves, and the gate's note."""
        for name in ("low", "middle", "other"):
            self.put(f"crates/{name}/out/rlib/{name}.rlib/format", f"library {name}\n")
        self.put("crates/app/out/app", "program\n")
        self.assertIsNone(proved.note(self.root, self.texts()))

    def found(self):
        return [proved.is_proved(self.root, name) for name in ("app", "ffi")]

    def test_order(self):
        known = proved.crates(self.root)
        self.assertEqual((known["ffi"], known["middle"]), ((True, ["middle", "low"]), (False, ["low", "std"])))
        self.assertEqual((proved.below(known, "app"), proved.below(known, "ffi"), proved.below(known, "low")), (["low", "middle"], ["low", "middle"], []))

    def test_as_it_was_built(self):
        self.assertEqual(self.found(), [True, True])
        self.put("crates/other/src/lib.rt", "// changed\n")  # nothing here stands on it
        self.put("crates/app/stdin", "words\n")
        self.assertEqual(self.found(), [True, True])

    def test_text_that_changed(self):
        self.put("crates/app/src/main.rt", "// changed\n")
        self.assertEqual(self.found(), [False, True])
        for name, text in (("crates/low/proofs/deep/Laws.antt", "-- another law\n"), ("crates/low/specs/New.antt", "\n"), ("crates.txt", LIST + "more:\n"), ("HANDLES", "Handles allowed: Wait.\n")):
            self.setUp()
            self.put(name, text)
            self.assertEqual(self.found(), [False, False], name)

    def test_text_that_is_gone(self):
        (self.root / "crates/low/proofs/deep/Laws.antt").unlink()
        self.assertEqual(self.found(), [False, False])

    def test_another_toolchain(self):
        self.toolchain("kit logic 4567")
        self.assertEqual(self.found(), [False, False])

    def test_another_build(self):
        self.put("crates/app/out/app", "another program\n")
        self.put("crates/low/out/rlib/low.rlib/format", "another library\n")
        self.assertEqual(self.found(), [False, False])

    def test_no_build(self):
        (self.root / "crates/app/out/app").unlink()
        (self.root / "crates/middle/out/rlib/middle.rlib/format").unlink()
        self.assertEqual(self.found(), [False, False])

    def test_library_of_another_command(self):
        self.put("crates/low/out/rlib/stamp", "of rt check\n")
        self.assertEqual(self.found(), [True, False])
        self.ci()  # put back after rt ci
        self.assertEqual(self.found(), [True, False])

    def test_change_while_rt_ci_ran(self):
        texts = self.texts()
        self.put("crates/other/src/lib.rt", "// changed\n")
        for name in ("app", "ffi"):
            (self.root / "crates" / name / proved.NOTE).unlink()
        self.assertIn("changed while", proved.note(self.root, texts))
        self.assertEqual(self.found(), [False, False])

    def test_no_note(self):
        (self.root / "crates/app" / proved.NOTE).unlink()
        self.assertEqual(self.found(), [False, True])


if __name__ == "__main__":
    unittest.main()
