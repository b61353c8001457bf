"""A copy of the files that tools/seals.py and tools/layers.py read, on which a test tries a change."""
import pathlib
import re
import shutil
import tempfile
import unittest

import sources

ROOT = pathlib.Path(__file__).resolve().parent.parent
COPIED = ["crates/*/specs/**/*.antt", "crates/*/src/**/*.rt", "docs/TRUST.md", "tools/*.txt"]


class Trial(unittest.TestCase):
    """Each test starts from the tree as it is."""

    # further files to copy
    files = []

    @classmethod
    def setUpClass(cls):
        folder = tempfile.TemporaryDirectory()
        cls.addClassCleanup(folder.cleanup)
        cls.root = pathlib.Path(folder.name)
        cls.touched = set()
        names = [path.relative_to(ROOT).as_posix() for glob in COPIED for path in ROOT.glob(glob)]
        for name in [*names, *cls.files]:
            (cls.root / name).parent.mkdir(parents=True, exist_ok=True)
            shutil.copyfile(ROOT / name, cls.root / name)

    def tearDown(self):
        for name in list(self.touched):
            self.restore(name)

    def put(self, name, text):
        path = self.root / name
        path.parent.mkdir(parents=True, exist_ok=True)
        path.write_text(text, encoding="utf-8")
        self.touched.add(name)

    def drop(self, name):
        (self.root / name).unlink()
        self.touched.add(name)

    def restore(self, name):
        """A file as it is in the tree; none where there is none."""
        if (ROOT / name).is_file():
            shutil.copyfile(ROOT / name, self.root / name)
        else:
            (self.root / name).unlink()
        self.touched.discard(name)

    def change(self, name, pattern, new, count=1):
        """Replaces what a pattern matches, which must be there."""
        text, changes = re.subn(pattern, lambda _: new, sources.read(self.root, name), count=count, flags=re.M)
        self.assertTrue(changes, f"{name} has no {pattern}")
        self.put(name, text)

    def noticed(self, tool, words):
        """A tool finds a fault that has these words."""
        found = tool.faults(self.root)
        self.assertTrue(any(all(word in fault for word in words) for fault in found), f"no fault has {words}: {found}")

    def commented(self, name):
        """A file with more comments and blank lines."""
        mark = "--" if name.endswith(".antt") else "//"
        self.put(name, f'{mark} a comment, on "Rattle.zone.proofs.Run"\n\n' + sources.read(self.root, name).replace("\n\n", f"\n\n{mark} another\n\n"))
