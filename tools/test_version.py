"""Tests of tools/version.py: a version or a toolchain that one place names and another does not is noticed."""
import unittest

import version
from trial import Trial

KIT = "kit-of-a-name logic 0123456789abcdef"


class Version(Trial):
    files = ["VERSION", "README.md", "docs/LANDINGS.md", "c/header.py", "c/header.txt", "vectors/rig.txt"]

    def found(self):
        return [*version.version_faults(self.root), *version.row_faults(self.root)]

    def noticed_by(self, words, count=1):
        found = self.found()
        self.assertEqual(len(found), count, found)
        self.assertTrue(all(word in " ".join(found) for word in words), found)

    def test_tree_as_it_is(self):
        self.assertEqual(self.found(), [])

    def test_file(self):
        self.put("VERSION", "9.9.9\n")
        self.noticed_by(["docs/LANDINGS.md", "vectors/rig.txt", "9.9.9"], count=2)
        self.put("VERSION", version.read(self.root, "VERSION").strip() + "\n\n")
        self.assertTrue(any("three numbers" in fault for fault in self.found()))

    def test_header(self):
        self.change("c/header.py", r"#define NAFELODE_VERSION ", "#define NAFELODE_RELEASE ")
        self.noticed_by(["header", "None"])

    def test_header_of_another(self):
        self.change("c/header.py", r'read\("\.\.", "VERSION"\)\.strip\(\)', '"1.0.0"')
        self.noticed_by(["header", "1.0.0"])

    def test_vectors(self):
        self.change("vectors/rig.txt", r"^# written by Nafelode .*$", "# written by Nafelode 1.0.0")
        self.noticed_by(["vectors/rig.txt"])

    def test_rows(self):
        self.change("docs/LANDINGS.md", r"^\| 1\.4\.0 \| U4:", "| 1.4.0 | U5:")
        self.noticed_by(["1.4.0", "U5"])
        self.restore("docs/LANDINGS.md")
        self.change("docs/LANDINGS.md", r"^\| 1\.1\.0 \|", "| 1.3.0 |")
        self.noticed_by(["fall", "U1"], count=2)

    def toolchain(self, readme, said):
        self.put("README.md", readme)
        return [len(list(found)) for found in (version.toolchain_faults(self.root), version.another_toolchain(self.root, said))]

    def test_toolchain(self):
        self.assertEqual(self.toolchain(f"Proved with\n\n    {KIT}\n", f"{KIT}\n"), [0, 0])
        self.assertEqual(self.toolchain(f"    {KIT}\n", f"{KIT.replace('name', 'another')}\n"), [0, 0])
        self.assertEqual(self.toolchain(f"    {KIT}\n", f"{KIT.replace('0123', '1123')}\n"), [0, 1])
        self.assertEqual(self.toolchain(f"    {KIT}\n    {KIT}\n", f"{KIT}\n"), [1, 0])
        self.assertEqual(self.toolchain("Proved with something\n", f"{KIT}\n"), [1, 1])


if __name__ == "__main__":
    unittest.main()
