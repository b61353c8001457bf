"""Tests of tools/links.py: a page that relies on what a clone lacks is noticed."""
import pathlib
import tempfile
import unittest

import links

TREE = {
    ".gitignore": "dist/\n",
    "README.md": "# Top\n\n[zone](docs/ZONE.md), [deeper](docs/DEEP.md#two-words)\n",
    "docs/ZONE.md": "# The zone\n\nWhat document 01 says.\n",
    "docs/DEEP.md": "# Deep\n\n## Two words\n\n`tools/do.py`, `docs/DEEP`, `tools/*.py`, `dist/made`\n\n    tools/do.py NAME\n    cc -o made tools/do.py && ./made\n",
    "inner/README.md": "Of document 02. `./own`\n",
    "inner/own": "",
    "tools/do.py": "",
}


class Links(unittest.TestCase):
    def setUp(self):
        folder = tempfile.TemporaryDirectory()
        self.addCleanup(folder.cleanup)
        self.root = pathlib.Path(folder.name)
        for name, text in TREE.items():
            self.put(name, text)

    def put(self, name, text):
        (self.root / name).parent.mkdir(exist_ok=True)
        (self.root / name).write_text(text, encoding="utf-8")

    def noticed(self, text, words, page="docs/DEEP.md"):
        """With this at its end the page has one fault, which has these words."""
        self.put(page, TREE[page] + f"\n{text}\n")
        found = links.faults(self.root)
        self.assertTrue(len(found) == 1 and all(word in found[0] for word in (page, *words)), f"{text}: {found}")
        self.put(page, TREE[page])

    def test_tree_as_it_is(self):
        self.assertEqual(links.faults(self.root), [])

    def test_links(self):
        for link in ("GONE.md", "../gone", "/etc/passwd", "../..", "https://example.org/x.md"):
            self.noticed(f"[x]({link})", ["no file of the tree", link])

    def test_link_to_a_product(self):
        self.put("dist/made", "")
        self.noticed("[x](../dist/made)", ["no file of the tree", "dist/made"])

    def test_headings(self):
        self.noticed("[x](#three-words)", ["no such heading"])
        self.noticed("[x](ZONE.md#two-words)", ["no such heading"])
        self.put("docs/DEEP.md", TREE["docs/DEEP.md"] + "[x](#two-words), [y](ZONE.md#the-zone)\n")
        self.assertEqual(links.faults(self.root), [])

    def test_paths(self):
        self.noticed("`tools/gone.py --check`", ["tools/gone.py"])
        self.noticed("    docs/gone ARCHIVE", ["docs/gone"])
        self.noticed("    ./gone", ["./gone"])
        self.noticed("`tools/gone*.py`", ["tools/gone"])

    def test_papers(self):
        self.noticed("As document 01 says.", ["cites the papers"])
        self.put("docs/DEEP.md", TREE["docs/DEEP.md"] + "As document 01 says: [x](ZONE.md).\n")
        self.assertEqual(links.faults(self.root), [])

    def test_papers_on_the_first_page(self):
        self.put("README.md", "# Top\n\n[deeper](docs/DEEP.md), document 02\n")
        self.assertEqual(links.faults(self.root), ["README.md: cites the papers and does not link to docs/ZONE.md"])


if __name__ == "__main__":
    unittest.main()
