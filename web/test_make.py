"""Tests of the page's maker: the page is whole, calls every function of the library, names its version, and needs no network."""
import base64
import hashlib
import importlib.machinery
import importlib.util
import json
import pathlib
import re
import subprocess
import sys
import tempfile
import unittest

ROOT = pathlib.Path(__file__).resolve().parent.parent
WEB = ROOT / "web"


def maker():
    loader = importlib.machinery.SourceFileLoader("web_make", str(WEB / "make"))
    module = importlib.util.module_from_spec(importlib.util.spec_from_loader("web_make", loader))
    sys.dont_write_bytecode = True
    loader.exec_module(module)
    return module


MAKE = maker()
MODULE = b"\0asm, stood in for\xff"  # the maker looks at no byte of it
PAGE = MAKE.page(MODULE, "back end <of a test>")
SOURCES = {path.name: path.read_text(encoding="utf-8") for path in sorted(WEB.glob("*.js"))}


def data():
    return json.loads(re.search(r'<script type="application/json" id="data">\n(.*?)\n</script>', PAGE, re.S)[1])


class Page(unittest.TestCase):
    def test_it_needs_no_network(self):
        self.assertEqual(re.findall(r"(?:https?|wss?|ftp)://[^\s\"'<>]*", PAGE), [])
        self.assertEqual(re.findall(r"""(?:src|href)\s*=\s*["'](?!#|data:)[^"']*""", PAGE), [])
        self.assertNotRegex(PAGE, r"\b(?:fetch|XMLHttpRequest|WebSocket|EventSource|importScripts|sendBeacon)\b")
        self.assertRegex(PAGE, "default-src 'none'")

    def test_no_mark_is_left(self):
        self.assertEqual(re.findall(r"@[A-Z_]+@", PAGE), [])

    def test_version_digest_and_back_end_are_named(self):
        version = (ROOT / "VERSION").read_text(encoding="utf-8").strip()
        self.assertIn(f"<title>Nafelode {version}:", PAGE)
        self.assertEqual(data()["version"], version)
        self.assertIn(hashlib.sha256(MODULE).hexdigest(), PAGE)
        self.assertIn("back end &lt;of a test&gt;", PAGE)

    def test_the_module_is_inside(self):
        self.assertEqual(base64.b64decode(data()["module"]), MODULE)
        self.assertEqual(data()["digest"], hashlib.sha256(MODULE).hexdigest())

    def test_every_file_of_vectors_is_inside(self):
        inside = {file["name"]: file["text"] for file in data()["files"]}
        self.assertEqual(inside, {path.name: path.read_text(encoding="utf-8") for path in (ROOT / "vectors").glob("*.txt")})

    def test_calls_with_their_answers_are_the_calls(self):
        """The page plays the .txt files: without what is told they have the calls of the .calls files."""
        told = re.compile(r"^(?:answer|view|walker|second|zone) .*\n|^# written by .*\n", re.M)
        for path in (ROOT / "vectors").glob("*.calls"):
            steps = lambda text: [line for line in text.splitlines() if line and not line.startswith("#")]
            self.assertEqual(steps(told.sub("", path.with_suffix(".txt").read_text(encoding="utf-8"))), steps(path.read_text(encoding="utf-8")), path.name)

    def test_data_cannot_end_its_element(self):
        self.assertNotIn("<", re.search(r'id="data">\n(.*?)\n</script>', PAGE, re.S)[1])


class Sources(unittest.TestCase):
    def functions(self):
        source = (ROOT / "crates" / "nafelode_c" / "src" / "lib.rt").read_text(encoding="utf-8")
        return re.findall(r'pub extern "C" fn (nafelode_\w+)', source)

    def test_every_function_is_called_and_no_other(self):
        self.assertEqual(sorted(set(re.findall(r"\bnafelode_\w+(?=[\"(])", SOURCES["library.js"]))), sorted(self.functions()))

    def test_every_function_is_a_call_with_a_form(self):
        names = re.findall(r"^  (\w+): \{ args:", SOURCES["calls.js"], re.M)
        self.assertEqual(sorted(f"nafelode_{name}" for name in names), sorted(self.functions()))

    def test_one_file_knows_the_module(self):
        others = [name for name, text in SOURCES.items() if name != "library.js" and re.search(r"WebAssembly\.instantiate|\.memory\b|BigInt|__heap_base", text)]
        self.assertEqual(others, [])

    def test_every_script_is_in_the_page(self):
        self.assertEqual(sorted(f"{name}.js" for name in MAKE.SCRIPTS), sorted(SOURCES))

    def test_nothing_is_read_as_markup(self):
        for name, text in SOURCES.items():
            self.assertNotRegex(text, r"innerHTML|outerHTML|insertAdjacentHTML|document\.write|\beval\(|new Function|DOMParser|srcdoc", name)

    def test_refusals_are_all_told(self):
        numbers = {int(number) for number in data()["causes"]}
        self.assertEqual(numbers, set(range(1, 15)))
        self.assertEqual({int(number) for number in re.findall(r"(\d+): \"", SOURCES["calls.js"][SOURCES["calls.js"].index("SHORT_CAUSES"):])}, numbers)

    def test_each_call_has_its_sentence(self):
        self.assertEqual(sorted(data()["calls"]), sorted(name.removeprefix("nafelode_") for name in self.functions()))

    def test_parts_that_the_scripts_look_for_are_in_the_skeleton(self):
        skeleton = (WEB / "page.html").read_text(encoding="utf-8")
        wanted = set(re.findall(r"(?:byId|setText)\(\"([\w-]+)\"", "".join(SOURCES.values())))
        self.assertEqual(sorted(name for name in wanted if f'id="{name}"' not in skeleton), [])


class Command(unittest.TestCase):
    def run_make(self, *words):
        return subprocess.run([sys.executable, str(WEB / "make"), *words], stdout=subprocess.PIPE, stderr=subprocess.PIPE, text=True, check=False)

    def test_without_a_module_it_says_how_to_make_one(self):
        with tempfile.TemporaryDirectory() as folder:
            done = self.run_make(folder)
            self.assertEqual(done.returncode, 1)
            self.assertIn("./c-library --target wasm32", done.stderr)
            self.assertNotIn("Traceback", done.stderr)

    def test_it_writes_the_page(self):
        with tempfile.TemporaryDirectory() as folder:
            pathlib.Path(folder, "nafelode.wasm").write_bytes(MODULE)
            pathlib.Path(folder, "BACKEND").write_text("back end <of a test>\n", encoding="utf-8")
            done = self.run_make(folder, f"{folder}/page.html")
            self.assertEqual(done.returncode, 0, done.stderr)
            self.assertEqual(pathlib.Path(folder, "page.html").read_text(encoding="utf-8"), PAGE)


if __name__ == "__main__":
    unittest.main()
