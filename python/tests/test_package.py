"""The package as it is installed: its version, its commands, what it needs."""

import importlib
import os
import re
import subprocess
import sys
import unittest

import support
import nafelode


def project() -> str:
    path = os.path.join(support.PYTHON, "pyproject.toml")
    with open(path, encoding="utf-8") as stream:
        return stream.read()


class Package(unittest.TestCase):
    def test_version(self) -> None:
        with open(os.path.join(support.ROOT, "VERSION"),
                  encoding="ascii") as stream:
            self.assertEqual(nafelode.__version__ + "\n", stream.read())
        self.assertIn('version = { attr = "nafelode.__version__" }', project())
        for command in (support.COMMAND, support.DIFF):
            told = subprocess.run([sys.executable, command, "--version"],
                                  stdout=subprocess.PIPE, timeout=60)
            self.assertEqual(told.stdout.decode().split(),
                             [os.path.basename(command), nafelode.__version__])

    def test_commands(self) -> None:
        scripts = re.findall(r'^([a-z-]+) = "([a-z_.]+):([a-z_]+)"$',
                             project(), re.M)
        self.assertEqual([name for name, _, _ in scripts],
                         [os.path.basename(support.COMMAND),
                          os.path.basename(support.DIFF)])
        for name, module, function in scripts:
            self.assertTrue(callable(getattr(importlib.import_module(module),
                                             function)))
            with open(os.path.join(support.ROOT, name),
                      encoding="utf-8") as stream:
                self.assertIn(f"from {module} import {function}",
                              stream.read())

    def test_every_module_by_the_standard_library_alone(self) -> None:
        self.assertIn("\ndependencies = []\n", project())
        folder = os.path.join(support.PYTHON, "nafelode")
        modules = sorted(f"nafelode.{name[:-3]}" for name in os.listdir(folder)
                         if name.endswith(".py") and not name.startswith("__"))
        # -S: nothing that was installed is found
        script = (f"import sys; sys.path.insert(0, {support.PYTHON!r}); "
                  f"import {', '.join(modules)}")
        done = subprocess.run([sys.executable, "-I", "-S", "-c", script],
                              stderr=subprocess.PIPE, timeout=60)
        self.assertEqual((done.returncode, done.stderr), (0, b""))

    def test_all_names_are_there(self) -> None:
        for name in nafelode.__all__:
            self.assertTrue(hasattr(nafelode, name), name)


if __name__ == "__main__":
    unittest.main()
