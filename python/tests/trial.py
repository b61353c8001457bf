"""A command run as a program, with its own folder for files."""

import os
import subprocess
import sys
import tempfile
import unittest
from typing import Optional

import support


class Trial(unittest.TestCase):
    command = support.COMMAND

    def setUp(self) -> None:
        holder = tempfile.TemporaryDirectory()
        self.addCleanup(holder.cleanup)
        self.place = holder.name

    def file(self, name: str, data: bytes) -> str:
        path = os.path.join(self.place, name)
        with open(path, "wb") as stream:
            stream.write(data)
        return path

    def run_it(self, *arguments: str, data: Optional[bytes] = None):
        return subprocess.run([sys.executable, self.command, *arguments],
                              input=data, stdout=subprocess.PIPE,
                              stderr=subprocess.PIPE, timeout=60,
                              cwd=self.place)

    def prints(self, done, status: int = 0) -> str:
        """What is printed where nothing is wrong."""
        self.assertEqual((done.returncode, done.stderr), (status, b""))
        return done.stdout.decode("ascii")

    def fails(self, done, *words: str, status: int = 1,
              lines: int = 1) -> None:
        """Nothing is printed; so many lines on standard error have these."""
        self.assertEqual(done.stdout, b"")
        self.complains(done, *words, status=status, lines=lines)

    def complains(self, done, *words: str, status: int = 1,
                  lines: int = 1) -> None:
        message = done.stderr.decode()
        self.assertEqual(done.returncode, status, message)
        self.assertNotIn("Traceback", message)
        self.assertEqual(message.count("\n"), lines, message)
        for word in words:
            self.assertIn(word, message)

    def without_output(self, *arguments: str):
        """Run where the reader of standard output has gone."""
        read_end, write_end = os.pipe()
        os.close(read_end)
        try:
            return subprocess.run([sys.executable, self.command, *arguments],
                                  stdout=write_end, stderr=subprocess.PIPE,
                                  timeout=60)
        finally:
            os.close(write_end)

    def with_full_output(self, *arguments: str):
        with open("/dev/full", "wb") as full:
            return subprocess.run([sys.executable, self.command, *arguments],
                                  stdout=full, stderr=subprocess.PIPE,
                                  timeout=60)
