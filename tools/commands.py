#!/usr/bin/env python3
"""Tests zone-run, c-library and examples/make as their users meet them: what they say, and where, and their exit status.

It needs the proved program crates/zone_run/out/zone_run. The wrappers are tried in a folder of their own, with another rt, so that nothing is proved here.
"""
import os
import pathlib
import shutil
import signal
import subprocess
import sys
import tempfile
import unittest

ROOT = pathlib.Path(__file__).resolve().parent.parent
PROVED = ROOT / "crates" / "zone_run" / "out" / "zone_run"
RECORDS = (ROOT / "examples" / "first.records").read_bytes()
LINES = (ROOT / "examples" / "first.expected").read_bytes()
CHUNK = 65536  # the program reads so many bytes before it writes
SECONDS = 60

UNCHANGED = "echo 'rt: nothing has changed since the last proved build, by out/zone_run.stamp, so nothing is checked now' >&2\n"


def proved(*crates):
    """What rt says as it proves crates."""
    return "".join(f"echo 'fn {crate}::call: proved' >&2\necho 'crate {crate}: modules loaded=0 checked=9' >&2\necho 'logic=proved functions=1 sum=0' >&2\n" for crate in crates)


class Trial(unittest.TestCase):
    def setUp(self):
        holder = tempfile.TemporaryDirectory()
        self.addCleanup(holder.cleanup)
        self.place = pathlib.Path(holder.name)
        self.tools = self.place / "tools"
        self.tools.mkdir()
        self.environment = {**os.environ, "PATH": f"{self.tools}{os.pathsep}{os.environ['PATH']}", "LC_ALL": "C"}

    def script(self, path, text):
        path.parent.mkdir(parents=True, exist_ok=True)
        path.write_text("#!/bin/sh\n" + text)
        path.chmod(0o755)

    def only(self, *names):
        """No tool is found but these."""
        for name in names:
            (self.tools / name).symlink_to(shutil.which(name))
        self.environment["PATH"] = str(self.tools)

    def run_it(self, command, *arguments, data=b"", **streams):
        streams = {"stdout": subprocess.PIPE, "input": data, **streams}
        if "stdin" in streams:
            del streams["input"]
        return subprocess.run([command, *arguments], stderr=subprocess.PIPE, env=self.environment, timeout=SECONDS, **streams)

    def says(self, done, status, *words):
        """One line on standard error, with these words."""
        said = done.stderr.decode()
        self.assertEqual((done.returncode, said.count("\n")), (status, 1), said)
        for word in words:
            self.assertIn(word, said)

    def silent(self, done, out):
        self.assertEqual((done.returncode, done.stderr, done.stdout), (0, b"", out))


class ZoneRun(Trial):
    def setUp(self):
        super().setUp()
        self.command = shutil.copy(ROOT / "zone-run", self.place)
        self.program = self.place / "crates" / "zone_run" / "out" / "zone_run"
        self.program.parent.mkdir(parents=True)
        self.program.symlink_to(PROVED)
        (self.place / "tools" / "proved.py").symlink_to(shutil.which("false"))
        self.script(self.tools / "rt", UNCHANGED)

    def instead(self, text):
        """Another program in the proved one's place."""
        self.program.unlink()
        self.script(self.program, text)

    def test_a_line_for_each_record(self):
        self.silent(self.run_it(self.command, data=RECORDS), LINES)
        self.silent(self.run_it(self.command, data=RECORDS + b"\0" * 15), LINES)
        self.silent(self.run_it(self.command), b"")

    def test_every_byte_is_handed_on(self):
        self.instead("exec cat")
        for start in range(0, 256, 16):
            first = bytes(range(start, start + 16))
            for data in (first, b"\0" + first[:6], first + bytes(reversed(range(256))) * 300):
                self.assertEqual(self.run_it(self.command, data=data).stdout, data)

    def test_lines_come_as_records_come(self):
        with subprocess.Popen([self.command], stdin=subprocess.PIPE, stdout=subprocess.PIPE, env=self.environment) as running:
            running.stdin.write(RECORDS * (CHUNK // len(RECORDS)))
            running.stdin.flush()
            self.assertEqual(running.stdout.read(len(LINES)), LINES)  # the input has not ended
            running.communicate(timeout=SECONDS)

    @unittest.skipUnless(os.path.exists("/dev/full"), "no /dev/full")
    def test_full_disk(self):
        for data in (RECORDS, RECORDS * CHUNK):
            with open("/dev/full", "wb") as full:
                self.says(self.run_it(self.command, data=data, stdout=full), 1, "lines are missing", "standard output", "No space left")

    def test_closed_pipe(self):
        for data in (RECORDS, RECORDS * CHUNK):
            read_end, write_end = os.pipe()
            os.close(read_end)
            done = self.run_it(self.command, data=data, stdout=write_end)
            os.close(write_end)
            self.says(done, 1, "lines are missing", "standard output was closed")

    def test_unreadable_input(self):
        folder = os.open(self.place, os.O_RDONLY)
        done = self.run_it(self.command, stdin=folder)
        os.close(folder)
        self.says(done, 1, "lines are missing", "standard input", "Is a directory")

    def test_closed_streams(self):
        for closing, words in (("<&-", "standard input is closed"), (">&-", "standard output is closed")):
            self.says(self.run_it("sh", "-c", f'exec "$0" {closing}', self.command), 1, words)

    def test_program_that_stops(self):
        many = RECORDS * CHUNK
        self.instead("head -c 100000")
        self.says(self.run_it(self.command, data=many), 1, "lines are missing", "stopped before its input ended")
        self.instead("kill -9 $$")
        self.says(self.run_it(self.command, data=many), 1, "lines are missing", f"status {128 + signal.SIGKILL}")

    def test_text_is_warned_of(self):
        text = (ROOT / "examples" / "first.txt").read_bytes()
        done = self.run_it(self.command, data=text)
        self.says(done, 0, "warning", "text", "examples/make")
        self.assertEqual(done.stdout, b"skip\n" * (len(text) // 16))
        self.says(self.run_it(self.command, data=b"0 64 4\n"), 0, "warning")
        for data in (b"\x80" * 16, b"text" * 3 + b"\0\0\0\0", RECORDS + text):
            self.assertEqual(self.run_it(self.command, data=data).stderr, b"")

    def test_arguments(self):
        self.says(self.run_it(self.command, "examples/first.records"), 2, "standard input", "--help")
        self.only("bash", "cat")  # help asks for no toolchain
        done = self.run_it(self.command, "--help")
        self.assertEqual((done.returncode, done.stderr), (0, b""))
        self.assertIn(b"usage: ./zone-run < RECORDS", done.stdout)

    def test_no_toolchain(self):
        (self.tools / "rt").unlink()
        self.only("bash")
        self.says(self.run_it(self.command, data=RECORDS), 1, "missing: rt")

    def test_crates_are_shown_as_they_are_proved(self):
        seen, unseen = self.place / "seen", self.place / "unseen"
        wait = f"for i in {'. ' * 100}; do [ -e '{seen}' ] && break; sleep 0.1; done\n[ -e '{seen}' ] || : >'{unseen}'\n"  # not for ever
        self.script(self.tools / "rt", f"{proved('memory', 'zone')}{wait}{proved('zone_run')}")
        with subprocess.Popen([self.command], stdin=subprocess.PIPE, stdout=subprocess.PIPE, stderr=subprocess.PIPE, env=self.environment) as running:
            self.assertEqual([running.stderr.readline() for _ in range(2)], [b"zone-run: memory is proved\n", b"zone-run: zone is proved\n"])
            seen.touch()
            out, said = running.communicate(RECORDS, timeout=SECONDS)
        self.assertEqual((out, said, unseen.exists()), (LINES, b"zone-run: zone_run is proved\n", False))

    def test_what_the_gate_proved_is_not_proved_again(self):
        (self.place / "tools" / "proved.py").unlink()
        self.script(self.place / "tools" / "proved.py", f"[ \"$*\" = zone_run ] && [ \"$PWD\" = '{self.place}' ]\n")
        self.script(self.tools / "rt", "echo 'rt was asked' >&2\nexit 1\n")
        self.silent(self.run_it(self.command, data=RECORDS), LINES)

    def test_it_is_built_where_the_program_stands(self):
        self.script(self.tools / "rt", f"[ \"$*\" = run ] && [ \"$PWD\" = '{self.program.parent.parent}' ] && [ -z \"$(cat)\" ]\n")
        self.silent(self.run_it(self.command, data=RECORDS), LINES)

    def test_not_proved(self):
        self.script(self.tools / "rt", f"{proved('memory')}echo 'fn zone::call: not proved'\necho 'rt: the library zone did not build' >&2\nexit 1\n")
        done = self.run_it(self.command, data=RECORDS)
        self.assertEqual((done.returncode, done.stdout), (1, b""))
        for words in (b"fn zone::call: not proved\n", b"rt: the library zone did not build\n", b"zone-run: memory is proved\n"):
            self.assertEqual(done.stderr.count(words), 1)


class CLibrary(Trial):
    def test_missing_tools(self):
        command = shutil.copy(ROOT / "c-library", self.place)
        old = self.place / "dist" / "libnafelode.a"
        old.parent.mkdir()
        old.write_bytes(b"")
        self.only("bash")
        self.says(self.run_it(command), 1, "missing: rt")
        self.script(self.tools / "rt", "echo 'rt was asked'")
        self.says(self.run_it(command), 1, "missing: python3")
        self.assertTrue(old.exists())  # nothing was tried


class Make(Trial):
    command = ROOT / "examples" / "make"

    def test_typing_errors(self):
        for line, words in ((b"1 six", "a is 'six'"), (b"I 6", "the code is 'I'"), (b"256", "255 is the largest"), (b"5 16 4294967296", "4294967295 is the largest"),
                            (b"1 -4", "a is '-4'"), (b"7 16 0 0 0", "5 words"), (b"x 123", "hexadecimal"), (b"x 0G", "hexadecimal"), (b"\xff", "the code is")):
            done = self.run_it(self.command, data=b"0 64 4\n\n" + line + b"\n1 6\n")
            self.says(done, 1, "line 3: ", words)
            self.assertEqual(done.stdout, b"")

    def test_each_line_is_named(self):
        said = self.run_it(self.command, data=b"one\n2 0\nthree").stderr.decode()
        self.assertEqual([line.split(": ")[1] for line in said.splitlines()], ["line 1", "line 3"])

    def test_records(self):
        self.silent(self.run_it(self.command, data=b"255 4294967295 0 7 # all\nx 0A 0b0C\n00000000001 6"),
                    bytes.fromhex("FF000000 FFFFFFFF 00000000 00000007 0A0B0C 01000000 00000006 00000000 00000000"))

    def test_arguments(self):
        self.says(self.run_it(self.command, "first.txt"), 2, "usage")

    @unittest.skipUnless(os.path.exists("/dev/full"), "no /dev/full")
    def test_full_disk(self):
        with open("/dev/full", "wb") as full:
            self.says(self.run_it(self.command, data=b"0 64 4\n", stdout=full), 1, "No space left")


if __name__ == "__main__":
    if not PROVED.is_file():
        sys.exit("tools/commands.py: crates/zone_run/out/zone_run is not there: ./zone-run proves and builds it")
    unittest.main()
