"""What the library answers: lists of calls, run by the program that writes the vectors."""
import pathlib
import re
import subprocess

import c_header


def spelt(word):
    """The bytes that a word of the vectors spells."""
    return bytes.fromhex(re.sub(r"(..)\*(\d+)\.", lambda run: run[1] * int(run[2]), word))


def writer(root, archive, folder):
    """A function that runs a list of calls, whose first line is the buffer, and gives what each answers and the bytes after the last change."""
    program = pathlib.Path(folder) / "write"
    (pathlib.Path(folder) / "nafelode.h").write_text(c_header.text(root), encoding="utf-8")
    subprocess.run(["cc", "-std=c99", "-O1", f"-I{folder}", "-o", program, root / "vectors/write.c", archive], check=True)
    first = (root / "vectors/rig.calls").read_text(encoding="ascii").split("\n")[0]

    def run(calls):
        text = "\n".join([first, "list page", calls[0], *(f"call {call}" for call in calls[1:])]) + "\n"
        lines = subprocess.run([program], input=text, check=True, capture_output=True, text=True).stdout.splitlines()
        zones = [line for line in lines if line.startswith("zone ") and line != "zone same"]
        return [line.partition(" ")[2] for line in lines if line.startswith("answer ")], spelt(zones[-1].partition(" ")[2])

    return run
