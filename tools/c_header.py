"""The header for C as c/header.py makes it: its functions, and the constants of refusals."""
import re
import subprocess
import sys

SOURCE = "crates/nafelode_c/src/lib.rt"


def text(root):
    return subprocess.run([sys.executable, root / "c/header.py", root / SOURCE], check=True, capture_output=True, text=True).stdout


def functions(said):
    """The functions without their prefix, each with its arguments: no zone, no length of a lent buffer, and no variable that is written, but for the walker, which
    is read too."""
    found = {}
    for name, arguments in re.findall(r"^\w+ nafelode_(\w+)\(([^)]*)\);", said, re.M):
        given = [re.fullmatch(r"((?:const )?\w+ \*?)(\w+)((?:\[\w+\])?)", argument).groups() for argument in " ".join(arguments.split()).split(", ")]
        lengths = {f"{word}_length" for _, word, _ in given}
        values = {word for kind, word, array in given if kind == "uint32_t *" or array} - {"walker"}
        found[name] = [word for _, word, _ in given if word != "zone" and word not in lengths | values]
    return found


def constants(said):
    """The refusals' numbers, each with its constant."""
    numbers = said[said.index("#define NAFELODE_DONE"):].split("\n\n")[0]
    return {int(number): name for name, number in re.findall(r"^#define (\w+) (\d+)u", numbers, re.M) if number != "0"}


def version(said):
    found = re.search(r'^#define NAFELODE_VERSION "(.*)"$', said, re.M)
    return found and found[1]
