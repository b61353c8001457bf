"""Finds the package and the commands from wherever the tests are run."""

import os
import sys

PYTHON = os.path.dirname(os.path.dirname(os.path.abspath(__file__)))
ROOT = os.path.dirname(PYTHON)
COMMAND = os.path.join(ROOT, "zone-print")
DIFF = os.path.join(ROOT, "zone-diff")
EXAMPLES = os.path.join(ROOT, "examples")

if PYTHON not in sys.path:
    sys.path.insert(0, PYTHON)

# The rig sheet's row R1.
R1 = bytes.fromhex(
    "00000040 00000020 00000004 00100000 00000014 00000018 0000001C 00000000"
    "00000010") + bytes(28)
