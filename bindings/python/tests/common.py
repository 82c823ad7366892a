"""What the tests share: the module and its library, the repository's files, and sheets."""

import os
import sys
from pathlib import Path

PYTHON = Path(__file__).resolve().parent.parent
ROOT = PYTHON.parent.parent
LIBRARY = Path(os.environ.get("SINEWHOPA_LIBRARY") or ROOT / "target/shared/libsinewhopa.so").absolute()
os.environ["SINEWHOPA_LIBRARY"] = str(LIBRARY)
sys.path.insert(0, str(PYTHON))

HEADER = (ROOT / "include/sinewhopa.h").read_text()

# Case A: events 0 and 1 can wait and can be refused; 0 before 1, and 0 only if 1.
CASE_A = bytes([1, 0, 6, 1, 1, 6, 2, 0, 1, 3, 0, 1, 5])
# 0 only if 1, which may be brought about. Neither can be refused.
FORCES = bytes([1, 0, 1, 1, 1, 1, 3, 0, 1, 5])
# An event with a window: from 870 until 900.
CHAPEL = bytes([1, 0, 6, 7, 0, 102, 3, 0, 0, 132, 3, 0, 0, 5])
# Two events that wait for each other.
CIRCLE = bytes([1, 0, 6, 1, 0, 6, 2, 0, 1, 2, 1, 0, 5])
# Of every kind: five events, an order, a need, a conditional and a window.
EVERY_KIND = bytes([6, 0, 1, 7, 6, 2, 1, 2, 3, 4, 2, 4, 0, 2, 3, 7, 4, 1, 0, 0, 0, 0, 0, 0, 1, 5])
