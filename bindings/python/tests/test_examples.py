"""The repository's examples: each folder as a whole list and call by call, the chapel of examples/, and README.md."""

import contextlib
import io
import os
import subprocess
import sys
import unittest

from common import PYTHON, ROOT

import sinewhopa
from sinewhopa import CallFault, SheetFault, State

EXAMPLES = sorted(path.parent for path in (ROOT / "examples").rglob("sheet.bin"))


def made(state, calls):
    """Makes the calls of a list, as the runner does. Gives how many were turned down."""
    refused = 0
    while calls:
        kind, number = calls[0], calls[1:2]
        length = 1 if kind == 18 else 2
        if kind not in (16, 17, 18) or len(calls) < length:
            return refused + 1
        try:
            if kind == 16:
                state.submit(number[0])
            elif kind == 17:
                state.close_step(number[0])
            else:
                state.finish()
        except CallFault:
            refused += 1
        calls = calls[length:]
    return refused


class Examples(unittest.TestCase):
    def test_there_are_examples(self):
        self.assertGreaterEqual(len(EXAMPLES), 19)

    def test_as_a_list(self):
        for folder in EXAMPLES:
            with self.subTest(folder=folder.name):
                report = sinewhopa.run((folder / "sheet.bin").read_bytes(), (folder / "calls.bin").read_bytes())
                self.assertEqual(report, (folder / "stdout").read_text())

    def test_call_by_call(self):
        for folder in EXAMPLES:
            with self.subTest(folder=folder.name):
                try:
                    state = State.open((folder / "sheet.bin").read_bytes())
                    report = state.report(made(state, (folder / "calls.bin").read_bytes()))
                except SheetFault as fault:
                    report = f"refused {fault.number} at {fault.offset}\n"
                self.assertEqual(report, (folder / "stdout").read_text())

    def test_bad_lists(self):
        sheet = bytes([1, 0, 6, 5])
        for calls in (b"\x10", b"\x11", b"\x13\0", b"\x12\x12", b"\x10\0\x10", b"\x10\1\x11\0\x11\0\x12", b"\0"):
            state = State.open(sheet)
            self.assertEqual(state.report(made(state, calls)), sinewhopa.run(sheet, calls))

    def test_the_chapel(self):
        command = [sys.executable, "-B", str(PYTHON / "examples/chapel.py")]
        environment = {**os.environ, "PYTHONPATH": str(PYTHON)}
        told = subprocess.run(command, env=environment, stdout=subprocess.PIPE, check=True).stdout
        self.assertEqual(told, (ROOT / "examples/chapel/stdout").read_bytes())

    def test_the_journal(self):
        command = [sys.executable, "-B", str(PYTHON / "examples/journal.py")]
        environment = {**os.environ, "PYTHONPATH": str(PYTHON)}
        told = subprocess.run(command, env=environment, stdout=subprocess.PIPE, check=True).stdout
        self.assertEqual(told, (ROOT / "examples/journal/stdout").read_bytes())

    def test_the_readme(self):
        text = (PYTHON / "README.md").read_text().partition("\n## ")[0]
        code = "\n".join(line[4:] for line in text.splitlines() if line.startswith("    "))
        out = io.StringIO()
        with contextlib.redirect_stdout(out):
            exec(compile(code, "README.md", "exec"), {})
        told = "held\ndone\n0 done, 1 done\n0 done\n1 done\n9 no such event, or a step without events\n"
        self.assertEqual(out.getvalue(), told)


if __name__ == "__main__":
    unittest.main()
