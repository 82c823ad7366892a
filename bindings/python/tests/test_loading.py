"""Where the module looks for the library, and what it says where there is none that it can use."""

import os
import shutil
import subprocess
import sys
import tempfile
import unittest
from pathlib import Path

from common import LIBRARY, PYTHON

import sinewhopa


def loaded(folder, library=None):
    """Whether `import sinewhopa` in a folder works, with the environment variable set or not; and what it says."""
    environment = {name: value for name, value in os.environ.items() if name != "SINEWHOPA_LIBRARY"}
    environment["PYTHONPATH"] = str(folder)
    if library is not None:
        environment["SINEWHOPA_LIBRARY"] = str(library)
    command = [sys.executable, "-B", "-c", "import sinewhopa; print(sinewhopa.run(b'', b''), end='')"]
    done = subprocess.run(command, env=environment, cwd=folder, stdout=subprocess.PIPE, stderr=subprocess.PIPE)
    said = (done.stdout or done.stderr).decode().splitlines()
    return done.returncode == 0, said[-1]


class Loading(unittest.TestCase):
    def setUp(self):
        holder = tempfile.TemporaryDirectory()
        self.addCleanup(holder.cleanup)
        self.folder = Path(holder.name)
        shutil.copy(str(PYTHON / "sinewhopa.py"), holder.name)

    def change(self, old, new):
        """Changes a place of the module, in the copy."""
        source = (PYTHON / "sinewhopa.py").read_text()
        self.assertEqual(source.count(old), 1, old)
        (self.folder / "sinewhopa.py").write_text(source.replace(old, new))

    def test_by_the_environment(self):
        self.assertEqual(loaded(self.folder, LIBRARY), (True, "refused 1 at 0"))

    def test_by_a_path_from_the_working_folder(self):
        shutil.copy(str(LIBRARY), str(self.folder / "some.so"))
        self.assertEqual(loaded(self.folder, "some.so"), (True, "refused 1 at 0"))

    def test_beside_the_module(self):
        for name in ("libsinewhopa.so", "libsinewhopa.so.1"):
            shutil.copy(str(LIBRARY), str(self.folder / name))
            self.assertEqual(loaded(self.folder), (True, "refused 1 at 0"))
            (self.folder / name).unlink()

    def test_a_path_without_a_library(self):
        missing = self.folder / "none.so"
        works, said = loaded(self.folder, missing)
        self.assertFalse(works)
        self.assertTrue(said.startswith(f"ImportError: sinewhopa: cannot load {missing}: "), said)

    def test_another_library(self):
        other = self.folder / "other.so"
        subprocess.run(["cc", "-shared", "-o", str(other), "-x", "c", "/dev/null"], check=True)
        works, said = loaded(self.folder, other)
        self.assertFalse(works)
        self.assertTrue(said.startswith(f"ImportError: sinewhopa: {other} has no function sinewhopa_version"), said)

    def test_another_version(self):
        major, minor = sinewhopa.version()
        rows = [(major, minor - 1, True), (major, minor + 1, False), (major - 1, minor, False), (major + 1, 0, False)]
        for needed_major, needed_minor, works in rows:
            self.change(f"_VERSION = ({major}, {minor})", f"_VERSION = ({needed_major}, {needed_minor})")
            got, said = loaded(self.folder, LIBRARY)
            self.assertEqual(got, works, said)
            if not works:
                needs = f"this module needs {needed_major}.{needed_minor} or a later {needed_major}.x"
                self.assertTrue(said.endswith(f" is version {major}.{minor}; {needs}"), said)

    def test_no_library_at_all(self):
        self.change('find_library("sinewhopa")', 'find_library("no_such_library")')
        works, said = loaded(self.folder)
        self.assertFalse(works)
        self.assertTrue(said.startswith("ImportError: sinewhopa: found no libsinewhopa.so. Build it with `make`"), said)


if __name__ == "__main__":
    unittest.main()
