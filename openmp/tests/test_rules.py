"""The rules of the recorder's Python: style, that no program reaches into another's path, and one version."""

import glob
import os
import shutil
import subprocess
import tempfile
import unittest

from support import FOLDER, TOP
from taskrun import trace

PROGRAMS = ("record", "check", "session", "stress", "merge")


def files():
    """All Python of the recorder, and what measures it."""
    found = glob.glob(os.path.join(FOLDER, "taskrun", "*.py")) + glob.glob(os.path.join(FOLDER, "tests", "*.py"))
    found += [os.path.join(FOLDER, name) for name in PROGRAMS]
    return found + glob.glob(os.path.join(TOP, "bench", "archer.py")) + glob.glob(os.path.join(TOP, "bench", "recording.py"))


class Rules(unittest.TestCase):
    @unittest.skipUnless(shutil.which("flake8"), "left out: no flake8 is here")
    def test_style(self):
        done = subprocess.run(["flake8", *files()], cwd=TOP, capture_output=True, text=True, check=False)
        self.assertEqual((done.stdout, done.returncode), ("", 0))

    @unittest.skipUnless(shutil.which("mypy"), "left out: no mypy is here")
    def test_types(self):
        with tempfile.TemporaryDirectory() as cache:
            words = ["mypy", "--cache-dir", cache, "--config-file", os.path.join("openmp", "mypy.ini")]
            done = subprocess.run(words, cwd=TOP, capture_output=True, text=True, check=False)
        self.assertEqual(done.returncode, 0, done.stdout + done.stderr)

    def test_packages_are_found_without_changing_the_path(self):
        for path in files():
            with open(path, encoding="utf-8") as file:
                self.assertNotIn("sys.path." + "insert", file.read(), path)

    def test_each_program_tells_the_version(self):
        with open(os.path.join(TOP, "VERSION"), encoding="ascii") as file:
            wanted = f"taskback {file.read().strip()}\n"
        for name in PROGRAMS:
            done = subprocess.run([os.path.join(FOLDER, name), "--version"], capture_output=True, text=True, check=False)
            self.assertEqual((done.stdout, done.returncode), (wanted, 0), name)

    def test_numbers_are_those_of_the_header(self):
        text = "/* one, = 9 */ enum kind { FIRST = 3, SECOND, /* , */ THIRD = 0x10 };\nenum { LAST };"
        self.assertEqual(trace.numbers_of(text), {"FIRST": 3, "SECOND": 4, "THIRD": 16, "LAST": 0})
        self.assertEqual((trace.CREATE, trace.CHAIN, trace.SET, trace.MARKS), (1, 44, 0xfffe, 31))


if __name__ == "__main__":
    unittest.main()
