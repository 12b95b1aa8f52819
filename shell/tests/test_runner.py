"""The script that runs the tests' files side by side: what it counts, and its status."""

import os
import subprocess
import sys
import unittest

from support import TOP
from tools.test_front import counts_of

RUNNER = os.path.join(TOP, "tools", "test_front.py")


class Runner(unittest.TestCase):
    def test_what_is_counted(self) -> None:
        for said, status, wanted in (
                ("a ... ok\nRan 2 tests in 1s\n\nOK\n", 0, {"ran": 2}),
                ("a ... skipped 'left out: x'\nRan 3 tests in 1s\n\nOK (skipped=1)\n", 0, {"ran": 3, "skipped": 1}),
                ("Ran 4 tests in 1s\n\nFAILED (failures=1, errors=2, skipped=1)\n", 1, {"ran": 4, "failures": 1, "errors": 2, "skipped": 1}),
                ("Traceback\n", 1, {"ran": 1, "errors": 1}), ("", -9, {"ran": 1, "errors": 1}), ("Ran 2 tests in 1s\n\nOK\n", -11, {"ran": 2, "errors": 1})):
            self.assertEqual({kind: count for kind, count in counts_of(said, status).items() if count}, wanted, said)

    def test_all_files_are_counted_together(self) -> None:
        done = subprocess.run([sys.executable, RUNNER, "--jobs", "2", "test_texts.py", "test_expressions.py"], capture_output=True, text=True, timeout=300, check=False)
        ran = [int(line.split(" ")[1]) for line in done.stdout.split("\n") if line.startswith("Ran ")]
        self.assertEqual((done.returncode, done.stderr, len(ran), ran[-1]), (0, "", 3, sum(ran[:-1])))
        self.assertIn("OK", done.stdout.split("\n")[-2])

    def test_a_file_that_is_not_there(self) -> None:
        done = subprocess.run([sys.executable, RUNNER, "test_zebra.py"], capture_output=True, text=True, timeout=60, check=False)
        self.assertEqual((done.returncode, done.stdout), (2, ""))
        self.assertIn("no such file in shell/tests: test_zebra.py", done.stderr)


if __name__ == "__main__":
    unittest.main()
