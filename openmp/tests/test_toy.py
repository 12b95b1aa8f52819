"""The toy runtime, right and with its seeded bug: the runs that it writes."""

import glob
import os
import subprocess
import tempfile
import unittest

import support
from taskrun.merging import merged

SOURCES = sorted(glob.glob(os.path.join(support.FOLDER, "toy", "*.c")))
BUILD = ("cc", "-std=c99", "-pthread", "-Wall", "-Wextra", "-Wpedantic", "-Werror", *SOURCES)


def items_of(words):
    """The cells of the depend items of a spawn, each with whether it is written."""
    return {words[at + 2]: words[at + 1] != "in" for at, word in enumerate(words) if word == "depend"}


def early_starts(lines):
    """The tasks that start before one ends on which they depend, each with the line and that one. All are children of the root."""
    items, ends, found = {}, set(), []
    for number, line in enumerate(lines, 1):
        name, *words = line.split("  # ")[0].split()
        task = name.split("#")[0]
        if words[:1] == ["spawn"]:
            items[words[1]] = items_of(words)
        elif words == ["end"]:
            ends.add(task)
        elif words == ["start"]:
            earlier = [it for it in items if task in items and int(it[2:]) < int(task[2:]) and it not in ends]
            needed = [it for it in earlier if any(cell in items[task] and (written or items[task][cell]) for cell, written in items[it].items())]
            found += [(number, task, it) for it in needed[:1]]
    return found


class Runs(unittest.TestCase):
    @classmethod
    def setUpClass(cls):
        folder = tempfile.TemporaryDirectory()
        cls.addClassCleanup(folder.cleanup)
        cls.folder = folder.name
        subprocess.run([*BUILD, "-o", os.path.join(cls.folder, "toy")], check=True)

    def run_toy(self, threads, rounds, *words):
        """The lines of the run text."""
        prefix = os.path.join(self.folder, f"run{threads}")
        done = subprocess.run([os.path.join(self.folder, "toy"), prefix, str(threads), str(rounds), *words], timeout=60, check=False)
        self.assertEqual(done.returncode, 0)
        return b"".join(merged([f"{prefix}.{at}" for at in range(threads)])).decode().splitlines()

    def test_right_runs(self):
        for threads in (1, 2, 8):
            for rounds in (1, 50):
                lines = self.run_toy(threads, rounds)
                self.assertEqual(lines[0], "cells 3")
                self.assertEqual(early_starts(lines), [])
                ends = [line.split("#")[0] for line in lines if line.endswith(" end")]
                self.assertEqual(sorted(ends), sorted(["0"] + [f"0.{at + 1}" for at in range(3 * rounds)]))
                self.assertEqual(lines[-1].split()[1:], ["end"])
                self.assertEqual(lines[-2].split()[1:3], ["print", str(3 * rounds)])

    def test_a_hasty_one_starts_a_task_early(self):
        lines = self.run_toy(1, 1, "hasty")
        self.assertEqual(early_starts(lines), [(10, "0.3", "0.1")])
        self.assertEqual(lines[9], "0.3#1 start")
        self.assertEqual(lines[-2].split()[1:3], ["print", "2"])

    def test_by_several_threads_too(self):
        for _ in range(5):
            self.assertNotEqual(early_starts(self.run_toy(4, 100, "hasty")), [])

    def test_wrong_words(self):
        for words in ((), ("run", "0", "1"), ("run", "17", "1"), ("run", "1", "0"), ("run", "1", "334")):
            done = subprocess.run([os.path.join(self.folder, "toy"), *words], capture_output=True, text=True, check=False)
            self.assertEqual((done.returncode, done.stdout), (64, ""))
            self.assertIn("toy PREFIX THREADS ROUNDS", done.stderr)


if __name__ == "__main__":
    unittest.main()
