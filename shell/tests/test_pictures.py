"""The pictures of the README and the tutorial: they are what the program gives now, and each stands in its text."""

import os
import re
import subprocess
import sys
import unittest
import xml.etree.ElementTree as tree

from support import MAIN, PROGRAM, TOP, needs_program, write_file
from test_tutorial import page, sections
from tools.draw_pictures import PICTURES, picture

FOLDER = os.path.join(TOP, "docs", "pictures")


@needs_program
class PicturesTest(unittest.TestCase):
    def test_they_are_up_to_date(self) -> None:
        self.assertEqual({name + ".svg" for name in PICTURES}, set(os.listdir(FOLDER)))
        for name in PICTURES:
            with open(os.path.join(FOLDER, name + ".svg"), encoding="utf-8") as file:
                self.assertEqual(file.read(), picture(name, PROGRAM), f"{name}: python3 -m tools.draw_pictures draws it anew")

    def run_script(self, name: str, *words: str) -> tuple[str, str, int]:
        """What a program of the front end says, and its status."""
        done = subprocess.run([sys.executable, MAIN, f"--{name}", *words], capture_output=True, text=True, timeout=60,
                              env={**os.environ, "TASKBACK_PROGRAM": PROGRAM}, check=False)
        return done.stdout, done.stderr, done.returncode

    def test_scripts(self) -> None:
        session, path = os.path.join(TOP, "examples", "race.session"), write_file(self, "", "out")
        for name in ("graph", "lanes", "page"):
            out, told, status = self.run_script(name)
            self.assertEqual((out, status), ("", 2))
            self.assertIn(f"./run --{name} SESSION", told)
            self.assertEqual(self.run_script(name, "/no/file", path), ("", "run: can't read /no/file: No such file or directory\n", 2))
        for name in ("graph", "lanes", "page"):
            self.assertEqual(self.run_script(name, session, "/no/x.dot"), ("", "run: can't write /no/x.dot: No such file or directory\n", 2))
        bad = write_file(self, "cells 1\nbody main 0\n  stroe 0 1\nend\n", "bad.task")
        self.assertEqual(self.run_script("graph", bad)[1:], ("bad.task:3: stroe 0 1\n            ^^^^^\n  no such word here (UnknownWord)\n  it should look like: store ADDR VAL\n", 1))
        self.assertTrue(self.run_script("graph", session)[0].startswith("digraph tasks {"))
        self.assertTrue(self.run_script("lanes", session)[0].startswith("  0 "))
        self.assertEqual(self.run_script("lanes", session, "0#99")[1:], ("run: step 0#99 isn't in the history\n", 2))
        self.assertEqual(self.run_script("lanes", session, "0.1#4", path), (f"drawn to {path}, 17 steps in 3 lanes\n", "", 0))
        self.assertEqual(tree.parse(path).getroot().get("role"), "img")
        self.assertEqual(self.run_script("page", session, path)[0], f"written to {path}, 12 commands and 27 steps\n")


class PlacesTest(unittest.TestCase):
    def test_each_section_has_its_picture(self) -> None:
        for name, text in sections():
            self.assertEqual(re.findall(r"!\[[^\]]+\]\(pictures/(\w+)\.svg\)", text), [name])
        self.assertRegex(page("README.md"), r"!\[[^\]]+\]\(docs/pictures/right_sum\.svg\)")

    def test_they_are_pictures(self) -> None:
        for name in os.listdir(FOLDER):
            root = tree.parse(os.path.join(FOLDER, name)).getroot()
            self.assertEqual(root.tag, "{http://www.w3.org/2000/svg}svg")


if __name__ == "__main__":
    unittest.main()
