"""The tutorial and the README's transcript, typed on a real terminal as they stand there."""

import os
import re
import unittest
from typing import Any

from support import EXAMPLES, TOP, Terminal, needs_program

COLUMN = 16


def page(name: str) -> str:
    """The text of a page."""
    with open(os.path.join(TOP, name), encoding="utf-8") as file:
        return file.read()


def sections() -> Any:
    """The sections of the tutorial: the example of each, and its text."""
    parts = re.split(r"^## \d+\. .*`(\w+)\.session`$", page("docs/TUTORIAL.md"), flags=re.M)
    return [(name, text.split("\n## ")[0]) for name, text in zip(parts[1::2], parts[2::2])]


def blocks(text: str, kind: str = "text") -> Any:
    """The blocks of this kind in a text, each as its lines."""
    return [block.split("\n") for block in re.findall(rf"^```{kind}\n(.*?)\n```$", text, re.M | re.S)]


def rows(lines: list[str]) -> Any:
    """What is typed, each with the lines of its reply: on the left the one, from the 17th column the other."""
    found: list[Any] = []
    for line in lines:
        typed, reply = line[:COLUMN].strip(), line[COLUMN:].split("  <- ")[0].strip()
        if typed:
            found.append((typed, []))
        found[-1][1].append(reply)
    return found


def agrees(wanted: list[str], shown: list[str]) -> bool:
    """Whether the lines are the ones that are wanted; `...` stands for any."""
    if not wanted:
        return not shown
    if wanted[0] == "...":
        return any(agrees(wanted[1:], shown[at:]) for at in range(len(shown) + 1))
    return bool(shown) and wanted[0] == shown[0] and agrees(wanted[1:], shown[1:])


def replies(shell: Terminal, typed: str) -> Any:
    """The program's own lines after a command: without source lines, and without the shell's words."""
    return [line.split("  ")[0] for line in shell.ask(typed) if not line.startswith("  ")]


@needs_program
class Typed(unittest.TestCase):
    def play(self, name: str, lines: list[str]) -> None:
        """Types a block's commands at a shell on this file."""
        shell = Terminal(self, [os.path.join(EXAMPLES, name)], NO_COLOR="1")
        shell.read_until("(taskback) ")
        for typed, wanted in rows(lines):
            shown = replies(shell, typed)
            self.assertTrue(agrees(wanted, shown), (name, typed, wanted, shown))

    def test_each_section_of_the_tutorial(self) -> None:
        names = [name for name, _ in sections()]
        self.assertEqual(len(names), page("docs/TUTORIAL.md").count(".session`\n"))
        for name, text in sections():
            with self.subTest(section=name):
                lines = [line for block in blocks(text) for line in block]
                self.assertTrue(lines)
                self.play(name + ".task", lines)

    def test_programs_in_the_tutorial_are_those_of_the_files(self) -> None:
        for name, text in sections():
            program = {" ".join(line.split()) for line in page(f"examples/{name}.task").split("\n")}
            for line in (line for block in blocks(text, "task") for line in block):
                for part in re.split(r"\s{4,}", line.strip()):
                    self.assertIn(" ".join(part.split()), program, name)

    def test_the_readme(self) -> None:
        self.play("right_sum.task", blocks(page("README.md"))[0])


@needs_program
class FirstMinute(unittest.TestCase):
    def test_the_readme_alone_leads_to_the_race_and_back(self) -> None:
        command = re.search(r"^\./run (\S+\.session) .*`source`", page("README.md"), re.M)
        shell = Terminal(self, [os.path.join(TOP, command[1])], (os.path.join(TOP, "run"),), NO_COLOR="1")
        self.assertIn("`source` plays the next, Enter goes on", shell.read_until("(taskback) ", 300))
        shown = [replies(shell, typed) for typed in ("source", "", "", "", "", "", "", "back")]
        self.assertEqual(shown[0][-1], "ran 17 done")
        self.assertEqual(shown[1][-2:], ["out 1", "3"])
        self.assertEqual(shown[2][1:], ["races 2", "0.1#4 0.2#2 cell 0", "0.1#4 0.2#4 cell 0"])
        self.assertEqual(shown[3][1], "rolled 10")
        self.assertEqual(shown[6][-2:], ["out 1", "2"])
        self.assertEqual(shown[7], ["undone 0#7"])


class Rows(unittest.TestCase):
    def test_agrees(self) -> None:
        self.assertEqual(rows(["run 3           a", "                b  <- why", "out             c"]), [("run 3", ["a", "b"]), ("out", ["c"])])
        self.assertTrue(agrees(["a", "...", "d"], ["a", "b", "c", "d"]))
        self.assertTrue(agrees(["a", "..."], ["a"]))
        self.assertFalse(agrees(["a", "...", "d"], ["a", "d", "e"]))
        self.assertFalse(agrees(["a"], ["a", "b"]))


if __name__ == "__main__":
    unittest.main()
