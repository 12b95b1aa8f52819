"""The commands of docs/RUNS.md as they stand there, and what taskcheck says of its words."""

import os
import re
import shutil
import subprocess
import tempfile
import unittest

from support import JUDGE, PROGRAM, TOP, needs_judge, needs_program
from test_docs import text_of

Commands = list[tuple[str, list[str]]]


def commands_of(text: str) -> Commands:
    """The commands of a page's blocks, each with the lines that it shows."""
    found: Commands = []
    for block in re.findall(r"^```text\n(\$ .*?)\n```$", text, re.M | re.S):
        for line in block.split("\n"):
            if line.startswith("$ "):
                found.append((line[2:], []))
            else:
                found[-1][1].append(line)
    return found


@needs_program
@needs_judge
@unittest.skipUnless(shutil.which("cc"), "left out: no C compiler is here")
class Page(unittest.TestCase):
    def setUp(self) -> None:
        folder = tempfile.TemporaryDirectory()
        self.addCleanup(folder.cleanup)
        self.folder = folder.name
        os.symlink(os.path.join(TOP, "openmp"), os.path.join(self.folder, "openmp"))
        os.mkdir(os.path.join(self.folder, "bin"))
        for name, program in (("taskback", PROGRAM), ("taskcheck", JUDGE)):
            os.symlink(os.path.abspath(program), os.path.join(self.folder, "bin", name))

    def given(self, command: str, lines: list[str]) -> bool:
        """Whether the command shows a file that isn't there yet; then it is."""
        shown = re.fullmatch(r"cat ([\w.]+)", command)
        path = os.path.join(self.folder, shown[1]) if shown else ""
        if not path or os.path.exists(path):
            return False
        with open(path, "w", encoding="ascii") as file:
            file.write("\n".join(lines) + "\n")
        return True

    def test_each_command(self) -> None:
        path = os.path.join(self.folder, "bin") + ":" + os.environ["PATH"]
        commands = commands_of(text_of("docs/RUNS.md"))
        self.assertGreater(len(commands), 12)
        status = 0
        for command, lines in commands:
            if self.given(command, lines):
                continue
            done = subprocess.run(["bash", "-c", f"(exit {status}); {command}"], cwd=self.folder, env={**os.environ, "PATH": path},
                                  stdin=subprocess.DEVNULL, capture_output=True, text=True, timeout=120, check=False)
            self.assertEqual((done.stdout.splitlines(), done.stderr), (lines, ""), command)
            status = done.returncode


@needs_judge
class Words(unittest.TestCase):
    def ran(self, *words: str) -> tuple[str, str, int]:
        done = subprocess.run([JUDGE, *words], stdin=subprocess.DEVNULL, capture_output=True, text=True, timeout=60, check=False)
        return done.stdout, done.stderr, done.returncode

    def test_version(self) -> None:
        self.assertEqual(self.ran("--version"), (f"taskcheck {text_of('VERSION').strip()}\n", "", 0))

    def test_the_run_of_the_help_has_its_report(self) -> None:
        shown = self.ran("--help")[0].split("A run, and its report:\n")[1].split("\n\n")[0].split("\n")
        text, report = "", ""
        for line in shown:
            text += line[2:44].rstrip() + "\n"
            report += line[44:] + "\n" if line[44:] else ""
        done = subprocess.run([JUDGE], input=text, capture_output=True, text=True, timeout=60, check=False)
        self.assertEqual((done.stdout, done.stderr, done.returncode), (report, "", 2))

    def test_wrong_words(self) -> None:
        for words in (("a", "b"), ("--limit",), ("--limit", "5")):
            out, told, status = self.ran(*words)
            self.assertEqual((out, status), ("", 64))
            self.assertTrue(told.startswith("error: "), told)


if __name__ == "__main__":
    unittest.main()
