"""The rules of the front end's Python: types, style, sizes, and that no program reaches into another's path."""

import ast
import glob
import os
import shutil
import subprocess
import unittest

from support import TOP

PROGRAMS = ("taskback-shell", "taskback-dap")
MADE = ("editors/vscode/build.py", "tools", "bench")
# What is checked already is kept, for the next time.
KEPT = os.path.join(TOP, ".cache", "mypy")
MOST_LINES, MOST_OF_A_FUNCTION, MOST_PARAMETERS = 500, 40, 6


def files() -> list[str]:
    """All Python of the front end, and of the tools and measurements, tests among it."""
    found = [path for folder in ("shell", "editors", "tools", "bench") for path in glob.glob(os.path.join(TOP, folder, "**", "*.py"), recursive=True)]
    return found + [os.path.join(TOP, name) for name in PROGRAMS]


def ran(*words: str) -> tuple[str, int]:
    """What a program says of our files, and its status."""
    done = subprocess.run(words, cwd=TOP, capture_output=True, text=True, timeout=600, check=False)
    return done.stdout + done.stderr, done.returncode


class Rules(unittest.TestCase):
    @unittest.skipUnless(shutil.which("mypy"), "left out: no mypy is here")
    def test_types(self) -> None:
        for words in ((), PROGRAMS, ("--explicit-package-bases", "bench/lock.py"), ("--config-file", os.path.join("shell", "tests", "mypy.ini"))):
            told, status = ran("mypy", "--cache-dir", KEPT, *words)
            self.assertEqual(status, 0, told)

    @unittest.skipUnless(shutil.which("flake8"), "left out: no flake8 is here")
    def test_style(self) -> None:
        self.assertEqual(ran("flake8", "shell", *PROGRAMS, *MADE), ("", 0))

    def test_sizes(self) -> None:
        for path in files():
            with open(path, encoding="utf-8") as file:
                text = file.read()
            self.assertLess(text.count("\n"), MOST_LINES, path)
            for node in ast.walk(ast.parse(text)):
                if isinstance(node, (ast.FunctionDef, ast.AsyncFunctionDef)):
                    place = f"{path}: {node.name}"
                    self.assertLessEqual(node.end_lineno - node.lineno + 1, MOST_OF_A_FUNCTION, place)
                    self.assertLessEqual(len([word for word in node.args.args + node.args.kwonlyargs if word.arg not in ("self", "cls")]), MOST_PARAMETERS, place)

    def test_packages_are_found_without_changing_the_path(self) -> None:
        for path in files():
            with open(path, encoding="utf-8") as file:
                self.assertNotIn("sys.path." + "insert", file.read(), path)


if __name__ == "__main__":
    unittest.main()
