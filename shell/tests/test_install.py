"""Completions for bash and zsh, and the version."""

import os
import shutil
import subprocess
import unittest

from support import PROGRAM, TOP, Terminal, needs_program, write_file

BASH = os.path.join(TOP, "completions", "taskback.bash")
ZSH = shutil.which("zsh")


def completed(words: list[str], folder: str = TOP) -> list[str]:
    """What bash completes the last of these words to."""
    typed = " ".join(f"'{word}'" for word in words)
    text = (f"source '{BASH}'; COMP_WORDS=({typed}); COMP_CWORD={len(words) - 1}; "
            'found=$(complete -p "${COMP_WORDS[0]##*/}"); found=${found#*-F }; ${found%% *}; printf "%s\\n" "${COMPREPLY[@]}"')
    done = subprocess.run(["bash", "-c", text], cwd=folder, capture_output=True, text=True, timeout=60, check=True)
    return sorted(filter(None, done.stdout.split("\n")))


class Bash(unittest.TestCase):
    def test_options(self) -> None:
        self.assertEqual(completed(["./run", "--"]), ["--check", "--graph", "--help", "--json", "--judge", "--lanes", "--limit", "--page", "--plain", "--prove", "--serve", "--version", "--workers"])
        self.assertEqual(completed(["./run", "--limit", "1"]), ["1000", "100000", "1000000"])
        self.assertEqual(completed(["./run", "--workers", "6"]), ["64"])
        self.assertEqual(completed(["taskback", "--v"]), ["--version"])
        self.assertEqual(completed(["taskback-dap", "--po"]), ["--port"])
        self.assertEqual(completed(["taskcheck", "--"]), ["--help", "--version"])

    def test_files(self) -> None:
        self.assertEqual(completed(["./run", "examples/rac"]), ["examples/race.session", "examples/race.task"])
        self.assertEqual(completed(["./run", "--plain", "examp"]), ["examples/"])
        # Also where a part of the ending is typed, and after an option.
        self.assertEqual(completed(["./run", "--lanes", "examples/race.s"]), ["examples/race.session"])
        self.assertEqual(completed(["./run", "examples/race.task"]), ["examples/race.task"])
        self.assertEqual(completed(["./run", "examples/race.o"]), [])
        self.assertEqual(completed(["./run", "-x", "docs/taskback"]), ["docs/taskback.1"])
        folder = os.path.dirname(write_file(self, "", "a b.task"))
        self.assertEqual(completed(["./run", "a"], folder), ["a b.task"])
        folder = os.path.dirname(write_file(self, "", "a.run"))
        for words in (["taskcheck", ""], ["./run", "--judge", "a"]):
            self.assertEqual(completed(words, folder), ["a.run"])

    @needs_program
    def test_each_option_is_one(self) -> None:
        helped = subprocess.run([os.path.join(TOP, "run"), "--help"], capture_output=True, text=True, timeout=120, check=True).stdout
        for option in completed(["./run", "-"]):
            self.assertIn(option, helped, option)


@unittest.skipUnless(ZSH, "left out: no zsh is here")
class Zsh(unittest.TestCase):
    def test_options_and_files(self) -> None:
        shell = Terminal(self, ["-f"], (ZSH,), PS1="> ", TERM="dumb")
        shell.send(f"cd {TOP}; fpath=({TOP}/completions $fpath); autoload -Uz compinit; compinit -u -D; PS1='ready> '\n")
        shell.read_until("ready> ")
        shell.read_until("ready> ") if "ready> " in shell.seen else None
        for typed, wanted in (("./run --vers\t", "--version"), ("./run examples/right_sum.s\t", "right_sum.session"), ("taskback-dap --po\t", "--port"), ("taskcheck --vers\t", "--version")):
            shell.send(typed)
            shell.read_until(wanted)
            shell.send("\x15")


@needs_program
class Version(unittest.TestCase):
    def test_it_is_the_programs(self) -> None:
        with open(os.path.join(TOP, "VERSION"), encoding="ascii") as file:
            version = file.read().strip()
        self.assertRegex(version, r"^\d+\.\d+\.\d+$")
        for program in (PROGRAM, *(os.path.join(TOP, name) for name in ("run", "taskback-shell", "taskback-dap"))):
            told = subprocess.run([program, "--version"], capture_output=True, text=True, timeout=120, check=True).stdout
            self.assertEqual(told, f"taskback {version}\n", program)
        # Besides the file VERSION it is in the program's own text, and at the head of its changes, alone.
        with open(os.path.join(TOP, "CHANGELOG.md"), encoding="utf-8") as file:
            self.assertIn(f"\n## {version}\n", file.read())
        for name in ("docs/taskback.1", "docs/SHELL.md", "docs/EDITORS.md", "editors/vscode/package.json", "editors/vscode/README.md", "tools/package.sh"):
            with open(os.path.join(TOP, name), encoding="utf-8") as file:
                self.assertNotIn(version, file.read(), name)


if __name__ == "__main__":
    unittest.main()
