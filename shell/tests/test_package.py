"""The archive and the Debian package: what is in them runs elsewhere, with nothing beside but Debian's own programs."""

import functools
import gzip
import os
import re
import shutil
import subprocess
import tempfile
import time
import unittest
from typing import Any

from support import EXAMPLES, JUDGE, PROGRAM, PROMPT, TOP, Terminal, needs_judge, needs_program
from test_docs import PAGES, text_of

BARE = {"PATH": "/usr/bin:/bin"}
RUN = "cells 0\n0 start\n0 end\n"
REPORT = "legal 2\nunended 0\nraces 0\n"


class Copy:
    """A copy of the repository in a folder of its own, and what is made of it there."""

    def __init__(self) -> None:
        self.kept = tempfile.TemporaryDirectory()
        self.folder = self.kept.name
        self.top = os.path.join(self.folder, "top")
        for part in ("README.md", "CHANGELOG.md", "LICENSE", "VERSION", "run", "taskback-shell", "taskback-dap", "shell", "editors", "completions", "openmp", "docs", "examples", "tools"):
            copy: Any = shutil.copytree if os.path.isdir(os.path.join(TOP, part)) else shutil.copy2
            os.makedirs(self.top, exist_ok=True)
            copy(os.path.join(TOP, part), os.path.join(self.top, part))
        self.built: list[str] = []
        for name in ("taskback", "taskcheck"):
            os.makedirs(os.path.join(self.top, "crates", name, "out"))
            self.built.append(os.path.join(self.top, "crates", name, "out", name))

    def build(self) -> None:
        """Puts the programs into their places."""
        for program, place in zip((PROGRAM, JUDGE), self.built):
            shutil.copy2(program, place)

    def package(self) -> Any:
        """Runs the script that makes the archive and the package."""
        return subprocess.run([os.path.join(self.top, "tools", "package.sh"), self.folder], env=BARE, capture_output=True, text=True, check=False)


@functools.cache
def made() -> tuple[Copy, list[str]]:
    """The archive, and the Debian package where one can be made, each unpacked; the copy that they were made of is gone."""
    copy = Copy()
    copy.build()
    done = copy.package()
    if (done.returncode, done.stderr) != (0, ""):
        raise AssertionError(done.stderr)
    shutil.rmtree(copy.top)
    files = done.stdout.split("\n")[:-1]
    subprocess.run(["tar", "-C", copy.folder, "-xzf", files[0]], check=True)
    if shutil.which("dpkg-deb"):
        subprocess.run(["dpkg-deb", "-x", files[1], os.path.join(copy.folder, "root")], check=True)
    return copy, files


@needs_program
@needs_judge
class Archive(unittest.TestCase):
    def unpacked(self) -> Any:
        """The archive's folder."""
        return made()[1][0].removesuffix(".tar.gz")

    def test_without_a_program_of_these_sources_there_is_none(self) -> None:
        copy = Copy()
        self.addCleanup(copy.kept.cleanup)
        self.assertIn("./run --prove makes it", copy.package().stderr)
        copy.build()
        source = os.path.join(copy.top, "crates", "taskback", "main.rt")
        with open(source, "w", encoding="ascii"):
            os.utime(source, (time.time() + 9, time.time() + 9))
        refused = copy.package()
        self.assertEqual((refused.returncode, refused.stdout), (2, ""))
        self.assertIn("no proved program taskback of these sources", refused.stderr)

    def test_it_runs_alone(self) -> None:
        there = self.unpacked()
        for name in sorted(os.listdir(EXAMPLES)):
            if name.endswith(".session"):
                done = subprocess.run(["./run", "examples/" + name], cwd=there, env=BARE, stdin=subprocess.DEVNULL, capture_output=True, text=True, check=False)
                self.assertEqual((done.returncode, done.stdout, done.stderr), (0, text_of("examples/" + name.replace(".session", ".out")), ""), name)
        judged = subprocess.run(["./run", "--judge"], cwd=there, env=BARE, input=RUN, capture_output=True, text=True, check=False)
        self.assertEqual((judged.stdout, judged.stderr, judged.returncode), (REPORT, "", 0))
        drawn = subprocess.run(["./run", "--graph", "examples/waits.session"], cwd=there, env=BARE, capture_output=True, text=True, check=False)
        self.assertEqual((drawn.returncode, drawn.stderr), (0, ""))
        self.assertIn("digraph tasks {", drawn.stdout)

    def test_its_shell_runs_alone(self) -> None:
        there = self.unpacked()
        shell = Terminal(self, [os.path.join(there, "examples", "right_sum.session")], (os.path.join(there, "run"),),
                         NO_COLOR="1", PATH=BARE["PATH"], TASKBACK_PROGRAM="")
        shell.read_until(PROMPT)
        self.assertIn("ran 17 done", shell.ask("source"))
        self.assertEqual(shell.ask("back")[0].split("  ")[0], "undone 0#7")

    def test_its_links_lead_somewhere(self) -> None:
        there = self.unpacked()
        for page in PAGES:
            for link in re.findall(r"\]\(([^)\s#]+)[^)]*\)", text_of(page)):
                self.assertTrue(os.path.exists(os.path.join(there, os.path.dirname(page), link)), (page, link))


@needs_program
@needs_judge
@unittest.skipUnless(shutil.which("dpkg-deb"), "left out: no dpkg-deb is here")
class Debian(unittest.TestCase):
    def setUp(self) -> None:
        folder = tempfile.TemporaryDirectory()
        self.addCleanup(folder.cleanup)
        self.folder = folder.name

    def unpacked(self) -> Any:
        """The folder that the package would be laid into the system from, and the package."""
        copy, files = made()
        self.assertRegex(files[1], rf"/taskback_{text_of('VERSION').strip()}_\w+\.deb$")
        return os.path.join(copy.folder, "root"), files[1]

    def ran(self, root: str, *words: str, **given: Any) -> tuple[str, str, int]:
        """What an installed program writes, where nothing but Debian's own programs is beside it."""
        if "input" not in given:
            given["stdin"] = subprocess.DEVNULL
        done = subprocess.run([os.path.join(root, "usr", "bin", words[0]), *words[1:]], cwd=self.folder, env={**BARE, "HOME": self.folder},
                              capture_output=True, text=True, timeout=120, check=False, **given)
        return done.stdout, done.stderr, done.returncode

    def test_its_programs_run(self) -> None:
        root, _ = self.unpacked()
        version = f"taskback {text_of('VERSION').strip()}\n"
        examples = os.path.join(root, "usr", "share", "doc", "taskback", "examples")
        self.assertEqual(self.ran(root, "taskback", "--version"), (version, "", 0))
        self.assertEqual(self.ran(root, "taskback-dap", "--version"), (version, "", 0))
        self.assertEqual(self.ran(root, "taskcheck", input=RUN), (REPORT, "", 0))
        self.assertEqual(self.ran(root, "taskback", os.path.join(examples, "race.session")), (text_of("examples/race.out"), "", 0))
        self.assertEqual(self.ran(root, "taskback", os.path.join(examples, "race.task"), input="step 0\npage race.html\n")[0],
                         "0#1 start\nwritten to race.html, 1 command and 1 step\n")
        for name in ("taskback-record", "taskback-session", "taskback-check", "taskback-merge"):
            self.assertIn("openmp/", "".join(self.ran(root, name)[:2]), name)

    def test_what_it_lays_where(self) -> None:
        root, package = self.unpacked()
        share = os.path.join(root, "usr", "share")
        for name in ("bash-completion/completions/taskback", "bash-completion/completions/taskback-dap", "bash-completion/completions/taskcheck",
                     "man/man1/taskcheck.1.gz", "zsh/vendor-completions/_taskback",
                     "vim/vimfiles/syntax/taskback.vim", "doc/taskback/copyright", f"doc/taskback/taskback-{text_of('VERSION').strip()}.vsix"):
            self.assertTrue(os.path.exists(os.path.join(share, name)), name)
        with gzip.open(os.path.join(share, "man", "man1", "taskback.1.gz"), "rt", encoding="utf-8") as page:
            self.assertNotIn("./run", page.read())
        self.assertTrue(os.path.exists(os.path.join(root, "usr", "lib", "taskback", "editors", "emacs", "taskback.el")))
        told = subprocess.run(["dpkg-deb", "-f", package, "Package", "Version", "Depends"], capture_output=True, text=True, check=True).stdout
        self.assertEqual(told, f"Package: taskback\nVersion: {text_of('VERSION').strip()}\nDepends: libc6, python3 (>= 3.10)\n")
        listed = subprocess.run(["dpkg-deb", "-c", package], capture_output=True, text=True, check=True).stdout
        self.assertNotRegex(listed, r"/tests/|__pycache__|_cache|(?m:^-\S+ (?!root/root))")

    def test_bash_completes_its_name(self) -> None:
        root, _ = self.unpacked()
        script = "source usr/share/bash-completion/completions/taskback; complete -p taskback; complete -p run"
        done = subprocess.run(["bash", "-c", script], cwd=root, capture_output=True, text=True, check=False)
        self.assertEqual((done.stdout, done.returncode), ("complete -F _taskback_run taskback\n", 1))


if __name__ == "__main__":
    unittest.main()
