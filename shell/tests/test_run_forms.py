"""The forms of ./run: what it says of wrong words, of files, and where its output can't go."""

import os
import pty
import subprocess
import tempfile
import unittest
from typing import Any

TOP = os.path.dirname(os.path.dirname(os.path.dirname(os.path.abspath(__file__))))
RUN = os.path.join(TOP, "run")
RACE = os.path.join(TOP, "examples", "race.session")
OK = "cells 1\nbody main 0\n  store 0 7\nend\n"
BAD = "cells 1\nbody main 0\n  let r1 = 0 + 1\nend\n"


def ran(*words: str, **how: Any) -> tuple[bytes, bytes, int]:
    """What ./run wrote to both ends, and its status."""
    how.setdefault("stdin", subprocess.DEVNULL)
    if "input" in how:
        del how["stdin"]
    done = subprocess.run([RUN, *words], stderr=subprocess.PIPE, stdout=how.pop("stdout", subprocess.PIPE), timeout=300, **how)
    return done.stdout, done.stderr, done.returncode


def read_all(end: int) -> bytes:
    """What comes from this end of a terminal until it closes."""
    got = b""
    try:
        while more := os.read(end, 65536):
            got += more
    except OSError:
        # A closed terminal is an error to its reader.
        pass
    os.close(end)
    return got


class Forms(unittest.TestCase):
    def setUp(self) -> None:
        folder = tempfile.TemporaryDirectory()
        self.addCleanup(folder.cleanup)
        self.folder = folder.name

    def file(self, name: str, text: str) -> str:
        path = os.path.join(self.folder, name)
        with open(path, "w", encoding="ascii") as file:
            file.write(text)
        return path

    def test_wrong_words_are_one_line_and_status_2(self) -> None:
        for words in (["-i"], ["--limit"], ["--workers"], ["--check"], ["--json", "--limit", "5"], ["a", "b"], ["-i", "a", "b"], ["no such file"], ["-i", "no such file"],
                      [self.folder], ["-i", self.folder]):
            with self.subTest(words=words):
                out, told, status = ran(*words)
                self.assertEqual((out, told.count(b"\n"), status), (b"", 1, 2))
                self.assertTrue(told.startswith(b"run: "))

    def test_a_named_program_is_run(self) -> None:
        for named, wanted in (("/bin/cat", (OK.encode(), b"", 0)), ("/no/program", (b"", b"run: can't run /no/program, which TASKBACK_PROGRAM names\n", 2))):
            self.assertEqual(ran(self.file("ok.task", OK), env=dict(os.environ, TASKBACK_PROGRAM=named)), wanted)

    def test_judge_takes_a_run_text(self) -> None:
        text, report = "cells 0\n0 start\n", b"legal 1\nunended 1\n0\nraces 0\n"
        self.assertEqual(ran("--judge", self.file("a.run", text)), (report, b"", 3))
        self.assertEqual(ran("--judge", input=text.encode()), (report, b"", 3))
        self.assertEqual(ran("--judge", "a", "b")[2], 64)
        named = dict(os.environ, TASKBACK_TASKCHECK="/no/program")
        self.assertEqual(ran("--judge", env=named), (b"", b"run: can't run /no/program, which TASKBACK_TASKCHECK names\n", 2))

    def test_a_link_runs(self) -> None:
        link = os.path.join(self.folder, "linked")
        os.symlink(RUN, link)
        out = subprocess.run([link, RACE], stdin=subprocess.DEVNULL, stdout=subprocess.PIPE, timeout=300, check=True).stdout
        with open(RACE.replace(".session", ".out"), "rb") as wanted:
            self.assertEqual(out, wanted.read())

    def test_typed_commands_follow_the_program(self) -> None:
        out, told, status = ran("-i", self.file("ok.task", OK), input=b"run 9\n")
        self.assertEqual((out, told, status), (b"0#1 start\n0#2 store 0 7\n0#3 end\nran 3 done\n", b"", 0))

    def test_a_refused_program_asks_for_no_key(self) -> None:
        reader, writer = os.pipe()
        self.addCleanup(os.close, writer)
        with os.fdopen(reader, "rb") as waiting:
            out, told, status = ran("-i", self.file("bad.task", BAD), stdin=waiting)
        self.assertEqual((out, told, status), (b"", b"taskback: line 3: BadNumber\n", 1))

    def test_limit_goes_to_the_program(self) -> None:
        out, _, _ = ran("--limit", "2", "-i", self.file("ok.task", OK), input=b"run 9\n")
        self.assertEqual(out, b"0#1 start\nran 1 full\n")

    def test_help_has_the_forms_and_the_commands(self) -> None:
        out, told, status = ran("--help")
        self.assertEqual((told, status), (b"", 0))
        for wanted in (b"./run [OPTIONS] -i PROGRAM", b"./run --prove", b"rolltask T"):
            self.assertIn(wanted, out)

    def test_help_into_a_full_disk(self) -> None:
        with open("/dev/full", "wb") as full:
            _, told, status = ran("--help", stdout=full)
        self.assertEqual((told, status), (b"taskback: write\n", 3))

    def test_help_into_a_closed_pipe(self) -> None:
        reader, writer = os.pipe()
        os.close(reader)
        with os.fdopen(writer, "wb") as closed:
            _, told, _ = ran("--help", stdout=closed)
        self.assertEqual(told, b"")

    def test_a_closed_standard_input(self) -> None:
        done = subprocess.run(["bash", "-c", '"$1" <&-', "", RUN], stdout=subprocess.PIPE, stderr=subprocess.PIPE, timeout=300, check=False)
        self.assertEqual((done.stdout, done.stderr, done.returncode), (b"", b"taskback: read\n", 3))

    def test_without_a_terminal_to_type_at_a_session_is_as_it_is(self) -> None:
        # Standard output is a terminal and standard input isn't.
        end, terminal = pty.openpty()
        with subprocess.Popen([RUN, RACE], stdin=subprocess.DEVNULL, stdout=terminal, stderr=terminal) as running:
            os.close(terminal)
            out = read_all(end)
            self.assertEqual(running.wait(timeout=300), 0)
        with open(RACE.replace(".session", ".out"), "rb") as wanted:
            self.assertEqual(out.replace(b"\r\n", b"\n"), wanted.read())

    def test_without_a_file_a_terminal_is_told_what_to_type(self) -> None:
        end, terminal = pty.openpty()
        with subprocess.Popen([RUN], stdin=terminal, stdout=terminal, stderr=subprocess.PIPE) as running:
            os.close(terminal)
            self.assertIn(b"./run FILE starts the shell", running.stderr.readline())
            os.write(end, OK.encode() + b"---\nrun 9\n\x04")
            self.assertIn(b"ran 3 done", read_all(end))
            self.assertEqual((running.wait(timeout=300), running.stderr.read()), (0, b""))


if __name__ == "__main__":
    unittest.main()
