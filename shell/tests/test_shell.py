"""The shell on a real terminal, and its plain lines against the stored replies."""

import glob
import os
import subprocess
import sys
import unittest
from typing import Any

from support import EXAMPLES, LOOP, MAIN, PROGRAM, Terminal, example, needs_program, write_file

RACE = os.path.join(EXAMPLES, "race.task")


@needs_program
class PlainTest(unittest.TestCase):
    def test_stored_sessions(self) -> None:
        paths = sorted(glob.glob(os.path.join(EXAMPLES, "*.session")))
        self.assertTrue(paths)
        for path in paths:
            name = os.path.basename(path)
            commands = example(name).split("\n---\n", 1)[1]
            done = subprocess.run([sys.executable, MAIN, "--program", PROGRAM, "--plain", path], input=commands,
                                  capture_output=True, text=True, timeout=60)
            self.assertEqual((done.stdout, done.stderr, done.returncode), (example(name[:-7] + "out"), "", 0), path)

    def test_what_only_looks_like_a_number(self) -> None:
        commands = "".join(f"{line}\n" for word in ("\u00b2", "1" * 5000) for line in (
            f"run {word}", f"step 0 {word}", f"go {word} 3", f"go 2 {word}", f"list {word}", f"until 0#{word}", f"random {word}",
            f"limit {word}", f"break line {word}", f"clear line {word}", f"last {word}", f"back {word}", f"lanes 0#{word}", f"roll 0#{word}"))
        done = subprocess.run([sys.executable, MAIN, "--program", PROGRAM, RACE], input=commands + "run 1\n",
                              capture_output=True, text=True, encoding="utf-8", timeout=60, check=False)
        self.assertEqual((done.stdout.split("\n")[-3:], done.stderr, done.returncode),
                         (["0#1 start", "ran 1 limit", ""], "", 0))


@needs_program
class TerminalTest(unittest.TestCase):
    def open(self, *words: str, **changes: Any) -> Any:
        shell = Terminal(self, words, **changes)
        shell.read_until("(taskback) ")
        return shell

    def test_step_enter_and_source_line(self) -> None:
        shell = self.open(RACE, NO_COLOR="1")
        self.assertIn("0#1 start                       3: body main 0\n", shell.type("s 0"))
        self.assertIn("0#2 spawn 0.1 add 1             4: task add 1\n", shell.type(""))
        shown = shell.type("step 0 5")
        self.assertIn("0#3 spawn 0.2 add 2             5: task add 2\n", shown)
        self.assertIn("refused 5 Children 0.1\n  0 is at a taskwait, and its child 0.1 hasn't ended\n", shown)
        self.assertNotIn("\x1b[2m", shown)
        self.assertIn("undone 0#3", shell.type("back"))
        self.assertIn("=>    5    task add 2   <- 0", shell.type("l"))
        self.assertIn("0.1 add pending", shell.type("i tasks"))

    def test_colours(self) -> None:
        self.assertIn("\x1b[2m", self.open(RACE).type("s 0"))
        plain = self.open("--plain", RACE)
        self.assertTrue(plain.type("step 0").endswith("\n0#1 start\n(taskback) "))
        self.assertTrue(plain.type("s 0").endswith("\nerror word\n(taskback) "))

    def test_completion(self) -> None:
        shell = self.open(RACE)
        shell.type("run 2")
        shell.type("step 0.1")
        for typed, wanted in (("fini\t", "finish "), ("deps 0.\t", "deps 0.1"), ("break bo\t m\t", "break body main"),
                              ("undo 0.\t", "undo 0.1#1"), ("i wa\t", "i waits"), ("rollcell \t", "rollcell 0")):
            shell.send(typed)
            shell.read_until(wanted)
            shell.send("\x15# Enter alone would step\n")
            shell.read_until("(taskback) ")

    def test_interrupt_keeps_the_session(self) -> None:
        shell = self.open("--limit", "1000000", write_file(self, LOOP), NO_COLOR="1")
        taken = shell.stopped("run -v 1000000", "0#500 ")
        self.assertTrue(0 < taken < 1000000 and taken % 1000 == 0, taken)
        self.assertIn(f"0#{taken + 1} ", shell.type("step 0"))
        shell.send("half a line")
        shell.read_until("half a line")
        shell.interrupt()
        shell.read_until("(taskback) ")
        self.assertIn("ready 1\n0\n", shell.type("ready"))

    def test_help_and_errors(self) -> None:
        shell = self.open(RACE, NO_COLOR="1")
        self.assertIn("random SEED [N]", shell.type("help"))
        self.assertIn("for example: step 0.1 3", shell.type("help s"))
        self.assertIn("error word\n  no such command", shell.type("fly"))
        self.assertIn("error name\n  a task is written 0.1", shell.type("step 00"))
        self.assertIn("refused 1 NoSuchTask\n  task 0.7 hasn't been generated", shell.type("step 0.7"))
        self.assertIn("refused 1 NoSuchStep\n  step 0#9 isn't in the history", shell.type("undo 0#9"))
        self.assertIn("can't read /no/file", shell.type("source /no/file"))
        self.assertIn("can't write /no/file", shell.type("save /no/file"))
        self.assertIn("finish [T]", shell.type("finish 0 0"))

    def test_waiting_names_the_clauses(self) -> None:
        shell = self.open(os.path.join(EXAMPLES, "order.task"), NO_COLOR="1")
        shell.type("step 0 3")
        self.assertIn("refused 3 Waiting 0.1\n  0.2 waits for 0.1: depend inout 0 on lines 4 and 5\n", shell.type("step 0.2"))

    def test_walking(self) -> None:
        shell = self.open(RACE, NO_COLOR="1")
        self.assertIn("0.2#2 load r1 0 1", shell.type("until 0.2#2"))
        self.assertIn("0.2#2 is in the history already", shell.type("until 0.2#2"))
        self.assertIn("0.2#5 end", shell.type("finish 0.2"))
        self.assertIn("started anew", shell.type("restart"))
        first = shell.type("random 7")
        self.assertIn("no task can step", first)
        shell.type("restart")
        self.assertEqual(shell.type("random 7"), first)
        shell.type("restart")
        shell.type("run 3")
        self.assertIn("0.2#1 start", shell.type("last"))
        self.assertIn("0.2#2 load r1 0 0", shell.type(""))

    def test_line_breaks(self) -> None:
        shell = self.open(RACE, NO_COLOR="1")
        self.assertIn("break s1 line 13", shell.type("b line 13"))
        self.assertIn("break 1\n", shell.type("b line 10"))
        self.assertIn("no step is executed at line 2", shell.type("b line 2"))
        self.assertIn("0.1#1 start                     10: body add 1\nran 4 break\n  breakpoint 1: body add\n", shell.type("go"))
        self.assertIn("13: store 0 r1\nran 3 break\n  breakpoint s1: line 13", shell.type("c"))
        self.assertIn("s1 line 13", shell.type("breaks"))
        self.assertIn("cleared line 13", shell.type("clear line 13"))
        self.assertIn("with 1 breakpoint", shell.type("restart"))

    def test_limit_and_save(self) -> None:
        shell = self.open("--limit", "4", RACE, NO_COLOR="1")
        self.assertIn("ran 3 full\n  the journal is full; `limit N` gives it more room", shell.type("r"))
        self.assertIn("room for 100 entries", shell.type("limit 100"))
        self.assertIn("ran 14 done", shell.type("run"))
        path = write_file(self, "", "saved.session")
        self.assertIn("saved", shell.type("save " + path))
        with open(path, encoding="utf-8") as file:
            done = subprocess.run([PROGRAM, "--limit", "100"], stdin=file, capture_output=True, text=True, timeout=60)
        self.assertTrue(done.stdout.endswith("0#7 end\nran 14 done\n"))

    def test_session_file_is_played(self) -> None:
        shell = self.open(os.path.join(EXAMPLES, "right_sum.session"), NO_COLOR="1")
        for typed, wanted in (("source", "ran 17 done\r\n(taskback) "), ("source", "(taskback) out\r\nout 1\r\n3\r\n(taskback) "),
                              ("", "races 2\r\n"), ("", "rolled 10\r\n"), ("", "0.2#2 load r1 0 0 "), ("", "ran 9 done\r\n"),
                              ("", "out 1\r\n2\r\n"), ("", "no commands are left")):
            shell.send(typed + "\n")
            shell.read_until(wanted)

    def test_history_and_ends(self) -> None:
        home = os.path.dirname(write_file(self, ""))
        shell = self.open(RACE, HOME=home)
        shell.type("waits")
        shell.send("\x04")
        self.assertEqual(shell.wait(), 0)
        shell = self.open(RACE, HOME=home)
        shell.send("\x1b[A\n")
        shell.read_until("waits 0")
        shell.send("quit\n")
        self.assertEqual(shell.wait(), 0)

    def test_refused_program(self) -> None:
        shell = Terminal(self, [write_file(self, "cells 1\nbody main 0\n  let r1 = r0 + 1\nend\n", "chol.task")])
        shown = shell.read_until("let r1 r0 + 1").replace("\r\n", "\n")
        self.assertEqual(shown.split("\n")[0], "chol.task:3: let r1 = r0 + 1")
        self.assertEqual(shown.split("\n")[1], " " * 20 + "^")
        self.assertEqual(shell.wait(), 1)

    def test_options_are_refused_as_by_the_program(self) -> None:
        for words in (["--limit", "x"], ["--limit", "0"], ["--workers", "65"], ["--workers", "-1"], ["--limit", "9" * 30]):
            starts: list[tuple[list[str], list[str]]] = [([PROGRAM], []), ([sys.executable, MAIN, "--program", PROGRAM], [RACE])]
            told = [subprocess.run(start + words + file, stdin=subprocess.DEVNULL, capture_output=True, text=True, timeout=60, check=False)
                    for start, file in starts]
            self.assertEqual((told[1].stderr.strip(), told[1].returncode), (told[0].stderr.strip(), 2), words)


if __name__ == "__main__":
    unittest.main()
