"""A `go` of several workers in the shell: typed, stopped, cut, saved, done again and drawn."""

import os
import re
import subprocess
import sys
import unittest
from typing import Any

from support import LOOP, MAIN, PROGRAM, TOP, Terminal, example, needs_program, write_file
from test_interrupts import Stalling
from test_tutorial import agrees, blocks, rows
from shell.page import page_of
from shell.protocol import Program
from shell.session import Session
from shell.source import Source
from shell.story import Story

ADDS = example("four_workers.task")
# Four tasks that never end.
LOOPS = "cells 4\nbody main 0\n" + 4 * "  task loop\n" + "end\nbody loop 0\n  while 0 == 0\n    store 0 1\n  end\nend\n"


def session_of(test: unittest.TestCase, text: str, **how: Any) -> Session:
    """A session of this program, for the time of the test."""
    session = Session(PROGRAM, Source(text, "workers.task"), **how)
    test.addCleanup(session.close)
    return session


def replies(text: str, *options: str) -> Any:
    """What the program replies to a session, and its status."""
    done = subprocess.run([PROGRAM, *options], input=text, capture_output=True, text=True, timeout=120, check=False)
    return done.stdout.split("\n")[:-1], done.returncode


@needs_program
class DoneAgain(unittest.TestCase):
    def played(self) -> Any:
        """A session in which several workers went three times, with a rollback between."""
        session, self.told = session_of(self, ADDS), []
        for command in ("break print", "go 4 9", "tasks", "go 3 100", "rolltask 0.3", "fly", "go 2 7"):
            reply = session.do(command)
            self.told += reply[:-1] if command.startswith("go") else reply
        return session

    def test_what_is_saved_gives_the_same_but_for_the_last_lines(self) -> None:
        for _ in range(10):
            session = self.played()
            self.assertEqual(replies(session.text() + "hist\n"), (self.told + session.view("hist"), 0))
            self.assertNotIn("\ngo ", session.text())
            self.assertRegex(session.text(), r"\n# go 4 9: ran 9 limit, by these steps\nstep 0\n")

    def test_another_limit_does_the_same_steps(self) -> None:
        session = self.played()
        wanted = session.view("hist")
        self.assertTrue(session.replay(200))
        self.assertEqual(session.view("hist"), wanted)
        self.assertFalse(session.replay(20))
        self.assertEqual(session.view("hist"), wanted)
        self.assertEqual(replies(session.text() + "hist\n")[0][-len(wanted):], wanted)

    def test_after_a_cut_the_same_stands(self) -> None:
        session = self.played()
        wanted, log = session.view("hist"), list(session.log)
        session.resume()
        self.assertEqual((session.view("hist"), session.log), (wanted, log))

    def test_a_story_has_the_same_steps(self) -> None:
        session = self.played()
        story = Story(session)
        self.assertEqual(["hist " + str(len(story.history))] + [f"{name} {story.steps[at].did}" for name, at in story.history.items()],
                         session.view("hist"))
        self.assertEqual([command for command, *_ in story.commands][1:4], ["go 4 9", "tasks", "go 3 100"])
        self.assertEqual(story.commands[1][1][-1], "ran 9 limit")
        self.assertEqual(page_of(session)[1:], (7, len(story.steps)))

    def test_a_run_in_pieces_is_one(self) -> None:
        session = session_of(self, ADDS)
        shown: list[str] = []
        self.assertEqual(session.run("go 4", 100, shown.extend, lambda steps: False, 3), (29, "done", False))
        self.assertEqual((len(shown), session.view("hist")[1:]), (29, shown))
        self.assertEqual((len(session.log), session.log[0].command, session.log[0].ended), (1, "go 4 100", "ran 29 done"))
        session.restart()
        session.do("break print")
        self.assertEqual(session.run("go 4", 100, shown.extend, lambda steps: False, 28), (28, "break", False))
        self.assertEqual(session.run("go 4", 0, shown.extend, lambda steps: False), (0, "limit", False))
        self.assertEqual(session.log[-1].texts(), ["# go 4 0: ran 0 limit"])

    def test_a_full_journal(self) -> None:
        session = session_of(self, ADDS, limit=12)
        self.assertEqual(session.run("go 4", 100, lambda steps: None, lambda steps: False, 5), (11, "full", False))
        self.assertTrue(session.replay(13))
        self.assertEqual(session.do("go 4 100")[-1], "ran 1 full")

    def test_more_workers(self) -> None:
        self.assertEqual(session_of(self, ADDS).workers, 4)
        session = session_of(self, ADDS, options=["--workers", "64"])
        self.assertEqual((session.workers, session.do("go 64 100")[-1]), (64, "ran 29 done"))
        self.assertIn("\n---\n# run it with --workers 64\n# go 64 100: ran 29 done, by these steps\n", session.text())


@needs_program
class Typed(Stalling):
    def shell(self, text: str, *words: str) -> Any:
        shell = Terminal(self, [*words, write_file(self, text, "workers.task")], NO_COLOR="1")
        shell.read_until("(taskback) ")
        return shell

    def test_each_form_of_go(self) -> None:
        shell = self.shell(ADDS)
        self.assertEqual([line.split("  ")[0] for line in shell.ask("go 2")], ["0#1 start", "0#2 spawn 0.1 add 1 depend mutexinoutset 0", "ran 2 limit"])
        self.assertEqual(shell.ask("go 4 5")[-1], "ran 5 limit")
        self.assertEqual(shell.ask("")[-1], "ran 5 limit")
        self.assertEqual(shell.ask("c 3 100")[-1], "ran 17 done")
        words = "  a number is missing, or out of its range: here W is 1 to 4, which `--workers` sets for the whole session, and N is 0 to 1000000"
        self.assertEqual(shell.ask("go 5 1"), ["error number", words])
        self.assertEqual(shell.ask("go 4 x")[0], "error number")
        self.assertEqual(shell.ask("go 1 2 3")[0], "error count")
        self.assertIn("  for example: go 4 100", shell.ask("help go"))

    def test_completion_has_the_workers(self) -> None:
        for words, least in ((("--workers", "7"), "7"), (("--workers", "3"), "3")):
            shell = self.shell(ADDS, *words)
            shell.send("go \t\t")
            self.assertIn(least, shell.read_until("(taskback) go "))
            shell.send("\x15# Enter alone would step\n")
            shell.read_until("would step")
            shell.read_until("(taskback) ")
            self.assertEqual(shell.ask(f"go {least} 1"), ["0#1 start                       3: body main 0", "ran 1 limit"])
            self.assertEqual(shell.ask(f"go {int(least) + 1} 1")[0], "error number")

    def test_a_breakpoint_at_a_line_stops_all(self) -> None:
        shell = self.shell(ADDS)
        shell.ask("b line 10")
        shown = shell.ask("go 4 100")
        self.assertEqual(shown[-1], "  breakpoint s1: line 10")
        self.assertEqual([line.split(" ")[1] for line in shown if "#" in line].count("print"), 1)
        self.assertRegex(shown[-2], "^ran 28 break$")

    def test_ctrl_c_keeps_the_session(self) -> None:
        shell = self.shell(LOOPS, "--limit", "1000000")
        taken = shell.stopped("go -v 4 1000000", "#100 ")
        self.assertTrue(0 < taken < 1000000 and taken % 1000 == 0, taken)
        self.assertEqual(shell.ask("hist")[0], f"hist {taken}")
        path = write_file(self, "", "saved.session")
        self.assertEqual(shell.ask("save " + path), [f"saved {path}, 2 commands", "  what several workers did is saved as the steps that they executed"])
        with open(path, encoding="utf-8") as file:
            said, status = replies(file.read() + "ready\n", "--limit", "1000000")
        self.assertEqual((len(said), status), (2 * taken + 1 + len(shell.ask("ready")), 0))

    def test_the_second_ctrl_c_keeps_what_was_taken(self) -> None:
        program, told = self.stalling("go 4 1000", 3)
        shell = self.open(program, "--limit", "1000000", write_file(self, LOOP))
        shell.send("go -v 4 1000000\n")
        shell.read_until("0#2000 ")
        self.cut_by_the_second(shell, told)
        self.assertEqual(shell.ask("hist")[0], "hist 2000")
        self.assertEqual(shell.ask("go 4 5")[-1], "ran 5 limit")

    def test_plain_lines_are_the_programs_own(self) -> None:
        done = subprocess.run([sys.executable, MAIN, "--program", PROGRAM, "--plain", write_file(self, ADDS, "workers.task")],
                              input="break print\ngo 4 100\ngo 04 0100\ngo 9 9\ngo 2 x\n", capture_output=True, text=True, timeout=60, check=False)
        lines = done.stdout.split("\n")
        self.assertEqual((lines[0], lines[28], lines[29:], done.stderr),
                         ("break 1", "0#8 print 10", ["ran 28 break", "0#9 end", "ran 1 done", "error number", "error number", ""], ""))


@needs_program
class Tutorial(unittest.TestCase):
    def setUp(self) -> None:
        with open(os.path.join(TOP, "docs", "TUTORIAL.md"), encoding="utf-8") as file:
            self.section = re.split(r"^## ", file.read().split("`four_workers.task`\n", 1)[1], flags=re.M)[0]
        self.rows = rows([line for block in blocks(self.section) for line in block])

    def replies(self) -> Any:
        """What the program replies to each command of the section."""
        program = Program(PROGRAM, example("four_workers.task"))
        self.addCleanup(program.close)
        return [program.ask(typed) for typed, _ in self.rows]

    def test_what_is_no_luck(self) -> None:
        self.assertEqual([typed for typed, _ in self.rows], ["break print", "go 4 100", "go 4 100", "rolltask 0.3", "go 4 100", "cells"])
        for _ in range(20):
            _, first, last, rolled, again, cells = self.replies()
            self.assertEqual((first[0], first[-2:]), ("0#1 start", ["0#8 print 10", "ran 28 break"]))
            self.assertEqual(last, ["0#9 end", "ran 1 done"])
            # The five steps of 0.3, those of each that added after it, and four of the root.
            self.assertIn(rolled[0], ["rolled 9", "rolled 14", "rolled 19", "rolled 24"])
            self.assertEqual(again[-2:], ["0#8 print 10", f"ran {int(rolled[0][7:]) - 1} break"])
            self.assertEqual(cells, ["cells 1", "0 10"])

    def test_what_is_shown_is_one_of_the_ways(self) -> None:
        self.assertTrue(any(all(agrees(wanted, shown) for (_, wanted), shown in zip(self.rows, self.replies())) for _ in range(200)))

    def test_its_program_is_that_of_the_file(self) -> None:
        program = example("four_workers.task").split("\n")
        for line in (line for block in blocks(self.section, "task") for line in block):
            self.assertIn("  " + line, program)


if __name__ == "__main__":
    unittest.main()
