"""The protocol against the real program, and lines of steps against the program's own positions."""

import glob
import os
import unittest
from typing import Any

from support import EXAMPLES, PROGRAM, example, needs_program
from shell.protocol import Ended, Program, Refused, has_reply, words_of
from shell.session import Session, is_step
from shell.source import Source, split_session


def names() -> Any:
    """The stored sessions."""
    return sorted(glob.glob(os.path.join(EXAMPLES, "*.session")))


class WordsTest(unittest.TestCase):
    def test_comments_and_blanks(self) -> None:
        self.assertEqual(words_of("undo 0#3 # back"), ["undo", "0#3"])
        self.assertFalse(has_reply(" \t\r # only a comment"))
        for line in ("#" * 1025, " " * 1025, " # " + "y" * 1025):
            self.assertFalse(has_reply(line), line[:9])
        self.assertTrue(has_reply(" " * 1025 + "step 0"))
        self.assertTrue(has_reply("\x0b"))

    def test_split(self) -> None:
        self.assertEqual(split_session("cells 1\n --- # now\nrun 1\n\n# c\n"), ("cells 1\n", ["run 1"]))
        self.assertEqual(split_session("cells 1\n"), ("cells 1\n", None))


@needs_program
class ProgramTest(unittest.TestCase):
    def open(self, text: str, *options: str) -> Any:
        program = Program(PROGRAM, text, options)
        self.addCleanup(program.close)
        return program

    def test_stored_sessions_reply_by_reply(self) -> None:
        for path in names():
            text, commands = split_session(example(os.path.basename(path)))
            program = self.open(text)
            lines = [line for command in commands for line in program.ask(command)]
            self.assertEqual("".join(line + "\n" for line in lines), example(os.path.basename(path)[:-7] + "out"), path)

    def test_each_reply_ends_where_the_next_begins(self) -> None:
        program = self.open(example("order.task"))
        for command in ("step 0", "run 3", "go 1 0", "cells", "cells 1", "task 0", "task 0.1", "task 0.9", "tasks", "waits",
                        "deps 0.1", "break body nobody", "break print", "break cell 0", "breaks", "clear 9", "clear 1",
                        "hist", "why 0#2", "who 0#1", "roll 0#2", "undo 0#9", "fly", "run x", "step", "out", "ready",
                        "rollprint", "", "# nothing", "x" * 2000, "run 99", "rollprint"):
            program.ask(command)
            self.assertEqual(program.ask("break zzz"), ["error word"], command)

    def test_refused_program(self) -> None:
        with self.assertRaises(Refused) as caught:
            Program(PROGRAM, "cells 1\nbody main 0\nlet r1 = r0\nend\n")
        self.assertEqual((caught.exception.line, caught.exception.kind), (3, "BadNumber"))

    def test_ended_program(self) -> None:
        program = self.open(example("first.task"))
        program._child.kill()
        program._child.wait()
        with self.assertRaises(Ended):
            program.ask("tasks")
        with self.assertRaises(Ended):
            Program("/no/such/program", "")
        with self.assertRaises(Ended) as caught:
            Program(PROGRAM, example("first.task"), ["--limit", "x"])
        self.assertEqual(caught.exception.status, 2)


@needs_program
class PlacesTest(unittest.TestCase):
    def test_lines_are_the_programs_own(self) -> None:
        text = ("cells 1\nbody main 0\n  while r0 < 2\n    # a comment\n    if r0 == 0\n      taskgroup\n        task t\n"
                "      end\n    else\n      if 1 == 1\n      end\n    end\n    let r0 r0 + 1\n  end\n  task t\nend\n"
                "body t 0\n  if 0 == 1\n    print 1\n  end\nend\n")
        texts = [text] + [split_session(example(os.path.basename(path)))[0] for path in names()]
        for text in texts:
            session = Session(PROGRAM, Source(text, "x.task"))
            self.addCleanup(session.close)
            while is_step(session.do("run 1")[0]):
                kept = dict(session.positions.position)
                session.positions.learn(session.view("tasks"))
                self.assertEqual({task: line for task, line in kept.items() if line}, session.positions.position)

    def test_saved_session_gives_the_same_replies(self) -> None:
        session = Session(PROGRAM, Source(example("race.task"), "race.task"))
        self.addCleanup(session.close)
        said = []
        for command in ("break cell 0", "go 1 99", "step 0.1", "step 0", "roll 0.1#2", "hist", "fly"):
            said += session.do(command)
        taken, why, stopped = session.run("run", 50, said.extend, lambda steps: bool(steps) and "0.2#2" in steps[0], 1)
        said.append(f"ran {taken} {why}")
        self.assertTrue(stopped)
        text, commands = split_session(session.text())
        program = Program(PROGRAM, text)
        self.addCleanup(program.close)
        self.assertEqual([line for command in commands for line in program.ask(command)], said)

    def test_more_room(self) -> None:
        session = Session(PROGRAM, Source(example("race.task"), "race.task"), 4)
        self.addCleanup(session.close)
        self.assertEqual(session.do("run 9")[-1], "ran 3 full")
        self.assertEqual(session.do("step 0.1"), ["refused 7 Full"])
        self.assertTrue(session.replay(100))
        self.assertEqual(session.view("hist")[0], "hist 3")
        self.assertEqual(session.do("step 0.1"), ["0.1#1 start"])
        self.assertFalse(session.replay(3))
        self.assertEqual((session.limit, session.view("hist")[0]), (100, "hist 4"))


if __name__ == "__main__":
    unittest.main()
