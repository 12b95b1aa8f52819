"""`races` and `causes`: what the shell says of them is tried on the program. Where the program has no such
views yet, which it says by `error word`, only that is tested, and a line says so."""

import io
import re
import sys
import unittest
from collections.abc import Iterable
from typing import Any

from programs import random_program
from support import EXAMPLES, PROGRAM, Terminal, Typed, example, needs_program, write_file
from test_dap import RECORDED
from shell import race_advice
from shell.commands import Shell
from shell.console import Console
from shell.facts import race_of
from shell.session import Session
from shell.source import Source


def open_session(test: unittest.TestCase, text: str) -> Session:
    """A session of this program."""
    session = Session(PROGRAM, Source(text, "x.task"))
    test.addCleanup(session.close)
    return session


def has_views(test: unittest.TestCase) -> bool:
    """Whether the program answers the two views; where it doesn't, says so."""
    session = open_session(test, example("race.task"))
    session.do("run 99")
    replies = [session.view("races"), session.view("causes 0#7")]
    if replies == [["error word"], ["error word"]]:
        print("races, causes: this program has no such views; their words weren't tried", file=sys.stderr)
        return False
    return True


# A program's root and its bodies after two lines, and what is said of one kind of its races.
ADVISED = {
    "a parameter, by the register of the task line": (
        "  while r3 < 3\n    task fill r3\n    task read r3\n    let r3 r3 + 1\n  end\nend\nbody fill 1\n  store r0 7\nend\nbody read 1\n  load r1 r0\nend\n",
        "race 1, one of 3 of these two lines: `depend out r3` on line 4 and `depend in r3` on line 5 would order them, or a `taskwait` between"),
    "one that has a clause of the wrong type": (
        "  task fill depend in 0\n  task read depend in 0\nend\nbody fill 0\n  store 0 7\nend\nbody read 0\n  load r1 0\nend\n",
        "race 1: `depend inout 0` in place of `depend in 0` on line 3 would order them, or a `taskwait` between"),
    "types that keep no order among themselves": (
        "  task fill depend inoutset 0\n  task fill depend inoutset 0\nend\nbody fill 0\n  store 0 7\nend\n",
        "race 1: `depend inout 0` in place of `depend inoutset 0` on line 4 would order them, or a `taskwait` between"),
    "a computed address, by a register that has it": (
        "  while r3 < 2\n    task fill r3\n    task fill r3\n    let r3 r3 + 1\n  end\nend\nbody fill 1\n  let r1 r0 + 0\n  store r1 7\nend\n",
        "race 1, one of 2 of these two lines: `depend out r3` on lines 4 and 5 would order them, or a `taskwait` between"),
    "what a child of the later one does": (
        "  task fill\n  task outer\nend\nbody fill 0\n  store 0 7\nend\nbody outer 0\n  task read\nend\nbody read 0\n  load r1 0\nend\n",
        "race 1: `depend out 0` on line 3 and `depend in 0` on line 4 would order them, or a `taskwait` between"),
}


def texts_tried(count: int) -> list[str]:
    """Random programs, and some of the examples."""
    return [random_program(seed) for seed in range(count)] + [
        example(name + ".task") for name in ("exclusion", "race", "partial_wait", "waits", "undeferred")]


def told_races(session: Session) -> dict[Any, str]:
    """The races of a finished run, each as its tasks, its lines and its cell."""
    found = {}
    for line in session.view("races")[1:]:
        steps = line.split(" ")[:2]
        places = tuple((step.split("#")[0], session.positions.line_of(step)) for step in steps)
        found[places] = line
    return found


def mended(text: str, kind: race_advice.Kind) -> tuple[str, dict[int, int]]:
    """The program with the first thing that is advised, and the new numbers of its lines."""
    lines = text.split("\n")[:-1]
    moved = {number: number for number in range(1, len(lines) + 1)}
    if kind.clauses:
        for clause in kind.clauses:
            before, _, condition = lines[clause.line - 1].partition(" if ")
            place = clause.location or "0"
            if clause.instead:
                before = before.replace(f"depend {clause.instead} {place}", "", 1)
            lines[clause.line - 1] = f"{before} depend {clause.type} {place}" + (f" if {condition}" if condition else "")
    else:
        word, at = re.fullmatch(r"a `(\w+)` .* line (\d+)", kind.others[0]).groups()
        at = int(at)
        if word == "taskwait":
            lines.insert(at, "taskwait")
            moved = {number: number + (number > at) for number in moved}
        else:
            lines[at - 1:at] = ["taskgroup", lines[at - 1], "end"]
            moved = {number: number + (number >= at) + (number > at) for number in moved}
    return "".join(line + "\n" for line in lines), moved


def advised(session: Session, line: str) -> race_advice.Kind:
    """What is advised for one race."""
    return race_advice.kinds_of(session, [race_of(line)])[0]


def run_to_end(test: unittest.TestCase, text: str) -> Session:
    """A session of this program, run to its end."""
    session = open_session(test, text)
    test.assertEqual(session.do("run 900")[-1].split(" ")[2], "done")
    return session


@needs_program
class RaceWords(unittest.TestCase):
    def test_what_is_advised_orders_the_two_steps(self) -> None:
        if not has_views(self):
            return
        tried = set()
        for seed, text in enumerate(texts_tried(25)):
            session = open_session(self, text)
            session.do("run 400")
            for places, line in list(told_races(session).items())[:4]:
                kind = advised(session, line)
                if line.endswith(" apart"):
                    self.assertEqual(kind.advice(), race_advice.APART)
                    tried.add("apart")
                    continue
                better, moved = mended(text, kind)
                tried.add("depend" if kind.clauses else re.match(r"a `(\w+)`", kind.others[0])[1])
                again = run_to_end(self, better)
                wanted = tuple((task, moved[number]) for task, number in places)
                pairs = [set(pair) for pair in told_races(again)]
                self.assertNotIn(set(wanted), pairs, (seed, line, kind.advice()))
                self.no_clause_twice(session, kind, seed)
        self.assertEqual(tried, {"depend", "taskwait", "taskgroup", "apart"})

    def no_clause_twice(self, session: Session, kind: race_advice.Kind, seed: int) -> None:
        """What is advised isn't there already."""
        for clause in kind.clauses:
            if clause.location:
                self.assertNotRegex(session.source.line(clause.line) + " ", f"depend {clause.type} {clause.location} ", seed)

    def test_clauses_in_terms_of_the_task_line(self) -> None:
        for name, (body, wanted) in ADVISED.items():
            with self.subTest(name=name):
                session = run_to_end(self, "cells 4\nbody main 0\n" + body)
                races = [race_of(line) for line in session.view("races")[1:]]
                told = [kind.in_words() for kind in race_advice.kinds_of(session, races)]
                self.assertIn(wanted, told)
                better, _ = mended(session.source.text, race_advice.kinds_of(session, races)[0])
                left = [race_of(line) for line in run_to_end(self, better).view("races")[1:]]
                self.assertLess(len(left), len(races))

    def test_the_missing_clause_alone_is_named(self) -> None:
        session = run_to_end(self, example("luck.task"))
        races = [race_of(line) for line in session.view("races")[1:]]
        self.assertEqual([kind.in_words() for kind in race_advice.kinds_of(session, races)],
                         ["race 1: `depend in 1` on line 6 would order them, or a `taskwait` between"])

    def test_a_recorded_run_shows_its_lines_of_c(self) -> None:
        typed = Typed(self, RECORDED.split("---\n")[0].replace(" depend inout 0", ""), "sum.session")
        self.assertEqual(typed.ask("run 3")[1], "0#2 spawn 0.1 task4             3: task task4  # sum.c:4")
        typed.ask("run")
        self.assertIn("0.1#3 0.2#2 cell 0              9: store 0 1  # sum.c:5  |  12: load r1 0  # sum.c:7", typed.ask("races"))
        self.assertEqual(typed.session.source.shown(2), "body main 0")
        # Both of its races are of the same two lines of C.
        self.assertEqual(typed.ask("races")[2:], ["  race 1, one of 2 of these two lines: `depend inout 0` on lines 3 and 4 (sum.c:4, sum.c:6) "
                                                  "would order them, or a `taskwait` between",
                                                  "  2 races of 1 pair of lines; `flip N` shows both outcomes of race N"])

    def test_the_right_sum(self) -> None:
        if not has_views(self):
            return
        shell = Terminal(self, [EXAMPLES + "/right_sum.task"], NO_COLOR="1")
        shell.read_until("(taskback) ")
        shell.ask("run")
        self.assertEqual(shell.ask("races"), [
            "races 2",
            "0.1#4 0.2#2 cell 0              13: store 0 r1  |  11: load r1 0",
            "  race 1: `depend inout 0` on lines 4 and 5 would order them, or a `taskwait` between",
            "0.1#4 0.2#4 cell 0              13: store 0 r1  |  13: store 0 r1",
            "  race 2: `depend inout 0` on lines 4 and 5 would order them, or a `taskwait` between"])

    def test_many_lines_are_told_by_the_first_and_the_last(self) -> None:
        def words(lines: Iterable[int]) -> str:
            return race_advice.clauses_in_words([race_advice.Clause(line, "inout", "0") for line in lines])
        self.assertEqual(words([4, 4]), "`depend inout 0` on line 4")
        self.assertEqual(words([9, 2, 4, 3]), "`depend inout 0` on lines 2, 3, 4 and 9")
        self.assertEqual(words([9, *range(2, 9)]), "`depend inout 0` on lines 2 to 9")
        self.assertEqual(words(range(101, 200)), "`depend inout 0` on 99 lines, 101 to 199,")
        self.assertEqual(words(range(101, 300, 2)), "`depend inout 0` on 100 lines, 101, 103, 105, 107, 109, 111, .. and 299,")

    def test_many_cells_of_a_line_are_told_together(self) -> None:
        def words(repeated: bool, *cells: str, instead: str = "") -> str:
            return race_advice.clauses_in_words([race_advice.Clause(5, "inout", cell, instead, repeated) for cell in cells])
        self.assertEqual(words(False, "3"), "`depend inout 3` on line 5")
        self.assertEqual(words(False, "3", "0", "3"), "`depend inout` of cells 0 and 3 on line 5")
        self.assertEqual(words(True, *map(str, range(9, 0, -1))), "`depend inout` of each task's own cell (1 to 9) on line 5")
        self.assertEqual(words(True, "r2", "1", "4", instead="in"),
                         "`depend inout r2` in place of `depend in r2` on line 5 and `depend inout` of each task's own cell (1 and 4) in place of `depend in` on line 5")

    def test_a_loop_whose_tasks_read_the_next_ones_cell(self) -> None:
        text = "cells 9\nbody main 0\n  while r0 < 8\n    task work r0 depend inout r0\n    let r0 r0 + 1\n  end\nend\n" \
               "body work 1\n  let r2 r0 + 1\n  load r3 r2\n  store r0 r3\nend\n"
        session = run_to_end(self, text)
        races = [race_of(line) for line in session.view("races")[1:]]
        self.assertEqual([kind.advice() for kind in race_advice.kinds_of(session, races)],
                         ["`depend in` of each task's own cell (1 to 7) on line 4 would order them, or a `taskwait` between"])

    def test_many_races_are_told_by_pairs_of_lines(self) -> None:
        text = "cells 1\nbody main 0\n  while r1 < 30\n    task add\n    let r1 r1 + 1\n  end\nend\nbody add 0\n  load r1 0\n  store 0 r1\nend\n"
        session = run_to_end(self, text)
        out = io.StringIO()
        Shell(session, Console(out)).onecmd("races")
        lines = out.getvalue().split("\n")
        self.assertEqual(lines[0], "races 58")
        self.assertEqual(lines[2], "  race 1, one of 29 of these two lines: `depend inout 0` on line 4 would order them, or a `taskwait` between")
        self.assertEqual(lines[5:], ["  58 races of 2 pairs of lines; `flip N` shows both outcomes of race N", ""])
        exact = io.StringIO()
        Shell(session, Console(exact, exact=True)).onecmd("races")
        self.assertEqual(exact.getvalue().split("\n")[:-1], session.view("races"))


@needs_program
class CauseWords(unittest.TestCase):
    def test_each_cause_has_words_and_both_lines(self) -> None:
        if not has_views(self):
            return
        kinds = set()
        for text in texts_tried(15):
            session = open_session(self, text)
            session.do("run 200")
            out = io.StringIO()
            shell = Shell(session, Console(out))
            for step in [line.split(" ")[0] for line in session.view("hist")[1:]][::3]:
                out.seek(0)
                out.truncate()
                shell.onecmd("causes " + step)
                shown = out.getvalue().split("\n")
                count = int(shown[0].split(" ")[1])
                self.assertEqual(len(shown), 2 + 2 * count, shown)
                kinds |= {line.split(":")[0].split(" ")[0] for line in shown[1:-1:2]}
                for line, words in zip(shown[1::2], shown[2::2]):
                    self.assertRegex(line, r" \d+: \w")
                    self.assertTrue(words.startswith("  ") and "None" not in words, words)
                    if line.startswith(("before", "apart")):
                        self.assertRegex(words, r"depend \w+ \d.* on lines? \d")
        self.assertEqual(kinds, {"task", "spawn", "cell", "print", "before", "apart", "wait", "group", "undeferred"})

    def test_refusals(self) -> None:
        if not has_views(self):
            return
        shell = Terminal(self, [write_file(self, example("race.task"), "race.task")], NO_COLOR="1")
        shell.read_until("(taskback) ")
        self.assertEqual(shell.ask("causes 0#9"), ["refused 1 NoSuchStep", "  step 0#9 isn't in the history"])
        self.assertEqual(shell.ask("races x")[0], "error count")
        self.assertEqual(shell.ask("causes")[0], "error count")
        self.assertEqual(shell.ask("edges x"), ["error count", "  too few words, or too many: edges, for example: edges"])

    def test_edges(self) -> None:
        """Each line has the source lines of both of its steps."""
        shell = Typed(self, example("right_sum.task"))
        shell.ask("run")
        shown = shell.ask("edges")
        self.assertEqual(shown[0].split(" ")[0], "edges")
        self.assertIn("0.1#4 0.2#2 cell 0              13: store 0 r1  |  11: load r1 0", shown)
        self.assertEqual([line.split("   ")[0] for line in shown], shell.session.view("edges"))
        self.assertEqual(shell.ask("info ed"), shown)


@needs_program
class WithoutTheViews(unittest.TestCase):
    def test_a_program_without_them_is_told(self) -> None:
        session = open_session(self, example("race.task"))
        setattr(session.program, "ask", lambda command: ["error word"])
        out = io.StringIO()
        shell = Shell(session, Console(out))
        for typed in ("races", "causes 0#1", "edges"):
            shell.onecmd(typed)
        self.assertEqual(out.getvalue(), "error word\n  this build has no such view\n" * 3)


if __name__ == "__main__":
    unittest.main()
