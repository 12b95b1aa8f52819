"""Breakpoints with conditions, watched values, ways back and again, past states, and two runs side by side."""

import fcntl
import os
import random
import struct
import termios
import unittest
import unittest.mock
from collections.abc import Sequence
from typing import Any

from programs import random_program
from support import EXAMPLES, PROGRAM, Terminal, Typed, example, needs_program, write_file
from shell import comparing
from shell.comparing import first_difference
from shell.session import Session
from shell.source import Source
from test_dap import RECORDED

LOOP = "cells 2\nbody main 0\n  while r0 < 20\n    let r0 r0 + 1\n    store 0 r0\n  end\nend\n"
BIG = "cells 1\nbody main 0\n  while 0 == 0\n    store 0 1\n  end\nend\n"


def state(session: Session) -> Any:
    """What a session shows."""
    return [session.view(view) for view in ("hist", "cells", "out", "tasks")]


@needs_program
class Stopping(unittest.TestCase):
    def test_conditions_and_watched_numbers(self) -> None:
        for stop, wanted in (("break line 4 if r0 > 3", "0#12 let r0 4"), ("break cell 0 if value == 5", "0#16 store 0 5"),
                             ("break cell 0 if value == 5 and cell == 0", "0#16 store 0 5"), ("break task 0 if steps(0) == 7", "0#7 store 0 2"),
                             ("watch c[0] > 6", "0#22 store 0 7"), ("watch r0 of 0", "0#3 let r0 1"), ("watch c[0]", "0#4 store 0 1")):
            shell = Typed(self, LOOP)
            shell.ask(stop)
            shown = shell.plain("go")
            self.assertEqual(shown[-2], wanted, stop)
            self.assertEqual(shown[-1].split(" ")[2], "break", stop)

    def test_how_they_are_told(self) -> None:
        shell = Typed(self, LOOP)
        self.assertEqual(shell.plain("break line 5 if r0 == 2"), ["break s1 line 5 if r0 == 2"])
        self.assertEqual(shell.plain("watch c[1] + r0"), ["watch s2 c[1] + r0 = 0"])
        self.assertEqual(shell.plain("break body main if r0 == 0"), ["break s3 body main if r0 == 0"])
        self.assertEqual(shell.ask("breaks"), ["breaks 0", "s1 line 5 if r0 == 2            5: store 0 r0", "s2 watch (c[1] + r0) of 0",
                                               "s3 body main if r0 == 0"])
        self.assertEqual(shell.ask("go")[-1], "  breakpoint s3: body main if r0 == 0")
        self.assertEqual(shell.ask("go")[-1], "  breakpoint s2: (c[1] + r0) of 0: 0 -> 1")
        self.assertEqual([shell.plain(line) for line in ("clear s2", "clear s2", "clear line 5", "clear s9")],
                         [["cleared s2"], ["no breakpoint s2; `breaks` shows them"], ["cleared line 5"], ["no breakpoint s9; `breaks` shows them"]])
        self.assertEqual(shell.plain("go")[-1], "ran 60 done")

    def test_the_line_of_a_body_is_cleared_as_it_was_set(self) -> None:
        shell = Typed(self, example("race.task"))
        self.assertEqual([shell.plain(line) for line in ("break line 10", "break line 10 if value == 3", "clear line 10", "breaks", "clear line 10")],
                         [["break 1"], ["break s1 body add if value == 3"], ["cleared 1", "cleared line 10"], ["breaks 0"], ["no breakpoint is at line 10"]])

    def test_one_at_the_last_step_that_was_asked_for(self) -> None:
        shell = Typed(self, example("race.task"))
        shell.ask("break line 5")
        shell.ask("break cell 0")
        self.assertEqual(shell.ask("go 3")[-2:], ["ran 3 break", "  breakpoint s1: line 5"])
        shell.ask("break line 11")
        self.assertEqual(shell.ask("go 9")[-3:], ["ran 2 break", "  breakpoint 1: cell 0", "  breakpoint s2: line 11"])
        self.assertEqual(shell.plain("until 0.1#4")[-1], "ran 2 limit")
        for typed in ("clear 1", "clear s1", "clear s2", "break line 9"):
            shell.ask(typed)
        self.assertEqual(shell.ask("go 100")[-2:], ["ran 10 break", "  breakpoint s3: line 9"])

    def test_what_can_not_be_a_breakpoint(self) -> None:
        shell = Typed(self, LOOP)
        for typed, wanted in (("break cell 7 if 1", "the program has no cell 7"), ("break body x if 1", "no body of the program is named x"),
                              ("break task x if 1", "a task is written 0.1"), ("break line 5 if x", "`x` is no number"), ("break line 5 if", "break task T"),
                              ("break zebra 1 if 1", "break task T"), ("watch", "watch EXPR"), ("watch 1 +", "an expression has"), ("clear line 9", "no breakpoint is at line 9")):
            self.assertTrue(shell.ask(typed)[0].startswith(wanted), (typed, shell.ask(typed)))
        self.assertEqual(shell.plain("breaks"), ["breaks 0"])

    def test_run_stops_where_it_is_set(self) -> None:
        shell = Typed(self, LOOP)
        shell.ask("break line 5 if r0 == 2")
        self.assertEqual(shell.ask("set"), ["run-breaks off", "pager on"])
        shell.ask("set run-breaks on")
        self.assertEqual(shell.plain("run")[-2:], ["0#7 store 0 2", "ran 7 break"])
        shell.ask("set run-breaks off")
        self.assertEqual(shell.ask("run 20")[-2:], ["ran 20 limit", "  `run` passes by breakpoints: `go` stops at them, and after `set run-breaks on` so does `run`"])
        self.assertEqual(shell.ask("run 20")[-1], "ran 20 limit")
        self.assertTrue(shell.ask("set zebra on")[0].startswith("set [NAME on|off]"))

    def test_a_watched_number_stops_backwards_too(self) -> None:
        shell = Typed(self, LOOP)
        shell.ask("run 20")
        shell.ask("watch c[0] > 3")
        self.assertEqual(shell.ask("rc")[-2:], ["went back 8 break", "  breakpoint s1: c[0] > 3: 1 -> 0"])
        self.assertEqual(shell.session.newest, "0#12")
        shell.ask("clear s1")
        shell.ask("break line 4 if r0 == 2")
        shell.ask("break cell 0")
        self.assertEqual(shell.ask("rc")[-2:], ["went back 2 break", "  breakpoint 1: cell 0"])
        shell.ask("clear 1")
        self.assertEqual(shell.ask("rc")[-1], "  breakpoint s2: line 4 if r0 == 2")
        self.assertEqual(shell.session.newest, "0#6")
        self.assertEqual(shell.plain("rc")[-1], "went back 6 start")
        self.assertEqual(len(shell.plain("redo")), 7)
        self.assertEqual(shell.ask("rc x")[0], "`rc` takes no words")

    def test_lines_of_the_c_file_of_a_recorded_run(self) -> None:
        shell = Typed(self, RECORDED.split("---\n")[0], "sum.session")
        for typed, wanted in (
                ("break sum.c:5", ["error word", "  did you mean `break line sum.c:5`?"]), ("break line sum.c:99", ["no step is executed at sum.c:99"]),
                ("break line sum.c:5", ["break s1 line sum.c:5", "  go stops after each step at 2 lines of the session"]),
                ("go", ["0.1#2 load r1 0 0", "ran 5 break", "  breakpoint s1: line sum.c:5"]), ("go", ["0.1#3 store 0 1", "ran 1 break", "  breakpoint s1: line sum.c:5"]),
                ("breaks", ["breaks 0", "s1 line sum.c:5"]), ("clear line sum.c:6", ["no breakpoint is at line sum.c:6"])):
            self.assertEqual([line if line.startswith("  ") else line.split("   ")[0] for line in shell.ask(typed)][-len(wanted):], wanted, typed)
        self.assertEqual([line.split()[1 - line.startswith("*")] for line in shell.ask("list 8") if "*" in line[:3]], ["8", "9"])
        self.assertIn("# shell: break line sum.c:5\n", shell.session.text(shell.shell.stops.commands()))
        self.assertEqual(shell.ask("clear line sum.c:5"), ["cleared line sum.c:5"])
        self.assertEqual(shell.ask("breaks"), ["breaks 0"])


@needs_program
class BackAndAgain(unittest.TestCase):
    def test_redo_of_each_way_back(self) -> None:
        for seed in range(12):
            shell = Typed(self, random_program(seed))
            choice = random.Random(seed)
            shell.ask(f"random {seed} 60")
            if not shell.session.history:
                continue
            name = choice.choice(list(shell.session.history))
            for back in (f"roll {name}", "back 3", f"rolltask {name.split('#')[0]}"):
                before = sorted(shell.session.view("hist")[1:]), *state(shell.session)[1:]
                if "refused" in shell.ask(back)[0]:
                    continue
                gone = len(shell.session.taken_back[-1])
                self.assertEqual(shell.plain("redo")[-1], f"redone {gone}")
                self.assertEqual((sorted(shell.session.view("hist")[1:]), *state(shell.session)[1:]), before)

    def test_redo_is_refused_with_what_came_between(self) -> None:
        shell = Typed(self, example("race.task"))
        shell.ask("run")
        shell.ask("roll 0.1#4")
        shell.ask("step 0.2")
        before = state(shell.session), shell.session.entries
        self.assertEqual(shell.ask("redo"), ["0.2#2 can't be executed again as it was: 0.2#2 was executed again otherwise: load r1 0 0"])
        self.assertEqual((state(shell.session), shell.session.entries), before)
        shell.ask("back")
        self.assertEqual(shell.plain("redo"), ["0.2#2 load r1 0 0", "redone 1"])
        shell.ask("finish 0.2")
        self.assertEqual(shell.ask("redo 0.1#4"), ["0.1#4 store 0 1                 13: store 0 r1", "redone 1"])
        self.assertEqual(shell.ask("redo 0.1#4"), ["0.1#4 is in the history"])
        self.assertIn("redo [T#K]", shell.ask("redo x")[0])

    def test_redo_passes_over_what_was_taken_by_hand(self) -> None:
        shell = Typed(self, example("race.task"))
        shell.ask("run 6")
        shell.ask("back 3")
        shell.ask("step 0.1 2")
        self.assertEqual(shell.plain("redo"), ["0.1#3 let r1 1", "redone 1"])
        self.assertEqual(shell.ask("redo"), ["nothing was taken back that isn't there again"])
        self.assertEqual(shell.ask("redo 0.1#2"), ["0.1#2 is in the history"])
        self.assertEqual(shell.ask("redo 0.2#2"), ["0.2#2 wasn't taken back"])

    def test_a_store_between_is_named(self) -> None:
        shell = Typed(self, example("race.task"))
        for line in ("run 3", "step 0.1 2", "roll 0.1#2", "finish 0.2"):
            shell.ask(line)
        self.assertEqual(shell.ask("redo"), ["0.1#2 can't be executed again as it was: 0.2#4 store 0 2 came between"])

    def test_redo_of_one_step_takes_what_it_needs(self) -> None:
        shell = Typed(self, example("unrelated.task"))
        shell.ask("run")
        shell.ask("roll 0#3")
        wanted = ["0.2#1", "0.2#2"]
        shown = [line.split(" ")[0] for line in shell.plain("redo 0.2#2")[:-1]]
        self.assertEqual([name for name in shown if name.startswith("0.2#")], wanted)
        self.assertLess(len(shown), 8)
        for name in shown:
            self.assertIn(name, shell.session.history)

    def test_redo_wants_room(self) -> None:
        shell = Typed(self, example("race.task"), limit=10)
        shell.ask("run 7")
        shell.ask("roll 0.1#1")
        before = state(shell.session)
        self.assertEqual(shell.plain("redo"), ["refused 7 Full"])
        self.assertEqual(state(shell.session), before)

    def test_rs(self) -> None:
        shell = Typed(self, example("race.task"))
        shell.ask("run")
        self.assertEqual(shell.plain("rs 0"), ["undone 0#7"])
        shown = shell.ask("rs 0.2")
        self.assertEqual(shown[0], "3 steps need 0.2#5, and would go with it:")
        self.assertEqual(shown[-1], "nothing was taken back; `rs -f 0.2` doesn't ask")
        self.assertIn("0.2#5", shell.session.history)
        self.assertEqual(shell.plain("rs -f 0.2")[0], "rolled 4")
        self.assertEqual(shell.plain("rs 0.9"), ["refused 1 NoSuchTask"])
        shell.ask("roll 0#1")
        self.assertEqual(shell.ask("rs 0"), ["task 0 has executed no step"])

    def test_rs_asks_at_a_terminal(self) -> None:
        shell = Terminal(self, [os.path.join(EXAMPLES, "race.task")], NO_COLOR="1")
        shell.read_until("(taskback) ")
        shell.ask("run")
        shell.send("rs 0.2\n")
        shell.read_until("roll 0.2#5? (y or n) ")
        shell.send("y\n")
        shell.read_until("rolled 5")

    def test_keep(self) -> None:
        for seed in range(12):
            shell = Typed(self, random_program(seed))
            shell.ask(f"random {seed} 60")
            names = list(shell.session.history)
            if not names:
                continue
            name = random.Random(seed).choice(names)
            wanted = {line.split(" ")[0] for line in shell.session.view(f"why {name}")[1:]} | {name}
            before = dict(shell.session.history)
            told = shell.plain(f"keep {name}")[-1]
            self.assertEqual(set(shell.session.history), wanted)
            self.assertIn(f"{len(before) - len(wanted)} taken back", told)
            if len(before) > len(wanted):
                shell.ask("redo")
                self.assertEqual(shell.session.history, before)
        self.assertEqual(shell.plain("keep 0#99"), ["refused 1 NoSuchStep"])

    def test_positions_are_the_programs_own(self) -> None:
        for seed in range(8):
            shell = Typed(self, random_program(seed))
            choice = random.Random(seed)
            for _ in range(12):
                shell.ask(choice.choice(("random 1 9", "back 2", "random 2 5", "redo", "last 3")))
                kept = {task: line for task, line in shell.session.positions.position.items() if line}
                shell.session.positions.learn(shell.session.view("tasks"))
                self.assertEqual(kept, {task: line for task, line in shell.session.positions.position.items() if line})
                self.assertEqual([f"{name} {did}" for name, did in shell.session.history.items()], shell.session.view("hist")[1:])


@needs_program
class Past(unittest.TestCase):
    def test_a_past_state_is_what_stood_then(self) -> None:
        shell = Typed(self, example("race.task"))
        told = []
        for _ in range(17):
            shell.ask("run 1")
            told.append(state(shell.session))
        now = state(shell.session), shell.session.entries
        for count in (5, 17, 1, 9, 10, 3):
            self.assertEqual(shell.plain(f"at {count}")[0], f"at {count} of 17 steps")
            self.assertEqual(state(shell.shell.session), told[count - 1])
            self.assertEqual(shell.plain("out"), told[count - 1][2])
        self.assertEqual(shell.plain("at 0.1#4")[:2], ["at 7 of 17 steps", "0.1#4 store 0 1"])
        self.assertEqual(shell.ask("print c[0]"), ["c[0] = 1"])
        self.assertEqual(shell.plain("at 0")[0], "at 0 of 17 steps")
        self.assertEqual(shell.plain("at now"), ["at 17, now"])
        self.assertEqual((state(shell.session), shell.session.entries), now)

    def test_nothing_is_changed_there(self) -> None:
        shell = Typed(self, example("race.task"))
        shell.ask("run 9")
        shell.ask("at 4")
        self.addCleanup(lambda: shell.ask("at now"))
        for line in ("step 0.1", "run", "undo 0.1#1", "roll 0#1", "break cell 0", "save /tmp/x", "redo", "restart", "limit 9", "keep 0#1"):
            self.assertTrue(shell.ask(line)[0].startswith("a past state is looked at, after 4 steps; `at now` comes back"), line)
        self.assertEqual(shell.shell.session.view("hist")[0], "hist 4")
        self.assertEqual([shell.ask(line)[0] for line in ("at 10", "at 0.2#9", "at x", "at")],
                         ["the history has 9 steps", "step 0.2#9 isn't in the history"] + ["at T#K | at N | at now, for example: at 0.1#4"] * 2)
        shell.ask("at now")
        self.assertEqual(shell.plain("step 0.2"), ["0.2#2 load r1 0 1"])

    def test_the_prompt_says_so(self) -> None:
        shell = Terminal(self, [os.path.join(EXAMPLES, "race.task")], NO_COLOR="1")
        shell.read_until("(taskback) ")
        shell.ask("run 9")
        shell.send("at 0.1#2\n")
        shell.read_until("(taskback @5) ")
        shell.send("at now\n")
        shell.read_until("(taskback) ")


@needs_program
class SideBySide(unittest.TestCase):
    def session(self, text: str, commands: Sequence[str]) -> Any:
        session = Session(PROGRAM, Source(text, "a.task"))
        self.addCleanup(session.close)
        for command in commands:
            session.do(command)
        return session

    def test_compare(self) -> None:
        text = example("race.task")
        files = {name: write_file(self, text + "---\n" + commands, name) for name, commands in (
            ("same", "run 99\n"), ("order", "run 3\nstep 0.2\nstep 0.1\nrun 99\n"), ("other", "run 3\nstep 0.2\nstep 0.2\nrun 99\n"), ("short", "run 5\n"))}
        shell = Typed(self, text)
        shell.ask("run")
        self.assertEqual(shell.ask(f"compare {files['same']}"), ["equal: 17 steps"])
        self.assertEqual(shell.ask(f"compare {files['order']}"), ["equal: 17 steps, but for the order of independent steps"])
        self.assertEqual(shell.ask(f"compare {files['other']}"), [
            "different at 0.1#4", "  here:  store 0 1", "  there: store 0 1", "  here it needs no step of another task",
            "  there it needs cell 0: 0.2#2 load r1 0 0"])
        self.assertEqual(shell.ask(f"compare {files['short']}")[:3], ["different at 0.1#3", "  here:  let r1 1", "  there: not executed"])
        self.assertEqual(shell.ask("compare /no/file"), ["can't read /no/file: No such file or directory"])
        self.assertIn("line 1: NoCells", shell.ask("compare " + write_file(self, "x\n---\n", "bad"))[0])
        self.assertIn("compare FILE", shell.ask("compare")[0])

    def test_random_orders_of_independent_steps(self) -> None:
        """Two walks are equal exactly where each step's needs are, and that is where each of one's prefixes is reached by swaps."""
        found = set()
        for seed in range(25):
            text = random_program(seed, cells=2)
            one = self.session(text, ["run 200"])
            two = self.session(text, [])
            choice = random.Random(seed)
            while ready := two.view("ready")[1:]:
                two.do("step " + choice.choice(ready))
            difference = first_difference(one, two)
            with unittest.mock.patch.object(comparing, "MOST_ASKED", 0):
                self.assertEqual(first_difference(one, two), difference, seed)
            found.add(difference is None)
            if one.view("races") == ["races 0"]:
                apart = {line for name in one.history for line in one.view(f"causes {name}")[1:] if line.startswith("apart")}
                self.assertTrue(difference is None or apart, seed)
            if difference is None:
                self.assertEqual((one.view("cells"), one.view("out")), (two.view("cells"), two.view("out")))
        self.assertEqual(found, {True, False})

    def test_flip(self) -> None:
        shell = Typed(self, example("right_sum.task"))
        self.assertEqual(shell.ask("flip"), ["the run has no race so far"])
        shell.ask("run")
        before = state(shell.session), shell.session.entries, list(shell.session.log)
        self.assertEqual(shell.plain("flip 1")[:2], ["0.1#4 store 0 1", "0.2#2 load r1 0 1"])
        self.assertEqual(shell.ask("flip 1")[2:], ["  0.1#4 first                         0.2#2 first", "  0.2#2 load r1 0 1                   0.2#2 load r1 0 0",
                                                   "  cell 0: 3                           cell 0: 2",
                                                   "  out: 3                              out: 2"])
        self.assertEqual((state(shell.session), shell.session.entries, list(shell.session.log)), before)
        self.assertEqual(shell.ask("flip 9"), ["the run has 2 races: `flip 1` to `flip 2`"])
        self.assertIn("flip [N]", shell.ask("flip x")[0])

    def test_flip_of_exclusive_tasks(self) -> None:
        shell = Typed(self, example("apart.task"))
        shell.ask("run")
        self.assertEqual(shell.ask("flip")[-2:], ["  cell 0: 2                           cell 0: 1", "  out: 2                              out: 1"])

    def test_flip_of_a_recorded_run(self) -> None:
        text = "cells 1\nbody main 0\n  task w\n  task r\nend\nbody w 0\n  store 0 41  # a.c:3\nend\nbody r 0\n  load r0 0  # a.c:5\nend\n"
        shell = Typed(self, text)
        shell.ask("run")
        told = shell.ask("flip")
        self.assertEqual(told[3], "  0.2#2 load r0 0 41                  0.2#2 load r0 0 0")
        self.assertIn("  a recorded run stores the numbers that it had", told[4])

    def test_flip_of_stores_that_come_out_alike(self) -> None:
        text = "cells 1\nbody main 0\n  task f\n  task f\nend\nbody f 0\n  store 0 7\nend\n"
        shell = Typed(self, text)
        shell.ask("run")
        self.assertEqual(shell.ask("flip")[-1], "  both leave the same cells and output")

    def test_each_race_of_random_runs_can_be_flipped(self) -> None:
        """The first race that isn't apart is real; after it the runs may part."""
        flipped = 0
        for seed in range(20):
            shell = Typed(self, random_program(seed))
            shell.ask("run 300")
            races = [line for line in shell.session.view("races")[1:]]
            if races and not races[0].endswith(" apart"):
                self.assertIn(" first", "\n".join(shell.ask("flip 1")), seed)
                flipped += 1
        self.assertGreater(flipped, 5)


@needs_program
class Long(unittest.TestCase):
    def test_a_long_run_is_a_count_with_its_last_lines(self) -> None:
        shell = Typed(self, BIG, limit=20000)
        shown = shell.plain("run 5000")
        self.assertEqual(len(shown), 100 + 1 + 12 + 1)
        self.assertEqual((shown[100], shown[-2], shown[-1]), ("... 4,888 more steps (`-v` shows all)", "0#5000 test yes", "ran 5000 limit"))
        self.assertEqual(len(shell.plain("run -v 5000")), 5001)
        self.assertEqual(len(shell.plain("run 100")), 101)
        exact = Typed(self, BIG, limit=20000, exact=True)
        self.assertEqual(len(exact.ask("run 5000")), 5001)

    def terminal(self, rows: int) -> Any:
        shell = Terminal(self, ["--limit", "1000000", write_file(self, BIG)], NO_COLOR="1")
        fcntl.ioctl(shell.end, termios.TIOCSWINSZ, struct.pack("HHHH", rows, 80, 0, 0))
        shell.read_until("(taskback) ")
        return shell

    def test_a_pager(self) -> None:
        shell = self.terminal(10)
        shell.ask("run 30")
        shell.send("hist\n")
        shown = shell.read_until("-- more: ")
        self.assertEqual(shown.count("0#"), 8)
        shell.send("\n")
        self.assertEqual(shell.read_until("-- more: ").count("0#"), 9)
        shell.send("q\n")
        shell.read_until("(taskback) ")
        shell.send("hist\n")
        shell.read_until("-- more: ")
        shell.send("a\n")
        shell.read_until("0#30 ")
        shell.read_until("(taskback) ")
        shell.ask("set pager off")
        self.assertEqual(len(shell.ask("hist")), 31)

    def test_progress_with_a_speed(self) -> None:
        shell = self.terminal(24)
        shell.send("run 400000\n")
        self.assertRegex(shell.read_until(" a second"), r"[0-9,]+ steps, [0-9,]+ a second")
        shell.read_until("ran 400000 limit")


if __name__ == "__main__":
    unittest.main()
