"""Each command, each refusal, each error and each fault of a program, typed on a real terminal."""

import os
import re
import unittest
from collections.abc import Iterable
from typing import Any

from support import EXAMPLES, LOOP, TOP, Terminal, needs_program, write_file
from shell import faults, help_texts, texts
from shell.protocol import words_of

Rows = tuple[tuple[str, list[str]], ...]
# What is typed, and lines that have to be shown, each by its beginning.
RACE: Rows = (
    ("# a comment", []),
    ("ready", ["ready 1", "0"]),
    ("step", ["0#1 start", ]),
    ("", ["0#2 spawn 0.1 add 1"]),
    ("i tasks", ["tasks 2", "0 main running 5", "0.1 add pending"]),
    ("tasks", ["tasks 2", "0 main running 5"]),
    ("run 1", ["0#3 spawn 0.2 add 2", "ran 1 limit"]),
    ("waits", ["waits 1", "0 Children 0.1"]),
    ("step 0", ["refused 5 Children 0.1", "  0 is at a taskwait, and its child 0.1 hasn't ended"]),
    ("step 0.7", ["refused 1 NoSuchTask", "  task 0.7 hasn't been generated"]),
    ("break cell 0", ["break 1"]),
    ("b line 14", ["break s1 line 14", "  go stops after each step at 14: end"]),
    ("breaks", ["breaks 1", "1 cell 0", "s1 line 14"]),
    ("go 50", ["0.1#1 start", "0.1#2 load r1 0 0", "ran 2 break"]),
    ("c", ["0.1#3 let r1 1", "0.1#4 store 0 1", "ran 2 break"]),
    ("c", ["0.1#5 end", "ran 1 break", "  breakpoint s1: line 14"]),
    ("clear 1", ["cleared 1"]),
    ("clear line 14", ["cleared line 14"]),
    ("clear line 14", ["no breakpoint is at line 14"]),
    ("clear 9", ["refused 2 NoSuchBreak", "  no such breakpoint; `breaks` shows them"]),
    ("until 0.2#2", ["0.2#1 start", "0.2#2 load r1 0 1"]),
    ("until 0.2#2", ["0.2#2 is in the history already; `roll 0.2#2` takes it back"]),
    ("list 0.2", ["=>   12    let r1 r1 + r0   <- 0.2"]),
    ("list 0.9", ["0.9 is at no line"]),
    ("list 99", ["the program has 14 lines"]),
    ("finish 0.2", ["0.2#3 let r1 3", "0.2#4 store 0 3", "0.2#5 end"]),
    ("step 0.2", ["refused 2 Ended", "  0.2 has ended"]),
    ("last 2", ["0#4 wait", "0#5 load r0 0 3"]),
    ("random 5 9", ["0#6 print 3", "0#7 end", "  no task can step"]),
    ("cells", ["cells 1", "0 3"]),
    ("out", ["out 1", "3"]),
    ("task 0", ["task 0", "body main", "state ended", "steps 7", "regs 3 ", "groups 0", "items 0"]),
    ("task 0.7", ["refused 1 NoSuchTask"]),
    ("deps 0.2", ["deps 0"]),
    ("deps 0.7", ["refused 1 NoSuchTask"]),
    ("hist", ["hist 17", "0#1 start"]),
    ("lanes 0#7", ["  0 ", "* end"]),
    ("graph", ["0 main: ended"]),
    ("slide", ["slide [-f] [T#K] FILE, for example: slide talk.svg"]),
    ("page", ["page [-f] FILE, for example: page race.html"]),
    ("why 0.2#2", ["why 8", "0#1 start"]),
    ("why 0#9", ["refused 1 NoSuchStep", "  step 0#9 isn't in the history"]),
    ("who 0.1#4", ["who 9", "0.1#5 end", "0.2#2 load r1 0 1"]),
    ("who 0#9", ["refused 1 NoSuchStep"]),
    ("undo 0.1#4", ["refused 2 Needed 0.1#5", "  0.1#5 needs it; `roll 0.1#4` takes it back with all that need it"]),
    ("undo 0#9", ["refused 1 NoSuchStep"]),
    ("u 0#7", ["undone 0#7"]),
    ("back", ["undone 0#6"]),
    ("back 2", ["undone 0#5", "undone 0#4"]),
    ("redo", ["0#4 wait", "redone 2"]),
    ("rs 0", ["undone 0#5"]),
    ("back", ["undone 0#4"]),
    ("print r1 of 0.2 + c[0]", ["r1 of 0.2 + c[0] = 6"]),
    ("display c[0]", ["1: c[0] = 3"]),
    ("undisplay 1", []),
    ("watch c[0]", ["watch s2 c[0] = 3"]),
    ("clear s2", ["cleared s2"]),
    ("set", ["run-breaks off", "pager on"]),
    ("flip 1", ["0.1#4 store 0 1", "  0.1#4 first                         0.2#2 first"]),
    ("compare /no/file", ["can't read /no/file: No such file or directory"]),
    ("rollprint", ["refused 1 NoSuchStep", "  nothing was printed"]),
    ("rollcell 0", ["rolled 2", "0.2#4 store 0 3", "0.2#5 end"]),
    ("rollcell 0", ["rolled 4", "0.1#4 store 0 1"]),
    ("rollcell 0", ["refused 1 NoSuchStep"]),
    ("rolltask 0.2", ["rolled 1", "0.2#1 start"]),
    ("rolltask 0.2", ["refused 1 NoSuchStep"]),
    ("roll 0#9", ["refused 1 NoSuchStep"]),
    ("keep 0.1#1", ["rolled 2", "kept 0.1#1 with 2 steps; 3 taken back"]),
    ("rc", ["undone 0.1#1", "undone 0#1", "went back 3 start"]),
    ("trim", ["started anew with 0 steps: the journal has room for 99999 more"]),
    ("run 3", ["0#1 start"]),
    ("roll 0#1", ["rolled 3", "0#1 start"]),
    ("back", ["the history has no step"]),
    ("break body nobody", ["refused 3 NoSuchBody", "  no body of the program has this name"]),
    ("break cell 9", ["refused 4 NoSuchCell", "  the program has no cell 9"]),
    ("break line 2", ["no step is executed at line 2"]),
    ("fly", ["error word", "  no such command; `help` lists them"]),
    ("step 0 1 2", ["step [T [N]], for example: step 0.1 3"]),
    ("undo", ["error count", "  too few words, or too many: undo T#K, for example: undo 0.1#4"]),
    ("step 00", ["error name", "  a task is written 0.1, and a step 0.1#2"]),
    ("run x", ["error number", "  a number is missing, or out of its range"]),
    ("go 0 5", ["error number"]),
    ("undo " + "0" * 1100, ["error line", "  the line is too long, or isn't text"]),
    ("finish 0 0", ["finish [T], for example: finish 0.1"]),
    ("until 7", ["until wants a step, as 0.2#4; `break line 7` and `go` stop at a line"]),
    ("until 0x#1", ["until T#K"]),
    ("random x", ["random SEED [N]"]),
    ("last x", ["last [N], for example: last 5"]),
    ("back x", ["back [N], for example: back"]),
    ("lanes 0#99", ["step 0#99 isn't in the history"]),
    ("info", ["info wants a view: tasks, "]),
    ("i zebra", ["no such view: zebra; there are tasks, "]),
    ("help", ["  step [T [N]]", "  quit"]),
    ("h roll", ["roll T#K", "  takes a step back with all that need it", "  for example: roll 0.1#4"]),
    ("help zebra", ["no such command: zebra"]),
    ("limit x", ["limit wants a number, 1 to 1000000: limit 200000"]),
    ("limit 500", ["the journal has room for 500 entries; all was done again"]),
    ("limit 500", ["the journal has room for 500 entries already"]),
    ("restart", ["started anew"]),
    ("source", ["no commands are left"]),
    ("source /no/file", ["can't read /no/file: No such file or directory"]),
    ("save", ["save wants a file: save race.session"]),
    ("save /no/file", ["can't write /no/file: No such file or directory"]),
)

FULL: Rows = (
    ("run", ["0#1 start", "ran 3 full", "  the journal is full; `limit N` gives it more room"]),
    ("step 0.1", ["refused 7 Full", "  the journal is full; `limit N` gives it more room"]),
    ("undo 0#3", ["refused 3 Full"]),
    ("roll 0#3", ["refused 2 Full"]),
    ("limit 2", ["2 entries have no room for what was done; the limit stays"]),
    ("hist", ["hist 3"]),
    ("limit 5", ["the journal has room for 5 entries; all was done again"]),
    ("step 0.1", ["0.1#1 start"]),
    ("step 0.1", ["refused 7 Full"]),
)

WAITING: dict[str, Rows] = {
    "order.task": (("run 3", []), ("deps 0.2", ["deps 1", "0.1 before"]),
                   ("step 0.2", ["refused 3 Waiting 0.1", "  0.2 waits for 0.1: depend inout 0 on lines 4 and 5"])),
    "exclusion.task": (("run 3", []), ("step 0.2", ["0.2#1 start"]), ("deps 0.2", ["deps 1", "0.1 apart"]),
                       ("step 0.1", ["refused 4 Excluded 0.2",
                                     "  0.1 can't start while 0.2 is under way: depend mutexinoutset 0 on lines 4 and 5"])),
    "waits.task": (("run 2", []), ("finish 0.1", ["0.1#1 start"]), ("step 0 3", ["0#3 wait"]), ("finish 0.2", ["0.2#1 start"]),
                   ("step 0", ["refused 6 Group 0.2.1", "  0 is at the end of a taskgroup, and 0.2.1 hasn't ended"])),
    "undeferred.task": (("run 2", []), ("step 0", ["refused 13 Undeferred 0.1", "  0 waits for its undeferred child 0.1"])),
}

FAULTS = (
    ("NoCells", "body main 0\nend\n", 1), ("BadNumber", "cells 1\nbody main 0\n  store x 1\nend\n", 3),
    ("CellRange", "cells 1\ncell 1 7\nbody main 0\nend\n", 2), ("UnknownWord", "cells 1\nbody main 0\n  stroe 0 1\nend\n", 3),
    ("UnknownBody", "cells 1\nbody main 0\n  task nobody\nend\n", 3), ("Arity", "cells 1\nbody main 0\n  print\nend\n", 3),
    ("Nesting", "cells 1\nbody main 0\n  else\nend\n", 3), ("NoMain", "cells 1\n", 2),
    ("Duplicate", "cells 1\ncells 1\nbody main 0\nend\n", 2), ("Register", "cells 1\nbody main 0\n  print r16\nend\n", 3),
    ("TooLarge", "cells 65537\nbody main 0\nend\n", 1), ("NotText", "cells 1\nbody main 0\n  print \x01\nend\n", 3),
    ("DependType", "cells 1\nbody main 0\n  task t depend readonly 0\nend\nbody t 0\nend\n", 3),
)


def typed_names(rows: Iterable[tuple[str, list[str]]]) -> set[str]:
    """The commands that these rows type, by their whole names."""
    words = [line.split(" ")[0] for line, _ in rows if line]
    return {help_texts.ABBREVIATIONS.get(word, word) for word in words}


@needs_program
class EachCommand(unittest.TestCase):
    def open(self, *words: str) -> Any:
        shell = Terminal(self, words, NO_COLOR="1")
        shell.read_until("(taskback) ")
        return shell

    def talk(self, shell: Terminal, rows: Iterable[tuple[str, list[str]]]) -> None:
        """Types each row; all lines that it names are shown, in this order."""
        for typed, wanted in rows:
            shown = shell.ask(typed)
            left = iter(shown)
            for line in wanted:
                self.assertTrue(any(text.startswith(line) for text in left), (typed, line, shown))
            if not wanted:
                self.assertFalse([text for text in shown if text.startswith(("error", "refused"))], (typed, shown))

    def test_each_command_and_each_of_its_errors(self) -> None:
        self.talk(self.open(os.path.join(EXAMPLES, "race.task")), RACE)
        # The others are tried where they are: test_races.py, test_debugging.py and test_serving.py.
        self.assertEqual(set(help_texts.HELP) - typed_names(RACE), {"quit", "races", "causes", "edges", "at", "serve"})

    def test_a_full_journal(self) -> None:
        self.talk(self.open("--limit", "4", os.path.join(EXAMPLES, "race.task")), FULL)

    def test_each_wait(self) -> None:
        for name, rows in WAITING.items():
            with self.subTest(name=name):
                self.talk(self.open(os.path.join(EXAMPLES, name)), rows)

    def test_too_many_breakpoints(self) -> None:
        shell = self.open(os.path.join(EXAMPLES, "first.task"))
        text = "".join("break print\n" for _ in range(65))
        shown = shell.ask("source " + write_file(self, text, "many"))
        self.assertEqual(shown[-2:], ["refused 1 TooMany", "  64 breakpoints are there already"])

    def test_every_refusal_and_error_is_tried(self) -> None:
        rows = [row for group in (RACE, FULL, *WAITING.values()) for row in group]
        seen = {line.split(" ")[2] for _, wanted in rows for line in wanted if line.startswith("refused ")} | {"TooMany"}
        with open(os.path.join(TOP, "docs", "COMMANDS.md"), encoding="utf-8") as file:
            told = set(re.findall(r"\| `\d+ (\w+)", file.read()))
        self.assertEqual(seen, told)
        errors = {line.split(" ")[1] for _, wanted in rows for line in wanted if line.startswith("error ")}
        self.assertEqual(errors, set(texts.ERRORS))

    def test_played_files(self) -> None:
        shell = self.open(os.path.join(EXAMPLES, "race.task"))
        path = write_file(self, "run 3\nsource other\nstep 0.2\n", "play")
        shown = shell.ask("source " + path)
        self.assertIn("a played file plays no other", shown)
        self.assertTrue(shown[-1].startswith("0.2#1 start"))

    def test_each_fault_of_a_program(self) -> None:
        self.assertEqual({kind for kind, _, _ in FAULTS}, set(faults.FAULTS))
        for kind, text, line in FAULTS:
            shell = Terminal(self, [write_file(self, text, "bad.task")], NO_COLOR="1")
            shown = shell.read_until(f"({kind})").replace("\r\n", "\n")
            self.assertTrue(shown.startswith(f"bad.task:{line}: "), shown)
            self.assertIn(faults.meaning_of(kind, text.split("\n"), line, words_of((text.split("\n") + [""])[line - 1])), shown)
            self.assertEqual(shell.wait(), 1)


@needs_program
class Interrupts(unittest.TestCase):
    def test_each_long_command_stops_and_the_session_stays(self) -> None:
        shell = Terminal(self, ["--limit", "1000000", write_file(self, LOOP)], NO_COLOR="1")
        shell.read_until("(taskback) ")
        shell.ask("b line 6")
        for typed in ("run -v 1000000", "go -v 1000000", "random 1", "last 1000000", "finish 0", "step 0 1000000", "until 0#999999"):
            taken = int(shell.ask("task 0")[3].split(" ")[1])
            shell.send(typed + "\n")
            shell.read_until(f"0#{taken + 20} ")
            shell.send("\x03")
            shell.read_until("(taskback) ")
            now = int(shell.ask("task 0")[3].split(" ")[1])
            self.assertTrue(taken + 20 <= now < 100000, (typed, now))
            self.assertTrue(shell.ask("step 0")[0].startswith(f"0#{now + 1} "))
        shell.send("back 1000000\n")
        shell.read_until("undone ")
        shell.send("\x03")
        shell.read_until("(taskback) ")
        self.assertTrue(shell.ask("hist")[0] > "hist 0")

    def test_a_million_steps_late(self) -> None:
        shell = Terminal(self, ["--limit", "1000000", write_file(self, LOOP)], NO_COLOR="1")
        shell.read_until("(taskback) ")
        shell.send("run -v 1000000\n")
        shell.read_until("0#20000 ", 120)
        shell.send("\x03")
        shell.read_until("stopped by Ctrl-C; the session goes on")
        shell.read_until("(taskback) ")
        self.assertGreaterEqual(int(shell.ask("task 0")[3].split(" ")[1]), 20000)


if __name__ == "__main__":
    unittest.main()
