"""Unknown and ambiguous words, refusals in words, faults of programs, full journals, and files that are there already."""

import os
import stat
import tempfile
import unittest
import unittest.mock

from support import Terminal, Typed, example, needs_program, write_file
from shell import faults, files, texts
from shell.console import counted

LOOP = "cells 1\nbody main 0\n  while 0 == 0\n    store 0 1\n  end\nend\n"
# What is typed, and what is said of it.
MEANT = (
    ("roll", "error count"), ("ro 0#1", "ambiguous: roll, rolltask, rollcell, rollprint"), ("break 5", "did you mean `break line 5`?"),
    ("b 5", "did you mean `break line 5`?"), ("brek 5", "did you mean `break line 5`?"), ("break add", "did you mean `break body add`?"),
    ("break 0.1", "did you mean `break task 0.1`?"), ("break c[0]", "did you mean `break cell 0`?"), ("break lin 5", "did you mean `break line 5`?"),
    ("taks", "did you mean `tasks`?"), ("delete 1", "did you mean `clear 1`?"), ("next 0.1", "did you mean `step 0.1`?"),
    ("delete", "did you mean `clear N`?"), ("next 5", "did you mean `step 0 5`?"), ("next", "did you mean `step`?"), ("tbreak 12", "did you mean `break line 12`?"),
    ("x 0", "did you mean `print c[0]`?"), ("x/4 0", "did you mean `print c[0]`?"), ("p/x r1", "did you mean `print r1`?"), ("thread 0.1", "did you mean `task 0.1`?"),
    ("disable s1", "did you mean `clear s1`?"), ("reverse-finish 0.1", "did you mean `rolltask 0.1`?"), ("up", "did you mean `list 0`?"), ("bt", "did you mean `task 0`?"),
    ("d 1", "ambiguous: display, deps; or did you mean `clear 1`?"), ("restart-frame 0.1", "did you mean `rolltask 0.1`?"), ("disas", "did you mean `list 0`?"), ("setp 0.1", "did you mean `step 0.1`?"),
    ("b 12 if r1 > 1", "did you mean `break line 12 if r1 > 1`?"),
    ("rwatch c[0]", "did you mean `watch c[0]`?"), ("condition 1 r0 > 1", "did you mean `break line L if r0 > 1`?"), ("load a b", "did you mean `source a b`?"),
    ("start", "did you mean `step 0`?"), ("step 5", "a task is written 0.1, and a step 0.1#2; `step 0 5` takes 5 steps of task 0"),
    ("p $r1", "`$r1` can't be in an expression; a register is written r1"), ("p c", "a cell is written c[3]"), ("p c + 1", "a cell is written c[3]"),
    ("info threads", "tasks 3"), ("info breakpoints", "breaks 0"), ("i locals", "task 0"), ("info registers 0.1", "task 0.1"), ("info zebra", "no such view: zebra"),
    ("list add", "=>   10  body add 1   <- 0.1, 0.2"),
    ("break zebra", "break task T | cell C | body NAME"), ("show", "did you mean `set`?"), ("shell ls", "no other program is run from here"), ("! ls", "no other program"),
    ("whatis r0", "numbers of 64 bits"), ("rverse", "no such command"), ("reverse-continue", "did you mean `rc`?"), ("xyzzy", "no such command; `help` lists them"),
    ("rollcell 9", "the program has no cell 9: it has cell 0 alone"), ("rollcell 0", "nothing was stored to cell 0"),
    ("rolltask 0.7", "task 0.7 hasn't been generated"), ("rolltask 0.2", "task 0.2 hasn't started"), ("rollprint", "nothing was printed"),
    ("undo 0.7#1", "task 0.7 hasn't been generated"), ("undo 0.1#9", "step 0.1#9 isn't in the history"), ("break cell 7", "the program has no cell 7"),
    ("seek 4", "did you mean `at 4`?"), ("when", "did you mean `hist`?"), ("?", "did you mean `help`?"), ("EOF", "no such command; `help` lists them"),
    ("jump 12", "`until T#K` runs up to one"), ("goto 12", "`until T#K` runs up to one"), ("enable 1", "`break` makes it again"), ("record", "every step is recorded"),
    ("ignore 1 3", "a condition may count: `break line L if steps(0.1) > 4`"), ("commands", "`display EXPR` shows a number"), ("call add", "bodies are run by tasks alone"),
    ("set var r1 = 3", "registers and cells can't be set"), ("set r1 = 3", "registers and cells can't be set"), ("rc 3", "`rc` takes no words"),
    ("info watch", "breaks 0"), ("info display", "no expression is displayed"), ("info reg", "task 0"), ("info thr", "tasks 3"), ("info line", "=>   10  body add 1   <- 0.1, 0.2"),
    ("p c0 + 1", "a cell is written c[0]"), ("p cell 3", "a cell is written c[3]"), ("watch c[0] if c[0] > 1", "a watch has no condition: `break cell 0 if value > 1`"),
    ("until 12", "until wants a step, as 0.2#4; `break line 12` and `go` stop at a line"), ("until 0.1#99", "0.1#99 was never reached"), ("help ro", "ambiguous: roll, rolltask, rollcell, rollprint"),
    ("help next", "no such command: next; here it is `step`"), ("help jump", "no such command: jump; where a task is follows from its steps"),
    ("help breakpoint", "no such command: breakpoint; did you mean `help break`?"), ("help xyzzy", "no such command: xyzzy; `help` lists them"),
    ("clear 7", "`clear s1` takes away one that has an `s` in front of its number"),
)

# A program, and what is said of its fault.
FAULTY = (
    ("cells 1\nbody main 1\nend\n", 2, "Arity", "main takes no parameters: `body main 0`"),
    ("cells 1\nbody main 0\n  while 0 == 1\n    print 1\nend\n", 6, "Nesting", "an `end` is missing: the `body main` of line 2 is still open; "
     "by its place the `end` of line 5 isn't that of the `while` of line 3, which lacks its own"),
    ("cells 1\nbody main 0\n  while 0 == 1\n    print 1\n  end\n", 6, "Nesting", "an `end` is missing: the `body main` of line 2 is still open"),
    ("cells 1\nbody main 0\n  task nobody\nend\nbody add 0\nend\n", 3, "UnknownBody", "no body has this name: there are main and add"),
    ("cells 1\nbody main 0\n  if 1 == 1\nbody f 0\nend\n", 4, "Nesting", "an `end` is missing in front of this line: the `if` of line 3 is still open"),
    ("cells 1\nbody main 0\nend\nend\n", 4, "Nesting", "no block is open here for this `end`"),
    ("cells 1\nbody main 0\n  else\nend\n", 3, "Nesting", "this `else` has no `if`: the innermost block is the `body main` of line 2"),
    ("cells 1\nprint 1\n", 2, "Nesting", "a statement is in a body: `body NAME PARAMETERS` comes first"),
    ("cells 1\nbody main 0\n  task f 1\nend\nbody f 2\nend\n", 3, "Arity", "body f takes 2 arguments, and 1 is given"),
    ("cells 1\nbody main 0\n  task f\nend\nbody f 1\nend\n", 3, "Arity", "body f takes 1 argument, and 0 are given"),
    ("cells 1\nbody main 0\n  store 1\nend\n", 3, "Arity", "store wants 2 words after it, and 1 is there"),
    ("cells 1\nbody main 0\n  let r1\nend\n", 3, "Arity", "let wants 2 words after it, or 4, and 1 is there"),
    ("cells 1\nbody main 0\n  taskwait depend mutexinoutset 0\nend\n", 3, "DependType", "the types of a taskwait are in, out, inout and inoutset"),
    ("cells 1\nbody main 0\n  taskwait depend in all\nend\n", 3, "DependType", "`all` has the type out or inout"),
    ("cells 1\nbody Main 0\nend\n", 4, "NoMain", "no body is named main; the name is written `main`, and not `Main`"),
)

# A line as other languages have it, and the notation's.
NUMBERS = "nothing: numbers have no names, so a number that a task keeps is a register, `let rK A`, and one that tasks share is a cell, `cell C V` in front of the bodies"
FOREIGN = (
    ("for (int i = 0; i < 3; i++)", "while A CMP B .. end, with a `let` in front and one at its end"), ("int x", NUMBERS), ("double y;", NUMBERS),
    ("task f depend 0 in depend r1 out", "task f depend in 0 depend out r1"), ("body main 2", "body main 0"),
    ("task f depend(in: 0)", "task f depend in 0"), ("task f depend(in: 0, r1) depend(out: 2)", "task f depend in 0 depend in r1 depend out 2"),
    ("r1 += 2", "let r1 r1 + 2"), ("r2++", "let r2 r2 + 1"), ("printf(\"%d\", r0);", "print VAL"), ("return r0;", "end"), ("}", "end"),
    ("Task f 0", "task f 0"), ("r1 = r2 + 3", "let r1 r2 + 3"), ("let r1 = 3", "let r1 3"), ("x = 5;", "let rK 5, or where tasks share it store C 5"), ("x++", "let rK rK + 1"),
    ("store r0 r1 + 1", "let rK r1 + 1, and in the next line store r0 rK"), ("print r0 * 2", "let rK r0 * 2, and in the next line print rK"), ("barrier", "taskwait"), ("stroe 0 1", "store ADDR VAL"),
    ("// a bank", "# a bank"), ("/* a bank */", "# a bank"), ("store 0 r1 // done", "store 0 r1  # done"), ("task add(1, r2)", "task add 1 r2"), ("add(1);", "task add 1"),
    ("task add(r1) depend inout 0", "task add r1 depend inout 0"), ("print(r1)", "print r1"), ("taskwait();", "taskwait"),
    ("if r0", "if r0 != 0"), ("if (r0 == 3) {", "if r0 == 3"), ("while r0<=3:", "while r0 <= 3"), ("while true", "while 0 == 0"), ("if r0 > 3", "if 3 < r0"), ("while 4 >= r1", "while r1 <= 4"),
    ("if r0 = 3", "if r0 == 3"), ("task f depend in 0 if r0", "task f depend in 0 if r0 != 0"), ("else if r0 == 1 {", "else, and in the next line if r0 == 1, which has an `end` of its own"),
    ("} else {", "else"), ("c[3] = r1", "store 3 r1"), ("r1 = a[r2];", "load r1 r2"), ("let r1 c[0] + 1", "load rK 0, and in the next line let r1 rK + 1"),
    ("body deposit amount", "body deposit 1, whose argument is r0"), ("body f(int a, b) {", "body f 2, whose arguments are r0 to r1"), ("body f(int a)", "body f 1, whose argument is r0"),
)


@needs_program
class Meant(unittest.TestCase):
    def test_each(self) -> None:
        shell = Typed(self, example("race.task"))
        shell.ask("run 3")
        for typed, wanted in MEANT:
            if typed == "until 0.1#99":
                shell.ask("run")
            self.assertIn(wanted, "\n".join(shell.ask(typed)), typed)

    def test_nothing_is_made_of_what_was_meant(self) -> None:
        shell = Typed(self, example("race.task"))
        self.assertEqual(shell.plain("break 5"), ["error word"])
        self.assertEqual(shell.plain("breaks"), ["breaks 0"])

    def test_info_has_breakpoints_at_lines_too(self) -> None:
        shell = Typed(self, example("race.task"))
        shell.ask("break line 13")
        self.assertEqual(shell.plain("info breaks"), ["breaks 0", "s1 line 13"])

    def test_a_stop_says_which_it_met(self) -> None:
        shell = Typed(self, example("race.task"))
        shell.ask("break body add")
        shell.ask("break cell 0")
        self.assertEqual(shell.ask("go")[-1], "  breakpoint 1: body add")
        self.assertEqual(shell.ask("go")[-1], "  breakpoint 2: cell 0")

    def test_a_zero_byte_is_in_no_command(self) -> None:
        for exact in (False, True):
            shell = Typed(self, example("race.task"), exact=exact)
            for command in ("save a\0", "compare \0", "page \0", "lanes \0", "source \0", "print \0", "ru\0n"):
                self.assertEqual(shell.ask(command)[0], "error line", command)
            shell.shell.passes = True
            self.assertEqual(shell.ask("save a\0"), ["error line"] + ["  " + texts.ERRORS["line"]] * (not exact))

    def test_counts(self) -> None:
        self.assertEqual([counted(1, "task"), counted(2, "task"), counted(0, "branch"), counted(12345, "step")],
                         ["1 task", "2 tasks", "0 branches", "12,345 steps"])


class Faulty(unittest.TestCase):
    def test_each_is_told(self) -> None:
        for text, line, kind, wanted in FAULTY:
            self.assertIn(f"{wanted} ({kind})", "\n".join(faults.fault_lines("a.task", text, line, kind)), text)

    @needs_program
    def test_the_program_finds_them_there(self) -> None:
        from shell.protocol import Program, Refused
        from support import PROGRAM
        for text, line, kind, _ in FAULTY:
            with self.assertRaises(Refused) as caught:
                Program(PROGRAM, text)
            self.assertEqual((caught.exception.line, caught.exception.kind), (line, kind), text)

    def test_words_of_other_languages(self) -> None:
        for line, wanted in FOREIGN:
            self.assertEqual(faults.should_be(line.split(" "), line), wanted)


@needs_program
class FullJournal(unittest.TestCase):
    def test_the_greatest_limit(self) -> None:
        # As if no journal could have more entries than this one.
        with unittest.mock.patch.object(texts, "GREATEST_LIMIT", 500):
            shell = Typed(self, LOOP, limit=500)
            self.assertIn("the journal is full at the greatest limit: `save FILE` keeps the session, and `trim` starts anew", shell.ask("run")[-1])
            self.assertEqual(shell.plain("back"), ["refused 3 Full"])
            self.assertIn("`trim` starts anew", shell.ask("back")[-1])
            self.assertEqual(shell.ask("trim 9"), ["started anew with 490 steps: the journal has room for 9 more"])
            self.assertEqual(shell.plain("back"), ["undone 0#490"])

    def test_trim_leaves_out_what_was_taken_back(self) -> None:
        shell = Typed(self, example("race.task"), limit=20)
        shell.ask("break cell 0")
        for line in ("run 9", "roll 0.1#1", "run 5"):
            shell.ask(line)
        wanted = shell.session.view("hist")
        self.assertEqual(shell.session.capacity, 20 - 1 - 9 - 1 - 5)
        shell.ask("trim")
        self.assertEqual((shell.session.view("hist"), shell.session.capacity), (wanted, 20 - 1 - len(wanted) + 1))
        self.assertEqual(shell.session.view("breaks")[1:], ["1 cell 0"])
        self.assertIn("trim [N]", shell.ask("trim 99")[0])


@needs_program
class Files(unittest.TestCase):
    def folder(self) -> str:
        folder = tempfile.TemporaryDirectory()
        self.addCleanup(folder.cleanup)
        return folder.name

    def test_print_makes_no_file(self) -> None:
        folder = self.folder()
        before = os.getcwd()
        self.addCleanup(os.chdir, before)
        os.chdir(folder)
        shell = Typed(self, example("race.task"))
        self.assertEqual(shell.ask("p r0"), ["r0 of 0 = 0"])
        self.assertEqual(os.listdir(folder), [])

    def test_a_file_that_was_not_written_is_kept(self) -> None:
        shell = Typed(self, example("race.task"))
        shell.ask("run")
        for command in ("save", "page", "lanes", "graph"):
            path = os.path.join(self.folder(), "mine.dot")
            with open(path, "w", encoding="ascii") as file:
                file.write("mine")
            self.assertEqual(shell.ask(f"{command} {path}"), [f"{path} was not written: it is there already, and `-f` replaces it"])
            with open(path, encoding="ascii") as file:
                self.assertEqual(file.read(), "mine", command)
            self.assertNotIn("not written", shell.ask(f"{command} -f {path}")[0])
            self.assertNotIn("not written", shell.ask(f"{command} {path}")[0])
            self.assertEqual(os.listdir(os.path.dirname(path)), ["mine.dot"])

    def test_at_a_terminal_it_is_asked(self) -> None:
        path = write_file(self, "mine", "mine.session")
        shell = Terminal(self, [write_file(self, example("race.task"))], NO_COLOR="1")
        shell.read_until("(taskback) ")
        for answer, wanted in (("n", "was not written"), ("y", "saved ")):
            shell.send(f"save {path}\n")
            shell.read_until("is there already: replace it? (y or n) ")
            shell.send(answer + "\n")
            shell.read_until(wanted)
            shell.read_until("(taskback) ")

    def test_files_beside_the_one_that_is_named_are_kept_too(self) -> None:
        """The pages of many lanes, and the text that is written where Graphviz isn't here."""
        folder = self.folder()
        shell = Typed(self, "cells 1\nbody main 0\n  while r0 < 60\n    task t\n    let r0 r0 + 1\n  end\nend\nbody t 0\nend\n")
        shell.ask("run 999")
        page, dot = os.path.join(folder, "a-2.svg"), os.path.join(folder, "b.dot")
        for path in (page, dot):
            files.write_text(path, "mine")
        self.assertEqual(shell.ask(f"lanes {folder}/a.svg"), [f"{page} was not written: it is there already, and `-f` replaces it"])
        with unittest.mock.patch("shutil.which", lambda name: None):
            self.assertEqual(shell.ask(f"graph {folder}/b.svg"), [f"{dot} was not written: it is there already, and `-f` replaces it"])
            self.assertEqual(sorted(os.listdir(folder)), ["a-2.svg", "b.dot"])
            self.assertIn(f"written to {dot}, 61 tasks", shell.ask(f"graph -f {folder}/b.svg")[0])
            self.assertIn(f"written to {dot}, 61 tasks", shell.ask(f"graph {folder}/b.svg")[0])
        self.assertIn(f"drawn to {folder}/a.svg", shell.ask(f"lanes -f {folder}/a.svg")[0])
        self.assertIn(f"drawn to {folder}/a.svg", shell.ask(f"lanes {folder}/a.svg")[0])

    def test_what_the_shell_drew_is_known_again(self) -> None:
        folder = self.folder()
        shell = Typed(self, example("race.task"))
        for name, command in (("a.html", "page"), ("a.svg", "lanes"), ("a.dot", "graph")):
            path = os.path.join(folder, name)
            shell.ask(f"{command} {path}")
            self.assertFalse(files.is_foreign(path), name)
        shell.ask(f"save {folder}/a.session")
        self.assertTrue(files.is_foreign(os.path.join(folder, "a.session")))

    def test_a_file_is_replaced_whole_or_not_at_all(self) -> None:
        path = os.path.join(self.folder(), "a")
        files.write_text(path, "one")
        os.chmod(path, 0o640)
        link = os.path.join(os.path.dirname(path), "link")
        os.symlink(path, link)
        files.write_text(link, "two")
        self.assertTrue(os.path.islink(link))
        self.assertEqual(stat.S_IMODE(os.stat(path).st_mode), 0o640)

        def fail(there: str) -> None:
            with open(there, "w", encoding="ascii") as file:
                file.write("half")
            raise OSError(28, "No space left on device")
        with self.assertRaises(OSError):
            files.replace_by(path, fail)
        with open(path, encoding="ascii") as file:
            self.assertEqual(file.read(), "two")
        self.assertEqual(sorted(os.listdir(os.path.dirname(path))), ["a", "link"])
        files.write_text("/dev/null", "to nobody")

    def test_breakpoints_at_lines_are_saved(self) -> None:
        path = os.path.join(self.folder(), "a.session")
        shell = Typed(self, example("race.task"))
        for line in ("b line 13", "b line 12 if r1 > 0", "b cell 0", "watch c[0]", "go"):
            shell.ask(line)
        self.assertEqual(shell.ask(f"save {path}"), [f"saved {path}, 2 commands and 3 breakpoints"])
        again = Terminal(self, [path], NO_COLOR="1")
        again.read_until("5 commands come with it")
        again.read_until("(taskback) ")
        for _ in range(5):
            again.ask("source")
        self.assertEqual([line.split("   ")[0] for line in again.ask("breaks")],
                         ["breaks 1", "1 cell 0", "s1 line 13", "s2 line 12 if r1 > 0", "s3 watch c[0]"])

    def test_names_of_files_complete(self) -> None:
        folder = self.folder()
        for name in ("first.session", "second.session", ".hidden"):
            files.write_text(os.path.join(folder, name), "")
        os.mkdir(os.path.join(folder, "firm"))
        completing = Typed(self, example("race.task")).shell.completing
        self.assertEqual(completing.words(folder + "/fir", "save "), [folder + "/firm/", folder + "/first.session"])
        self.assertEqual(completing.words(folder + "/", "source "), [f"{folder}/{name}" for name in ("firm/", "first.session", "second.session")])
        self.assertEqual(completing.words(folder + "/s", "step "), [])


if __name__ == "__main__":
    unittest.main()
