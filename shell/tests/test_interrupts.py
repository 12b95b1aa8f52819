"""Ctrl-C while a reply is awaited: the reply is cut, and the program starts anew with the session so far."""

import os
import stat
import subprocess
import sys
import time
import unittest
from typing import Any

from support import EXAMPLES, LOOP, MAIN, PROGRAM, Terminal, needs_program, write_file

RACE = os.path.join(EXAMPLES, "race.task")
TOLD = "stopped by Ctrl-C in a reply; the program starts anew and does the session so far again"
# Passes all on to the program, but stops for ever at the Nth of the commands, once; it says so by a file.
STALLING = """#!{python}
import os, subprocess, sys, time
from typing import Any
told, command, count = {told!r}, {command!r}, {count}
program = subprocess.Popen([{program!r}, *sys.argv[1:]], stdin=subprocess.PIPE)
for line in sys.stdin.buffer:
    count -= line.decode().strip() == command
    if count == 0 and not os.path.exists(told):
        open(told, "w").close()
        time.sleep(1000)
    program.stdin.write(line)
    program.stdin.flush()
program.stdin.close()
sys.exit(program.wait())
"""


class Stalling(unittest.TestCase):
    """Tests on a program that stalls once."""

    def stalling(self, command: str, count: int = 1) -> Any:
        """The path of a program that stalls once, and of the file by which it says so."""
        path = write_file(self, "", "stalling")
        told = path + ".told"
        with open(path, "w", encoding="utf-8") as file:
            file.write(STALLING.format(python=sys.executable, told=told, command=command, count=count, program=PROGRAM))
        os.chmod(path, stat.S_IRWXU)
        return path, told

    def open(self, program: str, *words: str) -> Any:
        shell = Terminal(self, ["--program", program, *words], NO_COLOR="1")
        shell.read_until("(taskback) ")
        return shell

    def wait_for(self, path: str) -> None:
        """Waits until the program stalls, so that its reply is awaited."""
        limit = time.monotonic() + 120
        while not os.path.exists(path):
            self.assertLess(time.monotonic(), limit, "the program didn't come to the command")
            time.sleep(0.01)

    def press(self, shell: Terminal, wanted: str) -> None:
        """Presses Ctrl-C until it is answered so (two that come at once count as one), and goes on at the prompt."""
        for _ in range(120):
            shell.send("\x03")
            try:
                shell.read_until(wanted, 1)
                break
            except AssertionError:
                pass
        else:
            self.fail(f"{wanted!r} didn't come: {shell.seen!r}")
        shell.send("help quit\n")
        shell.read_until("as Ctrl-D does")
        shell.read_until("(taskback) ")

    def cut_by_the_second(self, shell: Terminal, told: str) -> None:
        """Presses Ctrl-C in a command that asks for many replies: the first waits for the one that stalls, the second cuts it."""
        self.wait_for(told)
        shell.send("\x03")
        with self.assertRaises(AssertionError):
            shell.read_until("stopped by", 1)
        self.press(shell, TOLD)


@needs_program
class InterruptTest(Stalling):
    def test_a_single_reply_is_cut(self) -> None:
        # `finish` asks for more than one, so it is cut by the second alone.
        for command in ("races", "why 0#3", "roll 0#2", "hist", "finish 0.1"):
            stalled = "step 0.1" if command == "finish 0.1" else command
            program, told = self.stalling(stalled)
            shell = self.open(program, RACE)
            shell.type("break cell 0")
            shell.type("run 4")
            shell.send(command + "\n")
            self.wait_for(told)
            self.press(shell, TOLD)
            self.assertEqual(shell.ask("hist")[0], "hist 4", command)
            self.assertEqual(shell.ask("breaks")[1], "1 cell 0", command)
            self.assertEqual(shell.ask(command)[0].split(" ")[0],
                             {"roll": "rolled", "finish": "0.1#2"}.get(command.split(" ")[0], command.split(" ")[0]))

    def test_a_single_reply_is_timed_and_ends_by_ctrl_c(self) -> None:
        program, told = self.stalling("races")
        shell = self.open(program, RACE)
        shell.ask("run 99")
        shell.send("races\n")
        self.assertRegex(shell.read_until(" s; Ctrl-C ends it"), r"races of 17 steps: \d+ s")
        self.press(shell, TOLD)
        self.assertEqual(shell.ask("hist")[0], "hist 17")

    def test_a_second_program_that_is_cut_leaves_the_session(self) -> None:
        # `flip` runs both orders to their ends in programs beside.
        program, told = self.stalling("run 200000")
        shell = self.open(program, RACE)
        shell.ask("run 99")
        shell.send("flip 1\n")
        self.wait_for(told)
        self.press(shell, "stopped by Ctrl-C; the session is as it was")
        self.assertEqual(shell.ask("hist")[0], "hist 17")

    def test_the_second_cuts_a_run(self) -> None:
        program, told = self.stalling("run 1000", 3)
        shell = self.open(program, "--limit", "1000000", write_file(self, LOOP))
        shell.type("step 0")
        shell.send("run -v 1000000\n")
        shell.read_until("0#2001 ")
        self.cut_by_the_second(shell, told)
        self.assertEqual(shell.ask("step 0")[0].split(" ")[0], "0#2002")
        path = write_file(self, "", "saved.session")
        shell.ask("save " + path)
        with open(path, encoding="utf-8") as file:
            self.assertEqual(file.read().split("---\n")[1], "# run it with --limit 1000000\nstep 0\nrun 2000\nstep 0\n")

    def test_what_is_saved_is_the_whole_session(self) -> None:
        program, told = self.stalling("races")
        shell = self.open(program, RACE)
        for command in ("run 4", "tasks", "step 0.9", "undo 0.1#1"):
            shell.ask(command)
        shell.send("races\n")
        self.wait_for(told)
        self.press(shell, TOLD)
        path = write_file(self, "", "saved.session")
        self.assertEqual(shell.ask("save " + path), [f"saved {path}, 4 commands"])
        with open(path, encoding="utf-8") as file:
            self.assertEqual(file.read().split("---\n")[1], "run 4\ntasks\nstep 0.9\nundo 0.1#1\n")

    def test_a_page_that_is_cut_leaves_the_program(self) -> None:
        # The page is made by a second program; the shell's own goes on.
        program, told = self.stalling("races")
        shell = self.open(program, RACE)
        shell.type("run 99")
        shell.send("page /no/folder/race.html\n")
        self.wait_for(told)
        self.press(shell, "stopped by Ctrl-C; nothing is drawn")
        self.assertEqual(shell.ask("hist")[0], "hist 17")

    def test_plain_says_it_beside(self) -> None:
        program, told = self.stalling("races")
        commands = "run 2\nraces\nhist\n"
        shell = subprocess.Popen([sys.executable, MAIN, "--program", program, "--plain", RACE], stdin=subprocess.PIPE,
                                 stdout=subprocess.PIPE, stderr=subprocess.PIPE, text=True)
        self.addCleanup(shell.kill)
        shell.stdin.write(commands)
        shell.stdin.flush()
        self.wait_for(told)
        shell.send_signal(2)
        out, said = shell.communicate(timeout=240)
        self.assertEqual((out, said, shell.returncode), (
            "0#1 start\n0#2 spawn 0.1 add 1\nran 2 limit\nhist 2\n0#1 start\n0#2 spawn 0.1 add 1\n", TOLD + "\n", 0))


if __name__ == "__main__":
    unittest.main()
