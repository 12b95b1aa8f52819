"""What the front end's tests share: where things are, and a terminal that a shell runs in."""

import io
import os
import pty
import select
import signal
import sys
import tempfile
import time
import unittest
from collections.abc import Sequence
from typing import Any

TOP = os.path.dirname(os.path.dirname(os.path.dirname(os.path.abspath(__file__))))
EXAMPLES = os.path.join(TOP, "examples")
MAIN = os.path.join(TOP, "taskback-shell")
PROGRAM = os.environ.get("TASKBACK_PROGRAM", os.path.join(TOP, "crates", "taskback", "out", "taskback"))
needs_program = unittest.skipUnless(os.access(PROGRAM, os.X_OK),
                                    f"no program at {PROGRAM}; TASKBACK_PROGRAM names another")
JUDGE = os.environ.get("TASKBACK_TASKCHECK", os.path.join(TOP, "crates", "taskcheck", "out", "taskcheck"))
needs_judge = unittest.skipUnless(os.access(JUDGE, os.X_OK), f"no program at {JUDGE}; TASKBACK_TASKCHECK names another")

PROMPT = "(taskback) "
# How long what is awaited may take: long, since the machine may be busy.
SECONDS = float(os.environ.get("TASKBACK_TEST_SECONDS", "120"))
LOOP = "cells 1\nbody main 0\n  while 0 == 0\n    store 0 1\n  end\nend\n"


def example(name: str) -> str:
    """The text of a file in examples/."""
    with open(os.path.join(EXAMPLES, name), encoding="utf-8") as file:
        return file.read()


def write_file(test: unittest.TestCase, text: str, name: str = "loop.task") -> str:
    """A file with this text, for the time of the test."""
    folder = tempfile.TemporaryDirectory()
    test.addCleanup(folder.cleanup)
    path = os.path.join(folder.name, name)
    with open(path, "w", encoding="utf-8") as file:
        file.write(text)
    return path


def contrast(dark: str, light: str) -> float:
    """How much lighter one of two colours is than the other, as the web's accessibility guidelines count it."""
    def luminance(colour: str) -> float:
        parts = [int(colour[at:at + 2], 16) / 255 for at in (1, 3, 5)]
        red, green, blue = (float(part / 12.92 if part <= 0.03928 else ((part + 0.055) / 1.055) ** 2.4) for part in parts)
        return 0.2126 * red + 0.7152 * green + 0.0722 * blue
    low, high = sorted((luminance(dark), luminance(light)))
    return (high + 0.05) / (low + 0.05)


class Terminal:
    """A shell on a terminal of its own, with a home of its own."""

    def __init__(self, test: unittest.TestCase, words: Sequence[str], start: Sequence[str] = (sys.executable, MAIN), **changes: Any) -> None:
        if "HOME" not in changes:
            home = tempfile.TemporaryDirectory()
            test.addCleanup(home.cleanup)
            changes["HOME"] = home.name
        environment = {name: value for name, value in os.environ.items() if name != "NO_COLOR"}
        environment.update({"TERM": "xterm", "TASKBACK_PROGRAM": PROGRAM, "INPUTRC": "/dev/null"}, **changes)
        self.child, self.end = pty.fork()
        if self.child == 0:
            os.execve(start[0], [*start, *words], environment)
        self.seen = ""
        self.status: int | None = None
        test.addCleanup(self.close)

    def send(self, text: str) -> None:
        """Types this."""
        os.write(self.end, text.encode())

    def read_until(self, wanted: str, seconds: float = SECONDS) -> str:
        """What is shown up to and with `wanted`; fails where it doesn't come."""
        limit = time.monotonic() + seconds
        while wanted not in self.seen:
            if not select.select([self.end], [], [], max(0, limit - time.monotonic()))[0]:
                raise AssertionError(f"{wanted!r} didn't come: {self.seen[-2000:]!r}")
            try:
                part = os.read(self.end, 65536)
            except OSError:
                part = b""
            if not part:
                raise AssertionError(f"the shell ended before {wanted!r}: {self.seen[-2000:]!r}")
            self.seen += part.decode("utf-8", "replace")
        at = self.seen.index(wanted) + len(wanted)
        shown, self.seen = self.seen[:at], self.seen[at:]
        return shown

    def type(self, line: str) -> str:
        """Types a line at the prompt, and returns what is shown up to the next prompt."""
        self.send(line + "\n")
        return self.read_until("(taskback) ").replace("\r\n", "\n")

    def ask(self, line: str) -> list[str]:
        """Types a line at the prompt, and returns what is shown in front of the next prompt, without the echo.

        A prompt that is shown in front of a played command isn't the last thing that is shown.
        """
        self.seen = ""
        self.send(line + "\n")
        shown = self.read_until("\n" + PROMPT)
        while self.seen or select.select([self.end], [], [], 0.02)[0]:
            shown += self.read_until("\n" + PROMPT)
        lines = shown.replace("\r\n", "\n")[:-len(PROMPT)].split("\n")
        return [text for text in lines[1:] if text]

    def stopped(self, line: str, shown: str) -> int:
        """Types a long run, and presses Ctrl-C once this is shown; how many steps it took."""
        self.send(line + "\n")
        self.read_until(shown)
        self.send("\x03")
        told = self.read_until("stopped by Ctrl-C; the session goes on")
        self.read_until("(taskback) ")
        return int(told.rsplit("ran ", 1)[1].split(" ")[0])

    def interrupt(self) -> None:
        """Presses Ctrl-C once the shell waits for a key: readline doesn't see one that comes just before."""
        while not self.sleeps():
            time.sleep(0.01)
        self.send("\x03")

    def sleeps(self) -> bool:
        """Whether the shell's process waits, as seen twice."""
        for _ in range(2):
            with open(f"/proc/{self.child}/stat", encoding="ascii") as file:
                if file.read().rsplit(")", 1)[1].split()[0] != "S":
                    return False
            time.sleep(0.02)
        return True

    def wait(self) -> int:
        """Reads to the end; returns the status."""
        while self.status is None:
            try:
                if not os.read(self.end, 65536):
                    break
            except OSError:
                break
        if self.status is None:
            self.status = os.waitstatus_to_exitcode(os.waitpid(self.child, 0)[1])
        return self.status

    def close(self) -> None:
        """Ends the shell where it hasn't ended."""
        if self.status is None:
            os.kill(self.child, signal.SIGKILL)
            self.wait()
        os.close(self.end)


class Typed:
    """A shell in this process: what each line says, without a terminal."""

    def __init__(self, test: unittest.TestCase, text: str, name: str = "race.task", limit: int | None = None, exact: bool = False) -> None:
        from shell.commands import Shell
        from shell.console import Console
        from shell.session import Session
        from shell.source import Source
        self.session = Session(PROGRAM, Source(text, name), limit)
        test.addCleanup(self.session.close)
        self.out = io.StringIO()
        self.shell = Shell(self.session, Console(self.out, exact))

    def ask(self, line: str) -> list[str]:
        """The lines that a line says."""
        self.out.seek(0)
        self.out.truncate()
        self.shell.take(line)
        return self.out.getvalue().split("\n")[:-1]

    def plain(self, line: str) -> list[str]:
        """The lines that a line says, without source lines and words."""
        return [text.split("   ")[0] for text in self.ask(line) if not text.startswith("  ")]
