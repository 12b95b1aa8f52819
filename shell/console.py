"""What commands write to: lines of replies, the words that explain them, progress, and questions; as text or as JSON."""

import contextlib
import json
import os
import re
import threading
import time
from collections.abc import Iterator
from dataclasses import dataclass, field
from enum import IntEnum
from typing import TextIO

# The version of the records that `--json` writes; docs/replies.schema.json describes them.
VERSION = 1
# A line that shows what a step did; a line of `races` has a second step there.
STEP = re.compile(r"([0-9][0-9.]*)#([0-9]+) ([a-z].*)")
REFUSED = re.compile(r"refused ([0-9]+) (\w+)(?: (\S+))?")
# Progress is shown this often, in seconds, and not in front of the first time.
PROGRESS = 0.5
ROWS = 24


class Outcome(IntEnum):
    """How a command ended; the numbers are the statuses of a checked script."""

    DONE = 0
    REFUSED = 1
    ERROR = 2


def counted(count: int, word: str) -> str:
    """A number of things: `1 task`, `2 tasks`, `0 branches`."""
    return f"{count:,} {word}" + ("" if count == 1 else "es" if word.endswith(("ch", "s")) else "s")


class PageEnded(Exception):
    """The user wants no more of a long reply."""


class Console:
    """Writes text. `exact` leaves out all words, so that the program's own lines and what was asked for are left."""

    def __init__(self, out: TextIO, exact: bool = False, colours: bool = False, typed: bool = False) -> None:
        self.out = out
        self.exact = exact
        self.colours = colours
        self.typed = typed
        self.pages = True
        # What ends a command early.
        self.stopper = "Ctrl-C"
        # The newest words, for whoever has to say why a command failed.
        self.last_words = ""
        self._paged = False
        self._shown = 0
        self._began = self._told = time.monotonic()

    @property
    def whole(self) -> bool:
        """Whether each line of a reply is written, however long it is."""
        return self.exact

    # One command

    def begin(self, command: str, paged: bool) -> None:
        """A command begins; its reply stops at each full screen where `paged` says so."""
        self.last_words = ""
        self._paged = paged and self.pages and self.typed and self.rows() > 0
        self._shown = 0
        self._began = self._told = time.monotonic()

    def announce(self) -> None:
        """What a command has written so far is shown before it ends: it holds on."""
        self.out.flush()

    def finish(self, outcome: Outcome) -> None:
        """A command has ended."""
        self.out.flush()

    # What is written

    def write(self, text: str) -> None:
        """Writes one line."""
        if self._paged:
            self._turn(text)
        self.out.write(text + "\n")

    def say(self, line: str) -> None:
        """A line that was asked for."""
        self.write(line)

    def reply(self, line: str, line_number: int | None = None, words: str = "") -> None:
        """A line of the program's reply, with the source line of its first step, and words to the right of it."""
        self.write(line if self.exact or not words else line + self.dim(" " * max(2, 32 - len(line)) + words))

    def note(self, text: str) -> None:
        """A line in words."""
        self.last_words = text
        if not self.exact:
            self.write(self.dim("  " + text))

    def dim(self, text: str) -> str:
        """The text, dimmed where the terminal can."""
        return f"\x1b[2m{text}\x1b[0m" if self.colours else text

    def shaded(self, text: str) -> str:
        """A line that is marked, where the terminal can."""
        return f"\x1b[7m{text}\x1b[0m" if self.colours else text

    def flush(self) -> None:
        """Shows what was written."""
        self.out.flush()

    def rows(self) -> int:
        """How many lines the terminal shows; 0 where it doesn't say so."""
        try:
            return os.get_terminal_size(self.out.fileno()).lines
        except (OSError, ValueError):
            return 0

    # A long reply, and what takes long

    def _turn(self, text: str) -> None:
        """Waits for a key where the screen is full."""
        self._shown += 1
        if self._shown < self.rows():
            return
        self.out.flush()
        try:
            answer = input("-- more: Enter, a for all, q to end: ")
        except EOFError:
            answer = "q"
        if answer.startswith("q"):
            raise PageEnded
        self._paged = not answer.startswith("a")
        self._shown = 1

    def progress(self, done: int, what: str, total: int | None = None) -> None:
        """How far what takes long has come, with its speed; on a terminal alone."""
        now = time.monotonic()
        if not self.typed or self.exact or now - self._told < PROGRESS or not self.out.isatty():
            return
        self._told = now
        of = f" of {total:,}" if total is not None else ""
        self.out.write(f"\r\x1b[K  {done:,}{of} {what}, {int(done / (now - self._began)):,} a second\r")
        self.out.flush()

    @contextlib.contextmanager
    def waiting(self, what: str) -> Iterator[None]:
        """Shows how long a single reply has been awaited; on a terminal alone."""
        if not self.typed or self.exact or not self.out.isatty():
            yield
            return
        ended = threading.Event()

        def report() -> None:
            while not ended.wait(PROGRESS):
                self._told = time.monotonic()
                self.out.write(f"\r\x1b[K  {what}: {int(self._told - self._began)} s; Ctrl-C ends it\r")
                self.out.flush()
        reporter = threading.Thread(target=report, daemon=True)
        reporter.start()
        try:
            yield
        finally:
            ended.set()
            reporter.join()
            self.end_progress()

    def end_progress(self) -> None:
        """Takes the line of progress away."""
        if self._told > self._began:
            self.out.write("\x1b[K")
            self._told = self._began

    def ask(self, question: str) -> bool:
        """Whether the user says yes; where nobody can be asked, no."""
        if not self.typed:
            return False
        self.out.flush()
        try:
            return input(f"{question} (y or n) ").strip().lower() in ("y", "yes")
        except EOFError:
            self.write("")
            return False


@dataclass
class Record:
    """What is written of one command."""

    number: int
    command: str
    lines: list[str] = field(default_factory=list)
    steps: list[dict[str, object]] = field(default_factory=list)
    words: list[str] = field(default_factory=list)
    announced: bool = False


class JsonConsole(Console):
    """Writes one line of JSON for each command; a command that plays others comes after them."""

    def __init__(self, out: TextIO) -> None:
        super().__init__(out)
        self._count = 0
        self._records = [Record(0, "")]

    @property
    def whole(self) -> bool:
        return True

    def begin(self, command: str, paged: bool) -> None:
        super().begin(command, False)
        self._count += 1
        self._records.append(Record(self._count, command))

    def write(self, text: str) -> None:
        self._records[-1].lines.append(text)

    def note(self, text: str) -> None:
        self.last_words = text
        self._records[-1].words.append(text)

    def reply(self, line: str, line_number: int | None = None, words: str = "") -> None:
        record = self._records[-1]
        record.lines.append(line)
        step = STEP.fullmatch(line)
        if step:
            record.steps.append({"step": f"{step[1]}#{step[2]}", "task": step[1], "number": int(step[2]), "did": step[3], "line": line_number})

    def announce(self) -> None:
        self._records[-1].announced = True
        self._show(self._records[-1], Outcome.DONE)

    def finish(self, outcome: Outcome) -> None:
        record = self._records.pop()
        if not record.announced:
            self._show(record, outcome)

    def _show(self, record: Record, outcome: Outcome) -> None:
        """Writes the line of a record."""
        fields: dict[str, object] = {"version": VERSION, "number": record.number, "command": record.command, "outcome": outcome.name.lower(),
                                     "lines": record.lines, "steps": record.steps, "words": record.words}
        refused = next(filter(None, map(REFUSED.fullmatch, record.lines)), None)
        if refused:
            fields["refusal"] = {"number": int(refused[1]), "name": refused[2], "by": refused[3]}
        # Bytes that are no text are escaped, so that a line is always JSON.
        self.out.write(json.dumps(fields) + "\n")
        self.out.flush()
