"""The program's text: which line a task is at, and at which line each step was executed."""

import os
import re
from collections.abc import Sequence
from functools import cached_property

from shell.protocol import is_digits, words_of

BYTE_ORDER_MARK = "\ufeff"
# In front of a comment of a session file that is a command of the shell's own.
SHELL_MARK = "# shell: "


def read_text(path: str) -> str:
    """The text of a file, without a byte order mark; bytes that are no text pass as they are."""
    with open(path, encoding="utf-8", errors="surrogateescape", newline="\n") as file:
        return file.read().removeprefix(BYTE_ORDER_MARK)


def split_session(text: str) -> tuple[str, list[str] | None]:
    """The program of a text, and the lines of its commands (None where no line `---` is there)."""
    numbered = numbered_commands(text)
    if numbered is None:
        return text, None
    first, commands = numbered
    return "".join(part + "\n" for part in text.split("\n")[:first - 1]), [command for _, command in commands]


def numbered_commands(text: str) -> tuple[int, list[tuple[int, str]]] | None:
    """The line `---` of a session, and its commands with their lines; None where it is none."""
    lines = text.split("\n")
    first = next((number for number, line in enumerate(lines, 1) if words_of(line) == ["---"]), None)
    if first is None:
        return None
    return first, [(number, unmarked(line)) for number, line in enumerate(lines[first:], first + 1) if words_of(unmarked(line))]


def unmarked(line: str) -> str:
    """A line of a session as the shell reads it: a comment may have a command of the shell's own."""
    return line.removeprefix(SHELL_MARK)


# A line of C in a recorded run's comment, as `sum.c:12`.
RECORDED = re.compile(r"([^\s:]+\.(?:c|cc|cpp|cxx|h|hpp)):([0-9]+)\b")


class Source:
    """A program text that the program has accepted, with the successor of each of its lines."""

    def __init__(self, text: str, path: str) -> None:
        self.text = text
        self.path = path
        self.name = os.path.basename(path)
        self.lines = text.split("\n")
        if self.lines and self.lines[-1] == "":
            self.lines.pop()
        self.bodies: dict[str, int] = {}
        self._opener: dict[int, tuple[int, str]] = {}
        self._end: dict[int, int] = {}
        self._else: dict[int, int] = {}
        self._body: list[str | None] = []
        self._plain: list[str] = []
        self._after: dict[tuple[int, bool], int | None] = {}
        self._read_blocks()

    def _read_blocks(self) -> None:
        stack: list[tuple[int, str]] = []
        body = None
        for number, line in enumerate(self.lines, 1):
            words = words_of(line)
            self._plain.append(" ".join(words))
            word = words[0] if words else ""
            if word == "body" and len(words) > 1:
                self.bodies[words[1]] = number
                body = words[1]
                stack = [(number, word)]
            elif word in ("if", "while", "taskgroup"):
                stack.append((number, word))
            elif word == "else" and stack:
                self._else[stack[-1][0]] = number
                self._opener[number] = stack[-1]
            elif word == "end" and stack:
                opener = stack.pop()
                self._opener[number] = opener
                self._end[opener[0]] = number
            self._body.append(body)

    @property
    def cells(self) -> int:
        """How many cells the program has."""
        first = next(filter(None, self._plain), "").split(" ")
        return int(first[1]) if len(first) == 2 and is_digits(first[1]) else 0

    def line(self, number: int | None) -> str:
        """The text of a line without its indentation and comment; empty where there is none."""
        return self._plain[number - 1] if number is not None and 1 <= number <= len(self.lines) else ""

    def comment(self, number: int | None) -> str:
        """The comment of a line without its mark; empty where there is none."""
        if number is None or not 1 <= number <= len(self.lines):
            return ""
        return self.lines[number - 1].partition("#")[2].strip()

    def recorded(self, number: int | None) -> tuple[str, int] | None:
        """The C file and its line that a line of a recorded run names in its comment; None where it names none."""
        found = RECORDED.match(self.comment(number))
        return (found[1], int(found[2])) if found else None

    @property
    def is_recorded(self) -> bool:
        """Whether this is the session of a recorded run: whether a line names one of C."""
        return any(self.recorded(number) for number in range(1, len(self.lines) + 1))

    def line_name(self, number: int | None) -> str:
        """The number of a line; of a recorded run, the C file and its line: lines that are one line of C have one name."""
        found = self.recorded(number)
        return f"{found[0]}:{found[1]}" if found else str(number)

    def steps_at(self, name: str) -> list[int]:
        """The lines at which a step is executed, and that have this number, or this line of a C file."""
        return [number for number in range(1, len(self.lines) + 1) if name in (str(number), self.line_name(number)) and self.is_step(number)]

    def numbered(self, number: int) -> str:
        """A line by its number: `line 4`; of a recorded run with the line of C, `line 4 (sum.c:12)`."""
        return f"line {number}" + (f" ({self.line_name(number)})" if self.recorded(number) else "")

    def shown(self, number: int) -> str:
        """A line as it is shown with a step; that of a recorded run with what it was in C."""
        return self.line(number) + (f"  # {self.comment(number)}" if self.recorded(number) else "")

    def body_at(self, number: int) -> str | None:
        """The body to which a line belongs."""
        return self._body[number - 1] if 1 <= number <= len(self._body) else None

    def lines_of_body(self, name: str) -> range:
        """The lines of a body, from its first to its `end`."""
        first = self.bodies[name]
        return range(first, self._end.get(first, len(self.lines)) + 1)

    def is_step(self, number: int) -> bool:
        """Whether a step can be executed at this line."""
        word = self.line(number).split(" ")[0]
        if word == "end":
            return self._opener.get(number, (0, ""))[1] in ("body", "taskgroup")
        return word not in ("", "cells", "cell", "else")

    def is_in_loop(self, number: int) -> bool:
        """Whether a line is in a `while`."""
        return any(opener < number < end for opener, end in self._loops)

    @cached_property
    def _loops(self) -> list[tuple[int, int]]:
        """The first and last line of each `while`."""
        return [(opener, end) for opener, end in self._end.items() if self.line(opener).startswith("while ")]

    def _settle(self, number: int) -> int | None:
        """The line of the next statement from here: an `end` at which no step is executed is passed by."""
        while number <= len(self.lines):
            word = self.line(number).split(" ")[0]
            opener = self._opener.get(number, (0, ""))
            if word == "else":
                number = self._end[opener[0]] + 1
            elif word == "end" and opener[1] == "while":
                return opener[0]
            elif word == "" or (word == "end" and opener[1] == "if"):
                number += 1
            else:
                return number
        return None

    def after(self, number: int | None, did: Sequence[str]) -> int | None:
        """Where a task is after a step at this line; None after its end."""
        if number is None or did[0] in ("end", "fault"):
            return None
        fails = list(did) == ["test", "no"]
        if (number, fails) not in self._after:
            self._after[number, fails] = self._settle((self._else.get(number, self._end[number]) if fails else number) + 1)
        return self._after[number, fails]


class Positions:
    """Where the tasks are, and the lines of the steps that were executed."""

    def __init__(self, source: Source) -> None:
        self.source = source
        self.forget()

    def forget(self) -> None:
        """Only the root is there, as after a start."""
        self.position: dict[str, int | None] = {"0": self.source.bodies.get("main")}
        self.body: dict[str, str] = {"0": "main"}
        self.spawned: dict[str, int | None] = {}
        self._executed: dict[str, list[int | None]] = {}

    def learn(self, tasks: Sequence[str]) -> None:
        """Takes the positions from a reply to `tasks`."""
        self.position = {}
        for line in tasks[1:]:
            words = line.split(" ")
            if words[2] == "pending":
                self.position[words[0]] = self.source.bodies.get(words[1])
            elif words[2] == "running":
                self.position[words[0]] = int(words[3])

    def note(self, step: str) -> None:
        """Notes a step that was just executed."""
        name, *did = step.split(" ")
        task, number = name.split("#")
        line = self.position.get(task)
        executed = self._executed.setdefault(task, [])
        executed[int(number) - 1:] = [line]
        self.position[task] = self.source.after(line, did)
        if did[0] == "spawn":
            self.position[did[1]] = self.source.bodies.get(did[2])
            self.body[did[1]] = did[2]
            self.spawned[did[1]] = line

    def took_back(self, step: str) -> None:
        """Notes that the newest step of its task was taken back; its line stays known, since replies show it."""
        name, *did = step.split(" ")
        task = name.split("#")[0]
        self.position[task] = self.line_of(name)
        if did[0] == "spawn":
            self.position.pop(did[1], None)

    def line_of(self, step: str) -> int | None:
        """The line at which a step was executed; None where that isn't known."""
        task, _, number = step.partition("#")
        executed = self._executed.get(task, [])
        if is_digits(number) and 0 < int(number) <= len(executed):
            return executed[int(number) - 1]
        return None
