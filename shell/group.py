"""What each group of the shell's commands has: the shell that it belongs to, and short ways to write."""

from __future__ import annotations

from collections.abc import Callable, Iterator, Sequence
from typing import Protocol

from shell import help_texts
from shell.console import Console, Outcome
from shell.protocol import is_digits
from shell.session import GREATEST_LIMIT, Session
from shell.stops import Stops

Words = Sequence[str]
Command = Callable[[Words], bool | None]


class Breakers(Protocol):
    """What other groups ask of the group of breakpoints."""

    run_breaks: bool

    def report_met(self, name: str | None) -> None:
        """Which of the program's breakpoints a step meets."""


class Host(Protocol):
    """What commands ask of the shell that they belong to.

    `present` is the user's session, and `past` a second one where a past state is looked at; `focus` is the task that
    stepped last, `last_step` what Enter does again, `queue` the commands of an opened session that weren't played yet.
    """

    console: Console
    present: Session
    past: Session | None
    stops: Stops
    queue: list[str]
    methods: dict[str, Command]
    focus: str
    last_step: str | None
    outcome: Outcome
    interrupted: bool

    @property
    def session(self) -> Session:
        """The session that is looked at."""

    @property
    def breaking(self) -> Breakers:
        """The group of breakpoints."""

    def send(self, command: str) -> list[str]:
        """Has the program carry out a command, and shows its reply."""

    def show(self, lines: Sequence[str]) -> None:
        """Shows lines of a reply."""

    def show_line(self, line: str) -> None:
        """Shows one of them."""

    def up_to_interrupt(self, lines: Sequence[str]) -> Iterator[str]:
        """The lines up to Ctrl-C."""

    def explain(self, command: str, line: str) -> None:
        """Says in words what a line of a reply to a command means."""

    def clauses(self, task: str, other: str) -> str:
        """The clauses for which one task waits for another."""

    def carry_out(self, line: str) -> bool:
        """Carries out a line as it would be typed; true ends the shell."""


def count_in(words: Words, index: int, usual: int) -> int | None:
    """The number at this index, `usual` where it lacks, None where it is none."""
    if len(words) <= index:
        return usual
    if len(words) == index + 1 and is_digits(words[index]) and int(words[index]) <= GREATEST_LIMIT:
        return int(words[index])
    return None


class Group:
    """Commands of one topic: each method `do_NAME` carries out the command NAME, and returns true to end the shell."""

    def __init__(self, shell: Host) -> None:
        self.shell = shell
        self.console = shell.console

    def commands(self) -> dict[str, Command]:
        """The commands of this group by their names."""
        return {name.removeprefix("do_").replace("_", "-"): getattr(self, name) for name in dir(self) if name.startswith("do_")}

    @property
    def session(self) -> Session:
        """The session that is looked at: the user's own, or one that is at a past state."""
        return self.shell.session

    @property
    def interrupted(self) -> bool:
        """Whether Ctrl-C was pressed since the command began."""
        return self.shell.interrupted

    def say(self, line: str) -> None:
        """A line that was asked for."""
        self.console.say(line)

    def note(self, text: str) -> None:
        """A line in words."""
        self.console.note(text)

    def wrong(self, name: str) -> None:
        """A command with the wrong words: how it is written."""
        entry = help_texts.HELP[name]
        self.fail(f"`{name}` takes no words" if entry.usage == name else f"{entry.usage}, for example: {entry.example}")

    def fail(self, text: str) -> None:
        """A command that can't be carried out as it is written."""
        self.shell.outcome = max(self.shell.outcome, Outcome.ERROR)
        self.console.last_words = text
        self.say(text)

    def refuse(self, text: str) -> None:
        """A command that is written well, and can't be carried out now."""
        self.shell.outcome = max(self.shell.outcome, Outcome.REFUSED)
        self.console.last_words = text
        self.say(text)
