"""Breakpoints of the shell's own, at lines and with conditions, and watched values; and which step meets which."""

from collections.abc import Callable
from dataclasses import dataclass

from shell.expressions import Expression, Unknown, parsed
from shell.session import Session
from shell.source import Positions, Source
from shell.values import Values


@dataclass(frozen=True)
class Where:
    """The steps at which a breakpoint stops: those of a task, at a cell, at a line, or of a kind."""

    kind: str
    what: str = ""

    def __str__(self) -> str:
        return f"{self.kind} {self.what}".rstrip()

    def meets(self, line: str, positions: Positions) -> bool:
        """Whether a step that was just executed is one of these."""
        name, *did = line.split(" ")
        task = name.split("#")[0]
        if self.kind == "line":
            number = positions.line_of(name)
            return self.what in (str(number), positions.source.line_name(number))
        if self.kind == "task":
            return task == self.what
        if self.kind == "cell":
            return did[0] in ("load", "store") and did[-2] == self.what
        if self.kind == "body":
            return did[0] == "start" and positions.body.get(task) == self.what
        return did[0] == self.kind


def program_stops(breaks: list[str]) -> list[tuple[str, Where]]:
    """The program's own breakpoints by their numbers, from the lines of `breaks`."""
    return [(number, Where(kind, what[0] if what else "")) for number, kind, *what in (line.split(" ") for line in breaks)]


@dataclass
class Breakpoint:
    """A breakpoint that the program doesn't have: at a line, or with a condition."""

    where: Where
    condition: Expression | None = None
    text: str = ""

    def __str__(self) -> str:
        return f"{self.where} if {self.text}" if self.condition else str(self.where)

    @property
    def command(self) -> str:
        """The command that makes it."""
        return f"break {self}"

    def meets(self, line: str, session: Session) -> str | None:
        """What is said where a step that was just executed meets it."""
        if not self.where.meets(line, session.positions):
            return None
        if self.condition is None:
            return str(self)
        try:
            holds = self.condition.evaluate(Values(session, line), line.split("#")[0])
        except Unknown:
            return None
        return str(self) if holds else None


@dataclass
class Watchpoint:
    """A number that stops a `go` where it changes; None where it isn't there."""

    expression: Expression
    text: str
    task: str
    number: int | None = None

    def __str__(self) -> str:
        return f"watch {self.text}"

    @property
    def command(self) -> str:
        """The command that makes it."""
        return str(self)

    def look(self, session: Session) -> int | None:
        """The number now."""
        try:
            return self.expression.evaluate(Values(session), self.task)
        except Unknown:
            return None

    def meets(self, line: str, session: Session) -> str | None:
        """What is said where a step that was just executed, or taken back, changed it."""
        name, did = line.split(" ", 1)
        reads = self.expression.reads(self.task)
        if name.split("#")[0] not in reads.tasks and not (reads.cells and did.startswith("store ")):
            return None
        old, self.number = self.number, self.look(session)
        return f"{self.text}: {old} -> {self.number}" if None not in (old, self.number) and old != self.number else None


Stop = Breakpoint | Watchpoint


class Stops:
    """All of the shell's own, by the number that each keeps."""

    def __init__(self) -> None:
        self.there: dict[int, Stop] = {}
        self._given = 0

    def add(self, stop: Stop) -> str:
        """The name of a new one."""
        self._given += 1
        self.there[self._given] = stop
        return f"s{self._given}"

    def add_breakpoint(self, where: Where, condition: str = "") -> str:
        """A breakpoint; raises Unreadable where the condition is no expression."""
        stop = Breakpoint(where, parsed(condition) if condition else None, condition)
        known = next((name for name, other in self.there.items() if other == stop), None)
        return self.add(stop) if known is None else f"s{known}"

    def add_watch(self, text: str, task: str, session: Session) -> tuple[str, int | None]:
        """A watched value, and what it is now; raises Unreadable where the text is no expression."""
        expression = parsed(text)
        if expression.reads("") != expression.reads(task):
            text = f"{text} of {task}" if " " not in text else f"({text}) of {task}"
        stop = Watchpoint(expression, text, task)
        stop.number = stop.look(session)
        return self.add(stop), stop.number

    def clear(self, chosen: Callable[[int, Stop], bool]) -> int:
        """Takes the chosen ones away; returns how many these were."""
        gone = [number for number, stop in self.there.items() if chosen(number, stop)]
        for number in gone:
            del self.there[number]
        return len(gone)

    def lines(self, source: Source) -> set[int]:
        """The lines at which one stops."""
        wanted = [stop.where.what for stop in self.there.values() if isinstance(stop, Breakpoint) and stop.where.kind == "line"]
        return {number for name in wanted for number in source.steps_at(name)}

    def refresh(self, session: Session) -> None:
        """Looks at what is watched, as it is before a run begins."""
        for stop in self.there.values():
            if isinstance(stop, Watchpoint):
                stop.number = stop.look(session)

    def at_step(self, line: str, session: Session) -> list[str]:
        """What is said of the breakpoints that the newest step meets."""
        there = {number: stop for number, stop in self.there.items() if isinstance(stop, Breakpoint)}
        return [f"s{number}: {text}" for number, stop in there.items() if (text := stop.meets(line, session))]

    def changed(self, line: str, session: Session) -> list[str]:
        """What is said of the watched values that a step changed which was just executed, or taken back."""
        watched = {number: stop for number, stop in self.there.items() if isinstance(stop, Watchpoint)}
        return [f"s{number}: {text}" for number, stop in watched.items() if (text := stop.meets(line, session))]

    def met(self, line: str, session: Session) -> list[str]:
        """What is said of all that a step that was just executed meets."""
        return self.at_step(line, session) + self.changed(line, session)

    def commands(self) -> list[str]:
        """The commands that make them again."""
        return [stop.command for stop in self.there.values()]
