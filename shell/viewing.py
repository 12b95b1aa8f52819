"""The commands that look: races and causes explained in words, any view by its name, and the source."""

from __future__ import annotations

from shell import texts
from shell.console import counted
from shell.facts import race_of
from shell.group import Group, Words
from shell.protocol import is_digits
from shell.race_advice import kinds_of
from shell.session import is_step

VIEWS = ("tasks", "task", "cells", "out", "ready", "waits", "deps", "breaks", "hist", "why", "who", "races", "causes", "edges")
# What other debuggers call a view, by any beginning of at least this many letters.
ELSEWHERE = {"threads": "tasks", "breakpoints": "breaks", "watchpoints": "breaks", "locals": "task", "registers": "task", "args": "task", "frame": "task",
             "display": "display", "line": "list", "source": "list", "scope": "task", "variables": "task"}
LEAST = 3


class Viewing(Group):
    """Commands that look."""

    def do_races(self, words: Words) -> None:
        """The races by pairs of lines, each with what would order the two steps."""
        with self.console.waiting(f"races of {counted(len(self.session.history), 'step')}"):
            reply = self.session.do(" ".join(["races", *words]))
        if self.console.exact or not reply[0].startswith("races "):
            self.shell.show(reply)
            self.shell.explain("races", reply[0])
            return
        races = [race_of(line) for line in reply[1:] if is_step(line)]
        kinds = kinds_of(self.session, races)
        advice = {kind.number: kind.in_words() for kind in kinds}
        self.shell.show_line(reply[0])
        numbers = list(range(1, len(reply)) if self.console.whole else advice)
        for number, line in zip(numbers, self.shell.up_to_interrupt([reply[number] for number in numbers])):
            self.shell.show_line(line)
            if number in advice:
                self.note(advice[number])
        if len(kinds) < len(races):
            self.note(f"{counted(len(races), 'race')} of {counted(len(kinds), 'pair')} of lines; `flip N` shows both outcomes of race N")

    def do_causes(self, words: Words) -> None:
        """The steps that a step needs at once, each with why."""
        command = " ".join(["causes", *words])
        reply = self.session.do(command)
        for line in self.shell.up_to_interrupt(reply):
            self.shell.show_line(line)
            if ": " in line:
                text = texts.cause_words(line, words[0], self.session.positions.line_of(words[0]))
                kind, other = line.split("#")[0].split(": ")
                if kind in ("before", "apart") and not self.console.exact:
                    text += self.shell.clauses(words[0].split("#")[0], other)
                self.note(text)
        self.shell.explain(command, reply[0])

    def do_edges(self, words: Words) -> None:
        """What each step needs at once, which of a long history takes long."""
        with self.console.waiting(f"edges of {counted(len(self.session.history), 'step')}"):
            reply = self.session.do(" ".join(["edges", *words]))
        self.shell.show(reply)
        self.shell.explain(" ".join(["edges", *words]), reply[0])

    def do_info(self, words: Words) -> None:
        """A view by its name."""
        if not words:
            self.fail("info wants a view: " + ", ".join(VIEWS))
            return
        fitting = [name for name in VIEWS if name == words[0]] or [name for name in VIEWS if name.startswith(words[0])]
        other = None if words[0] in VIEWS else next((name for name in ELSEWHERE if name.startswith(words[0]) and len(words[0]) >= LEAST), None)
        if other:
            fitting = [ELSEWHERE[other]]
            words = [*words, self.shell.focus] if fitting == ["task"] and len(words) == 1 else words
        if not fitting:
            self.fail(f"no such view: {words[0]}; there are " + ", ".join(VIEWS))
            return
        method = self.shell.methods.get(fitting[0])
        if method:
            method(words[1:])
        else:
            self.shell.send(" ".join([fitting[0], *words[1:]]))

    def do_list(self, words: Words) -> None:
        """The source around a task, a line or a body, with marks where tasks are."""
        source, positions = self.session.source, self.session.positions
        middle, count = None, len(source.lines)
        if words and is_digits(words[0]) and words[0] != "0":
            middle = int(words[0])
        elif words:
            middle = source.bodies.get(words[0]) or positions.position.get(words[0])
            if middle is None:
                self.refuse(f"{words[0]} is at no line")
                return
        if middle is not None and not 1 <= middle <= count:
            self.refuse(f"the program has {counted(count, 'line')}")
            return
        first, last = (1, count) if middle is None else (max(1, middle - 5), min(count, middle + 5))
        at: dict[int, list[str]] = {}
        for task, number in positions.position.items():
            if number is not None:
                at.setdefault(number, []).append(task)
        stops = self.shell.stops.lines(source)
        for number in range(first, last + 1):
            mark = "=>" if number in at else "  "
            tasks = "   <- " + ", ".join(at[number]) if number in at else ""
            self.say(f"{mark}{'*' if number in stops else ' '}{number:4}  {source.lines[number - 1]}{self.console.dim(tasks)}")
