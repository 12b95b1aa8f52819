"""A session step by step, for the page: what the history, the tasks, the cells and the output were at each moment.

The moment 0 is in front of the first step. Each step that was taken, and each undo and rollback, leads to the next one.
What came at a moment `born` and went at `died` was there at the moments from the one up to the other, the other not
among them.
"""

from __future__ import annotations

from collections.abc import Callable, Iterator
from dataclasses import dataclass, field
from typing import Any

from shell.facts import MOST_ASKED, Causes, Facts, Progress, Race, Task, by_name, label_of
from shell.needs import Needs, items_of
from shell.ordering import Order, Ordering
from shell.protocol import words_of
from shell.race_advice import kinds_of
from shell.session import TAKES_BACK, Done, Session, is_step
from shell.source import Source

# Where at most one step in so many is new, the needs of those alone are asked for.
FEW = 4
# In long sessions, where at most one step in so many is new: working all out after each rollback would take long.
VERY_FEW = 100
# Of sessions with more tasks the page has no races: `races` takes time with the square of tasks that others order.
MOST_RACING = 10000
# Who can step, and who waits for whom, is asked at each moment of a session with so few, and else at the end of it.
MOST_LOOKS = 2000
SHOWN_LINES = 60


@dataclass
class StoryStep:
    """A step, when it was in the history, what it needed, and its race: the earlier step, over what, and whether apart."""

    name: str
    did: str
    line: int | None
    born: int
    died: int | None = None
    causes: list[tuple[str, int]] | None = None
    race: tuple[int, str, bool] | None = None

    def row(self) -> list[object]:
        """As the page takes it."""
        return [self.name, self.did, self.line, self.born, self.died, self.causes, self.race]


@dataclass
class StoryTask:
    """A task: by which step it was generated, when it was there, and what it did from which moment on."""

    task: Task
    index: int
    step: int | None
    born: int
    died: int | None = None
    states: list[list[Any]] = field(default_factory=list)
    before: list[Any] = field(default_factory=list)
    apart: list[Any] = field(default_factory=list)

    def row(self) -> list[object]:
        """As the page takes it."""
        return [self.task.name, self.task.body, self.step, self.born, self.died, self.states, self.before, self.apart]


class Cells:
    """What the cells held at each moment, by the stores of the history."""

    def __init__(self, source: Source) -> None:
        self.first = {words[1]: words[2] for words in map(words_of, source.lines) if words[:1] == ["cell"] and len(words) == 3}
        self.first = {str(int(cell)): str(int(number)) for cell, number in self.first.items()}
        self.stores: dict[str, dict[str, str]] = {}
        self.values: dict[str, list[list[Any]]] = {cell: [[0, number]] for cell, number in self.first.items() if number != "0"}

    def note(self, cell: str, moment: int) -> None:
        """A cell may have changed."""
        stores = self.stores.get(cell)
        number = stores[next(reversed(stores))] if stores else self.first.get(cell, "0")
        values = self.values.setdefault(cell, [])
        if (values[-1][1] if values else "0") != number:
            values.append([moment, number])

    def note_store(self, name: str, words: list[str], moment: int) -> None:
        """A store that was executed."""
        self.stores.setdefault(words[1], {})[name] = words[2]
        self.note(words[1], moment)

    def lost(self, name: str, words: list[str]) -> str:
        """A store that was taken back; its cell."""
        del self.stores[words[1]][name]
        return words[1]


class Story:
    """Plays commands again, and notes when each step, task, number and line of output came and went."""

    def __init__(self, session: Session, stop: Callable[[], bool] = lambda: False, progress: Progress = lambda *counts: None) -> None:
        # A second program does it all again, so the one that is used stays as it is.
        self.session = Session(session.path, session.source, session.limit, session.options)
        self.facts = Facts(self.session, stop)
        self.progress = progress
        self.moment = 0
        self.total = max(0, session.entries - 1)
        self.looks = self.total <= MOST_LOOKS
        self.commands: list[list[Any]] = []
        self.steps: list[StoryStep] = []
        self.history: dict[str, int] = {}
        self.tasks: list[StoryTask] = []
        self.there: dict[str, StoryTask] = {}
        self.cells = Cells(session.source)
        self.prints: dict[str, str] = {}
        self.out: list[list[Any]] = []
        self.hints: dict[str, str] = {}
        self.fresh: list[str] = []
        self.ordering = Ordering()
        self.shows_causes = self.shows_races = True
        try:
            self.begin_task("0", "main", None, [])
            self.look()
            for done in session.log:
                self.play(done)
            self.explain(True)
            self.look(True)
        finally:
            self.session.close()

    # The commands

    def play(self, done: Done) -> None:
        """One command, step by step."""
        word = (words_of(done.command) or [""])[0]
        if word in TAKES_BACK:
            self.explain()
        reply: list[str] = []
        for lines in self.pieces(done):
            reply += lines[:max(0, SHOWN_LINES + 1 - len(reply))]
            if word in TAKES_BACK and lines[0].split(" ")[0] == TAKES_BACK[word]:
                self.lost(self.session.taken_back[-1])
            elif word in ("step", "run", "go"):
                for line in filter(is_step, lines):
                    self.note_step(line)
        shown = reply[:SHOWN_LINES] + (["... more lines"] if len(reply) > SHOWN_LINES else [])
        self.commands.append([done.command, shown, self.moment])

    def pieces(self, done: Done) -> Iterator[list[str]]:
        """The reply to a command; that of a run in pieces of a step, where each moment is looked at."""
        words = words_of(done.command)
        if self.looks and done.ended is None and words[:1] in (["run"], ["go"]) and done.again:
            count, prefix = int(done.again[0].split(" ")[-1]), " ".join(words[:-1])
            ended = ""
            for _ in range(count):
                line, ended = self.session.do(f"{prefix} 1")
                yield [line]
            if not ended.endswith(" break"):
                # With what is left of its steps it ends as the whole did.
                ended = self.session.do(f"{prefix} {int(words[-1]) - count}")[-1]
            yield [f"ran {count} {ended.split(' ')[2]}"]
        elif self.looks and done.ended is not None:
            for command in done.again:
                yield self.session.do(command)
            yield [done.ended]
        else:
            yield self.session.repeat(done)

    def note_step(self, line: str) -> None:
        """A step that was executed."""
        name, _, did = line.partition(" ")
        words, task = did.split(" "), name.split("#")[0]
        self.moment += 1
        self.progress(self.moment, "steps", self.total)
        self.history[name] = len(self.steps)
        self.fresh.append(name)
        self.steps.append(StoryStep(name, did, self.session.positions.line_of(name), self.moment))
        if words[0] == "store":
            self.cells.note_store(name, words, self.moment)
        elif words[0] == "print":
            self.out.append([self.moment, len(self.prints), words[1:]])
            self.prints[name] = words[1]
        elif words[0] == "spawn":
            self.begin_task(words[1], words[2], len(self.steps) - 1, items_of(words))
        self.note_state(task, {"end": "ended", "fault": "faulted"}.get(words[0], "running"))
        self.look()

    def lost(self, lines: list[str]) -> None:
        """Steps that were taken back together."""
        self.moment += 1
        changed: set[str] = set()
        printed = list(self.prints)
        for line in reversed(lines):
            name, _, did = line.partition(" ")
            words, (task, _, number) = did.split(" "), name.partition("#")
            self.steps[self.history.pop(name)].died = self.moment
            if words[0] == "store":
                changed.add(self.cells.lost(name, words))
            elif words[0] == "print":
                del self.prints[name]
            elif words[0] == "spawn":
                self.there.pop(words[1]).died = self.moment
                self.ordering.remove(task, words[1])
            if task in self.there:
                self.note_state(task, "running" if number != "1" else "pending")
        for cell in changed:
            self.cells.note(cell, self.moment)
        if len(printed) != len(self.prints):
            same = next((at for at, pair in enumerate(zip(printed, self.prints)) if pair[0] != pair[1]), len(self.prints))
            self.out.append([self.moment, same, list(self.prints.values())[same:]])
        self.look()

    # The tasks

    def begin_task(self, name: str, body: str, step: int | None, items: list[str]) -> None:
        """A task that was generated; its order doesn't change while it is there."""
        parent = name.rpartition(".")[0]
        order = self.ordering.add(parent, name, items) if parent else Order()
        made = StoryTask(Task(name, body, "pending", None, order.before, order.apart, items), len(self.tasks), step, self.moment)
        made.states.append([self.moment, "pending", None, ""])
        self.there[name] = made
        self.tasks.append(made)

    def note_state(self, name: str, state: str) -> None:
        """What a task does now."""
        line = self.session.positions.position.get(name) if state == "running" else None
        moment = [self.moment, state, line, ""]
        states = self.there[name].states
        if states[-1][0] == self.moment:
            states[-1] = moment
        elif states[-1][1:3] != moment[1:3]:
            states.append(moment)

    def look(self, last: bool = False) -> None:
        """Who can step, and who waits for whom."""
        if not (self.looks or last):
            return
        why = {name: "can step" for name in self.facts.lines("ready")}
        why.update((name, f"{word} {other}") for name, word, other in (line.split(" ") for line in self.facts.lines("waits")))
        for name, there in self.there.items():
            newest = there.states[-1]
            if newest[3] != why.get(name, ""):
                if newest[0] != self.moment:
                    newest = [self.moment, *newest[1:]]
                    there.states.append(newest)
                newest[3] = why.get(name, "")

    def orders(self) -> None:
        """For each task the dependences that no other implies, and its exclusions, with their clauses."""
        named: dict[str, list[StoryTask]] = {}
        reach: list[int] = []
        for drawn in self.tasks:
            def meets(name: str, at: int = drawn.born) -> StoryTask:
                """The task of this name that is there at the same time."""
                return next(other for other in reversed(named[name]) if other.born <= at and (other.died is None or other.died > at))
            named.setdefault(drawn.task.name, []).append(drawn)
            elders = [meets(name) for name in drawn.task.before]
            # All that come before through others, as bits; earlier siblings are done first.
            through = 0
            for other in elders:
                through |= reach[other.index]
            drawn.before = [[other.index, label_of(drawn.task, other.task, "after")] for other in elders if not through >> other.index & 1]
            drawn.apart = [[meets(name).index, label_of(drawn.task, meets(name).task, "apart")]
                           for name in drawn.task.apart if by_name(name) < by_name(drawn.task.name)]
            reach.append(through | sum(1 << other.index for other in elders))

    # Why

    def explain(self, last: bool = False) -> None:
        """The needs and races of the steps that are new; they don't change while a step is in the history."""
        if self.shows_races and len(self.there) <= MOST_RACING and (self.fresh or last):
            self.note_races(self.facts.races(), last)
        if self.fresh:
            self.note_needs()
        self.fresh = []

    def note_needs(self) -> None:
        """The needs of the new steps."""
        if self.shows_causes and self.facts.causes(self.fresh[0]) is None:
            self.shows_causes = False
        if self.shows_causes and (self.total <= MOST_ASKED or len(self.fresh) * VERY_FEW <= len(self.history)):
            for name, causes in self.asked().items():
                self.steps[self.history[name]].causes = [(kind, self.history[early]) for kind, early in causes]
        else:
            self.work_out_needs()

    def asked(self) -> dict[str, Causes]:
        """The immediate needs of the new steps: of many by one reply with those of all steps."""
        found = self.facts.edges() if len(self.fresh) * FEW > len(self.history) else None
        return {name: found[name] for name in self.fresh} if found else self.facts.asked(self.fresh)

    def work_out_needs(self) -> None:
        """The needs of the new steps from the lines of the history, without the program's help."""
        indexes, fresh, needs = list(self.history.values()), set(self.fresh), Needs()
        for name, at in self.history.items():
            found = needs.direct(name, self.steps[at].did)
            if name in fresh:
                self.steps[at].causes = [(kind, indexes[index]) for kind, index in found]

    def note_races(self, races: list[Race] | None, last: bool) -> None:
        """The races of the new steps, and what would order them: of all races where a kind of them is new, and at the end."""
        self.shows_races = races is not None
        fresh = [race for race in races or () if self.steps[self.history[race.second]].race is None]
        for race in fresh:
            self.steps[self.history[race.second]].race = (self.history[race.first], race.over, race.apart)
        if last or any(self.key_of(race) not in self.hints for race in fresh):
            for kind in kinds_of(self.session, races or ()):
                self.hints[self.key_of(kind.example)] = kind.advice().replace("`", "")

    def key_of(self, race: Race) -> str:
        """What the page calls a kind of races."""
        names = [self.session.source.line_name(self.steps[self.history[name]].line) for name in (race.first, race.second)]
        return "|".join([*names, str(race.over == "print").lower(), str(race.apart).lower()])

    def data(self) -> dict[str, object]:
        """All of it, as the page takes it."""
        self.orders()
        left_out = [] if self.shows_races else ["races: the program shows none"]
        if len(self.there) > MOST_RACING:
            left_out.append(f"races: there are more than {MOST_RACING} tasks; `races` in the shell shows them")
        if not self.shows_causes or self.total > MOST_ASKED:
            left_out.append("which needs follow from others, so all direct ones are drawn")
        if not self.looks:
            left_out.append("who can step and who waits for whom, except at the last moment")
        source = self.session.source
        return {"title": source.name, "source": source.lines, "commands": self.commands, "moments": self.moment, "leftOut": left_out,
                "steps": [step.row() for step in self.steps], "tasks": [task.row() for task in self.tasks],
                "cells": self.cells.values, "out": self.out, "hints": self.hints}
