"""What a picture is drawn from: the program's replies at one moment, and nothing else."""

from __future__ import annotations

from collections.abc import Callable, Iterator, Sequence
from dataclasses import dataclass, field

from shell.needs import Needs, items_of
from shell.ordering import Ordering
from shell.session import Session
from shell.texts import matching_pairs

NOT_THERE = ["error word"]
# Of more steps the needs are worked out from the lines of the history, with some among them that others imply: what
# `edges` takes grows with the square of the steps where many tasks store to one cell and nothing orders them.
MOST_ASKED = 100000
# Of more tasks the order is worked out from the lines of the history: `deps` names all siblings that a task comes after.
MOST_ORDERED = 300
# So many steps are worked out between two looks whether the user stops it.
PIECE = 1000
# Told how many are done, of what, and how many there are in all.
Progress = Callable[..., None]


@dataclass
class Task:
    """A task as `tasks`, `deps`, `task`, `ready` and `waits` show it."""

    name: str
    body: str
    state: str
    line: int | None = None
    before: list[str] = field(default_factory=list)
    apart: list[str] = field(default_factory=list)
    items: list[str] = field(default_factory=list)
    ready: bool = False
    waits: tuple[str, str] | None = None

    @property
    def parent(self) -> str | None:
        """The name of the task that generated this one; None for the root."""
        return self.name.rpartition(".")[0] or None


@dataclass
class Step:
    """A step of the history: its name, its task, what it did, and its line in the program."""

    name: str
    did: str
    line: int | None

    @property
    def task(self) -> str:
        """The task's name."""
        return self.name.split("#")[0]

    @property
    def word(self) -> str:
        """The first word of what it did."""
        return self.did.split(" ")[0]


@dataclass
class Race:
    """A line of `races`: two steps, `cell C` or `print`, and whether exclusion keeps them apart."""

    first: str
    second: str
    over: str
    apart: bool


def race_of(line: str) -> Race:
    """The race of a line of `races`."""
    first, second, *rest = line.split(" ")
    apart = rest[-1] == "apart"
    return Race(first, second, " ".join(rest[:-1] if apart else rest), apart)


Causes = list[tuple[str, str]]


def causes_of(lines: Sequence[str]) -> Causes:
    """The lines of `causes` as pairs of kind and step."""
    return [(kind, did.split(" ")[0]) for kind, did in (line.split(": ", 1) for line in lines)]


class Stopped(Exception):
    """The user stopped a picture that was being drawn."""


class Facts:
    """Asks a session for what is drawn; what isn't asked for isn't fetched. `stop` ends it early."""

    def __init__(self, session: Session, stop: Callable[[], bool] = lambda: False) -> None:
        self.session = session
        self.stop = stop

    def ask(self, command: str) -> list[str] | None:
        """The lines of a view after its count; None where the program has no such view."""
        if self.stop():
            raise Stopped
        reply = self.session.view(command)
        return None if reply == NOT_THERE else reply[1:]

    def lines(self, command: str) -> list[str]:
        """The lines of a view that each program has."""
        return self.ask(command) or []

    def steps(self) -> list[Step]:
        """The steps of the history, from the oldest."""
        return [Step(name, did, self.session.positions.line_of(name)) for name, did in self.session.history.items()]

    def ask_all(self, commands: Sequence[str]) -> Iterator[list[str] | None]:
        """The lines of many views after their counts, as `ask` has them."""
        for reply in self.session.views(commands):
            if self.stop():
                raise Stopped
            yield None if reply == NOT_THERE else reply[1:]

    def edges(self) -> dict[str, Causes] | None:
        """The immediate needs of all steps of the history by one reply; None where the program has no `edges`."""
        lines = self.ask("edges")
        if lines is None:
            return None
        found: dict[str, Causes] = {name: [] for name in self.session.history}
        for line in lines:
            early, late, kind = line.split(" ", 2)
            found[late].append((kind, early))
        return found

    def causes(self, step: str) -> Causes | None:
        """The immediate needs of a step as pairs of kind and step; None where the program doesn't show them."""
        lines = self.ask(f"causes {step}")
        return None if lines is None else causes_of(lines)

    def all_causes(self, steps: Sequence[Step], progress: Progress = lambda *counts: None) -> dict[str, Causes] | None:
        """The immediate needs of all steps of the history, by their names; None where the program doesn't show them.

        Of more than MOST_ASKED steps they are the direct ones, some of which others imply.
        """
        if not steps or self.causes(steps[0].name) is None:
            return None if steps else {}
        if len(steps) > MOST_ASKED:
            return self.worked_out(steps, progress)
        return self.edges() or self.asked([step.name for step in steps], progress)

    def asked(self, names: Sequence[str], progress: Progress = lambda *counts: None) -> dict[str, Causes]:
        """The immediate needs of these steps, asked for one by one."""
        found: dict[str, Causes] = {}
        for name, lines in zip(names, self.ask_all([f"causes {name}" for name in names])):
            found[name] = causes_of(lines or ())
            progress(len(found), "steps", len(names))
        return found

    def worked_out(self, steps: Sequence[Step], progress: Progress = lambda *counts: None) -> dict[str, Causes]:
        """The direct needs of all steps of the history, without asking for them."""
        needs, found = Needs(), {}
        for step in steps:
            found[step.name] = [(kind, steps[early].name) for kind, early in needs.direct(step.name, step.did)]
            if len(found) % PIECE == 0:
                if self.stop():
                    raise Stopped
                progress(len(found), "steps", len(steps))
        return found

    def needs(self, step: str) -> list[str]:
        """The steps that a step needs."""
        return [line.split(" ")[0] for line in self.ask(f"why {step}") or ()]

    def taken_back(self, step: str) -> set[str] | None:
        """The steps that a rollback of this one would take, itself among them; None where it isn't in the history."""
        reply = self.session.view(f"who {step}")
        if not reply[0].startswith("who "):
            return None
        return {step} | {line.split(" ")[0] for line in reply[1:]}

    def races(self) -> list[Race] | None:
        """The races; None where the program doesn't show them."""
        lines = self.ask("races")
        return None if lines is None else [race_of(line) for line in lines]

    def task_states(self) -> dict[str, Task]:
        """The tasks by names, with what they are doing."""
        found: dict[str, Task] = {}
        for line in self.ask("tasks") or ():
            name, body, state, *at = line.split(" ")
            found[name] = Task(name, body, state, int(at[0]) if at else None)
        for name in self.ask("ready") or ():
            found[name].ready = True
        for line in self.ask("waits") or ():
            name, why, other = line.split(" ")
            found[name].waits = (why, other)
        return found

    def fill_in(self, tasks: Sequence[Task]) -> None:
        """Each task's items, and the siblings on which it depends or that exclude it."""
        for task, lines in zip(tasks, self.ask_all([f"deps {task.name}" for task in tasks])):
            for line in lines or ():
                other, how = line.split(" ")
                (task.before if how == "before" else task.apart).append(other)
        for task, lines in zip(tasks, self.ask_all([f"task {task.name}" for task in tasks])):
            found = lines or []
            at = next(place for place, line in enumerate(found) if line.startswith("items "))
            task.items = found[at + 1:]

    def work_out_order(self, tasks: dict[str, Task]) -> None:
        """The same from the lines of the history, without dependences that others imply."""
        ordering = Ordering()
        for name, did in self.session.history.items():
            words = did.split(" ")
            if words[0] == "spawn":
                task = tasks[words[1]]
                task.items = items_of(words)
                order = ordering.add(name.partition("#")[0], task.name, task.items)
                task.before, task.apart = order.before, order.apart

    def tasks(self) -> dict[str, Task]:
        """All tasks by names, with items and order."""
        found = self.task_states()
        if len(found) > MOST_ORDERED:
            self.work_out_order(found)
        else:
            self.fill_in(list(found.values()))
        return found


def by_name(name: str) -> list[int]:
    """The order of tasks' names: number by number."""
    return [int(part) for part in name.split(".")]


def reduced(before: dict[str, list[str]]) -> dict[str, list[str]]:
    """The dependences that no other implies: `before` has each task's earlier ones; returns those that are drawn."""
    names = sorted(before, key=by_name)
    bit = {name: 1 << at for at, name in enumerate(names)}
    # All that come before a task, through others too; an earlier sibling is done first.
    above: dict[str, int] = {}
    drawn: dict[str, list[str]] = {}
    for name in names:
        through = 0
        for other in before[name]:
            through |= above[other]
        drawn[name] = [other for other in before[name] if not through & bit[other]]
        above[name] = through
        for other in before[name]:
            above[name] |= bit[other]
    return drawn


def label_of(new: Task, old: Task, how: str) -> list[str]:
    """The cells and types for which two siblings are ordered, or kept apart: `cell 0: out, in`."""
    pairs: list[str] = []
    for one, two in matching_pairs(new.items, old.items, how):
        (kind, cell), (other, place) = one.split(" "), two.split(" ")
        text = f"cell {place if cell == 'all' else cell}" if "all" not in (cell, place) or cell != place else "all cells"
        pair = f"{text}: {other}, {kind}"
        if pair not in pairs:
            pairs.append(pair)
    return pairs
