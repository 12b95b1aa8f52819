"""The history as a space-time picture: a lane for each task, the steps in order from the top, and why each is needed."""

from __future__ import annotations

from collections.abc import Callable, Iterable, Sequence
from dataclasses import dataclass, field

from shell.facts import MOST_ASKED, Causes, Facts, Progress, Race, Step, Task, by_name
from shell.session import Session

NO_CAUSES = "this program shows no causes: their arrows are left out"
NO_RACES = "this program shows no races: they are left out"
IMPLIED = "of a history this long some arrows are drawn that others imply"
UNLABELLED = "of a history this long no arrow has a label"
# Letters to the right of the text's lanes: where all tasks have one, and else.
LEAST_NOTE, NOTE = 12, 26
# Of more steps the places of labels would take minutes.
MOST_LABELLED = 8000


@dataclass
class Lanes:
    """What is drawn. `bodies` are those of all tasks, of which a page has some; `implied` says whether others imply some of the causes."""

    title: str
    tasks: list[Task]
    steps: list[Step]
    causes: dict[str, Causes] | None
    races: list[Race] | None
    chosen: str | None = None
    shaded: frozenset[str] = frozenset()
    # Of a recorded run, the C file's line that each step's line names, as `sum.c:12`.
    recorded: dict[str, str] = field(default_factory=dict)
    bodies: list[str] = field(default_factory=list)
    implied: bool = False

    @property
    def is_labelled(self) -> bool:
        """Whether arrows have labels."""
        return len(self.steps) <= MOST_LABELLED

    def remarks(self) -> list[str]:
        """What isn't drawn, since the program has no such view, and what is drawn besides."""
        found = [text for view, text in ((self.causes, NO_CAUSES), (self.races, NO_RACES)) if view is None]
        return found + [IMPLIED] * (self.causes is not None and self.implied)

    def arrows(self) -> list[tuple[str, str, str]]:
        """Each immediate need of another task's step: the earlier step, the later one, and the kind."""
        return [(early, late, kind) for late, needed in (self.causes or {}).items() for kind, early in needed if kind != "task"]


def lanes_of(session: Session, chosen: str | None = None, stop: Callable[[], bool] = lambda: False,
             progress: Progress = lambda *counts: None) -> Lanes | None:
    """The lanes of a session at this moment; the shaded steps are those that `roll` of the chosen one would take."""
    facts = Facts(session, stop)
    steps = facts.steps()
    causes = facts.all_causes(steps, progress)
    shaded: set[str] | None = facts.taken_back(chosen) if chosen else set()
    tasks = sorted(facts.task_states().values(), key=lambda task: by_name(task.name))
    if shaded is None:
        return None
    recorded = {step.name: session.source.line_name(step.line) for step in steps if session.source.recorded(step.line)}
    return Lanes(session.source.name, tasks, steps, causes, facts.races(), chosen, frozenset(shaded), recorded,
                 bodies_of(tasks), len(steps) > MOST_ASKED)


def bodies_of(tasks: Sequence[Task]) -> list[str]:
    """The bodies, in the order in which they come."""
    return list(dict.fromkeys(task.body for task in tasks))


def note_of(lanes: Lanes, step: Step, races: dict[str, list[Race]]) -> str:
    """What is written to the right of a step: the causes in other lanes, and its race."""
    needed = [(kind, early) for kind, early in (lanes.causes or {}).get(step.name, ()) if kind != "task"]
    parts = [f"{kind}: {early}" for kind, early in needed]
    for race in races.get(step.name, ()):
        parts.append(f"{'apart' if race.apart else 'RACE'} {race.over}: {race.first}")
    return "<- " + ", ".join(parts) if parts else ""


def by_later(races: Iterable[Race] | None) -> dict[str, list[Race]]:
    """The races by their later steps."""
    found: dict[str, list[Race]] = {}
    for race in races or ():
        found.setdefault(race.second, []).append(race)
    return found


def lives(steps: Sequence[Step], names: Iterable[str]) -> dict[str, tuple[int, int]]:
    """From which step to which each task is there: the step that generated it, and the one that ended it."""
    first: dict[str, int] = {"0": 0}
    last: dict[str, int] = {}
    for at, step in enumerate(steps):
        if step.word == "spawn":
            first[step.did.split(" ")[1]] = at
        elif step.word in ("end", "fault"):
            last[step.task] = at
    return {name: (first.get(name, 0), last.get(name, len(steps))) for name in names}


def cut(text: str, width: int) -> str:
    """The text in this many columns."""
    return text if len(text) <= width else text[:max(0, width - 1)] + "~"


def text_rows(lanes: Lanes, width: int, shade: Callable[[str], str] = lambda text: text) -> list[str]:
    """The lines of the picture at a terminal of this width; `shade` marks a line that has a `*`."""
    names = [task.name for task in lanes.tasks]
    column = max([min(len(step.did), 16) for step in lanes.steps] + [5]) + 2
    # To the right of them are notes, and the steps of tasks whose lanes don't fit.
    fit = len(names) if 2 + column * len(names) + LEAST_NOTE <= width else max(1, (width - 2 - NOTE) // column)
    hidden = names[fit:]
    names = names[:fit]
    there = lives(lanes.steps, names)
    races = by_later(lanes.races)
    rows = ["  " + "".join(cut(name, column - 1).ljust(column) for name in names).rstrip(),
            "  " + "".join(cut(task.body, column - 1).ljust(column) for task in lanes.tasks[:fit]).rstrip()]
    for at, step in enumerate(lanes.steps):
        cells = [cut(step.did, column - 1) if name == step.task else "|" if there[name][0] < at < there[name][1] else ""
                 for name in names]
        mark = "* " if step.name in lanes.shaded else "  "
        away = f"{step.name} {step.did} " if step.task in hidden else ""
        row = mark + "".join(cell.ljust(column) for cell in cells) + away + note_of(lanes, step, races)
        row = cut(row.rstrip(), width)
        rows.append(shade(row) if step.name in lanes.shaded else row)
    if hidden:
        rows.append(cut(f"  no lane fits for {len(hidden)} more tasks, from {hidden[0]} to {hidden[-1]}", width))
    if lanes.chosen:
        rows.append(cut(f"  * roll {lanes.chosen} would take these {len(lanes.shaded)} steps", width))
    return rows + [cut("  " + text, width) for text in lanes.remarks()]
