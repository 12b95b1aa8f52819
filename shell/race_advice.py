"""What would order the two steps of a race: the clause that is missing, by lines and in terms of the task line's own
registers; and races by pairs of lines, since a loop soon has thousands of one kind.
"""

from __future__ import annotations

import re
from collections import Counter, defaultdict
from collections.abc import Callable, Iterable, Sequence
from dataclasses import dataclass, field, replace

from shell.facts import Race, by_name
from shell.session import Session
from shell.texts import needs_order

# So many lines are named one by one.
MOST_LINES = 8
APART = "never at the same time, but in either order: their tasks exclude each other"


@dataclass
class Spawned:
    """A task that was generated: at which line, its items, and its parent's registers at that moment."""

    line: int
    items: list[str]
    registers: tuple[int, ...]


@dataclass
class Touched:
    """What a task did to a cell, and the first step at which it did."""

    loads: bool = False
    stores: bool = False
    line: int | None = None

    @property
    def type(self) -> str:
        """The type that says so."""
        return "inout" if self.loads and self.stores else "out" if self.stores else "in"


@dataclass(frozen=True)
class Clause:
    """A clause that is missing on a task's line, or that should replace another one there."""

    line: int
    type: str
    location: str
    instead: str = ""
    # Whether the line generated several tasks.
    repeated: bool = False

    def __str__(self) -> str:
        if not self.location:
            return f"`depend {self.type}` of one cell"
        return f"`depend {self.type} {self.location}`" + (f" in place of `depend {self.instead} {self.location}`" if self.instead else "")


class Run:
    """What the history says of tasks: who generated them where, and which cells they touched."""

    def __init__(self, session: Session) -> None:
        self.session = session
        self.spawned: dict[str, Spawned] = {}
        self._counts: Counter[int] = Counter()
        self.touched: dict[str, dict[str, Touched]] = defaultdict(lambda: defaultdict(Touched))
        self._registers: dict[str, list[int]] = {"0": [0] * 16}
        for name, did in session.history.items():
            self._read(name, did.split(" "))

    def _read(self, name: str, words: Sequence[str]) -> None:
        task = name.split("#")[0]
        if words[0] in ("load", "store"):
            touched = self.touched[task][words[-2]]
            touched.loads |= words[0] == "load"
            touched.stores |= words[0] == "store"
            touched.line = touched.line or self.session.positions.line_of(name)
        if words[0] in ("load", "let"):
            self._registers[task][int(words[1][1:])] = int(words[-1])
        elif words[0] == "spawn":
            stop = words.index("depend") if "depend" in words else len(words) - (words[-1] == "undeferred")
            given = [int(word) for word in words[3:stop]]
            self._registers[words[1]] = given + [0] * (16 - len(given))
            items = [" ".join(words[at + 1:at + 3]) for at, word in enumerate(words) if word == "depend"]
            line = self.session.positions.line_of(name) or 0
            self._counts[line] += 1
            self.spawned[words[1]] = Spawned(line, items, tuple(self._registers[task]))

    def is_repeated(self, line: int) -> bool:
        """Whether a line generated several tasks."""
        return self._counts[line] > 1

    def all_of(self, task: str, cell: str, also_below: bool) -> Touched:
        """What a task did to a cell, with its descendants where they count."""
        own = self.touched[task][cell]
        found = Touched(own.loads, own.stores, own.line)
        if also_below:
            for other, cells in self.touched.items():
                if cell in cells and other.startswith(task + "."):
                    found.loads |= cells[cell].loads
                    found.stores |= cells[cell].stores
        return found

    def location_on_line(self, task: str, cell: str, line: int | None) -> str:
        """How the line that generated a task can name a cell: by what the task was given, else by its number."""
        source, spawned = self.session.source, self.spawned[task]
        words = source.line(line).split(" ")
        operand = words[2] if words[0] == "load" else words[1] if words[0] == "store" else cell
        given = source.line(spawned.line).split(" ")
        if re.fullmatch(r"r[0-9]+", operand):
            number = int(operand[1:])
            body = self.session.positions.body.get(task, "")
            unchanged = not any(source.line(at).split(" ")[:2] in (["let", operand], ["load", operand]) for at in source.lines_of_body(body))
            parameters = int(source.line(source.bodies[body]).split(" ")[2])
            if unchanged and number < parameters:
                return given[2 + number]
        if not source.is_in_loop(spawned.line):
            return cell
        used: set[str] = set(re.findall(r"\br[0-9]+\b", " ".join(given)))
        fitting: list[str] = [word for word in sorted(used) if spawned.registers[int(word[1:])] == int(cell)]
        return fitting[0] if fitting else cell


@dataclass
class Kind:
    """The races of one pair of lines: the first of them with its number, how many there are, and what would order them.

    Of a recorded run, `names` are lines of the C file.
    """

    number: int
    example: Race
    lines: tuple[int | None, int | None]
    names: tuple[str, str]
    count: int = 0
    clauses: list[Clause] = field(default_factory=list)
    others: list[str] = field(default_factory=list)
    line_name: Callable[[int], str] = str

    def advice(self) -> str:
        """What would order them, in words."""
        if self.example.apart:
            return APART
        parts = [clauses_in_words(self.clauses, self.line_name)] if self.clauses else []
        text = ", or ".join(parts + self.others[:2]) + " would order them"
        return text + (", or a `taskwait` between" if self.clauses else "")

    def in_words(self) -> str:
        """The line below its example."""
        head = f"race {self.number}" if self.count == 1 else f"race {self.number}, one of {self.count:,} of these two lines"
        return f"{head}: {self.advice()}"


def clauses_in_words(clauses: Iterable[Clause], line_name: Callable[[int], str] = str) -> str:
    """Clauses with their lines: those that are alike are named together, and so are the cells of one line.

    `line_name` is what names a line: of a recorded run its line of C.
    """
    by_kind: dict[tuple[int, str, str, bool], list[Clause]] = defaultdict(list)
    for clause in clauses:
        by_kind[clause.line, clause.type, clause.instead, clause.location.isdigit()].append(clause)
    by_text: dict[str, list[int]] = defaultdict(list)
    for (line, *_, numbered), alike in by_kind.items():
        together = numbered and len({clause.location for clause in alike}) > 1
        for text in [cells_in_words(alike)] if together else map(str, alike):
            by_text[text].append(line)
    return " and ".join(f"{text} on {lines_in_words(sorted(set(lines)), line_name)}" for text, lines in by_text.items())


def cells_in_words(clauses: Sequence[Clause]) -> str:
    """Clauses of one line that differ in their cells alone."""
    first = clauses[0]
    cells = numbers_in_words(sorted({int(clause.location) for clause in clauses}))
    text = f"`depend {first.type}` of " + (f"each task's own cell ({cells})" if first.repeated else f"cells {cells}")
    return text + (f" in place of `depend {first.instead}`" if first.instead else "")


def lines_in_words(lines: list[int], line_name: Callable[[int], str]) -> str:
    """Rising numbers of lines; few of a recorded run with their lines of C."""
    if len(lines) > MOST_LINES:
        return f"{len(lines)} lines, {numbers_in_words(lines)},"
    recorded = [name for name in dict.fromkeys(map(line_name, lines)) if not name.isdigit()]
    return f"line{'s' if len(lines) > 1 else ''} {numbers_in_words(lines)}" + (f" ({', '.join(recorded)})" if recorded else "")


def numbers_in_words(numbers: Sequence[int]) -> str:
    """Rising numbers: all of them where they are few, else the first ones and the last."""
    if len(numbers) > 2 and numbers[-1] - numbers[0] == len(numbers) - 1:
        return f"{numbers[0]} to {numbers[-1]}"
    words = [str(number) for number in numbers]
    if len(words) > MOST_LINES:
        return f"{', '.join(words[:MOST_LINES - 2])}, .. and {words[-1]}"
    return " and ".join(filter(None, [", ".join(words[:-1]), words[-1]]))


def siblings_of(race: Race) -> tuple[str, str] | None:
    """The tasks among which a dependence could order the two, the elder first; None where one generated the other."""
    first, second = (step.split("#")[0].split(".") for step in (race.first, race.second))
    level = next((at for at, pair in enumerate(zip(first, second)) if pair[0] != pair[1]), None)
    if level is None:
        return None
    pair = sorted((".".join(task[:level + 1]) for task in (first, second)), key=by_name)
    return pair[0], pair[1]


def below(race: Race) -> str:
    """What orders a task's step after those of a child, or of what the child generated."""
    first, second = (step.split("#")[0] for step in (race.first, race.second))
    short, long = sorted((first, second), key=len)
    return "taskwait" if long.count(".") == short.count(".") + 1 else "taskgroup"


def clauses_for(run: Run, race: Race, pair: Sequence[str]) -> list[Clause]:
    """The clauses that are missing on the lines of two siblings, so that a dependence orders the two steps."""
    cell = race.over.split(" ")[1]
    tasks = [step.split("#")[0] for step in (race.first, race.second)]
    found, items = [], []
    for sibling in pair:
        touched = run.all_of(sibling, cell, sibling not in tasks)
        own = [item for item in run.spawned[sibling].items if item.split(" ")[1] in (cell, "all")]
        wanted = touched.type
        has = own[0].split(" ")[0] if own else ""
        items.append(own[0] if own else f"{wanted} {cell}")
        if not own or (has == "in" and touched.stores):
            location = run.location_on_line(sibling, cell, touched.line)
            line = run.spawned[sibling].line
            found.append(Clause(line, "inout" if has else wanted, location, has, run.is_repeated(line)))
            items[-1] = f"{'inout' if has else wanted} {cell}"
    if needs_order(items[1], items[0]) != "after":
        # Both have a type that keeps no order among those that have it.
        has = items[1].split(" ")[0]
        younger = pair[1]
        location = run.location_on_line(younger, cell, run.all_of(younger, cell, True).line)
        line = run.spawned[younger].line
        found = [Clause(line, "inout", location, has, run.is_repeated(line))]
    return found


def advise(run: Run, race: Race, kind: Kind) -> None:
    """Adds what would order the two steps of a race to what is said of its kind."""
    def other(text: str) -> None:
        if text not in kind.others:
            kind.others.append(text)
    pair, numbered = siblings_of(race), run.session.source.numbered
    tasks = [step.split("#")[0] for step in (race.first, race.second)]
    if race.apart:
        return
    if pair is None:
        short, long = sorted(tasks, key=len)
        child = ".".join(long.split(".")[:short.count(".") + 2])
        word = below(race)
        other(f"a `{word}` {'after' if word == 'taskwait' else 'around'} {numbered(run.spawned[child].line)}")
        return
    elder, younger = pair
    if elder not in tasks:
        other(outliving(run, elder, younger, next(task for task in tasks if task.startswith(elder + "."))))
    elif race.over == "print":
        for sibling in pair:
            clause = Clause(run.spawned[sibling].line, "inout", "")
            kind.clauses += [clause] if clause not in kind.clauses else []
    else:
        for clause in clauses_for(run, race, pair):
            add_clause(kind.clauses, clause)


def outliving(run: Run, elder: str, younger: str, task: str) -> str:
    """What orders the steps of a task that may outlive an ancestor of it, by which a sibling's clauses go."""
    numbered = run.session.source.numbered
    ordered = any(needs_order(new, old) == "after" for new in run.spawned[younger].items for old in run.spawned[elder].items)
    child = ".".join(task.split(".")[:elder.count(".") + 2])
    if not ordered:
        return f"a `taskgroup` around {numbered(run.spawned[elder].line)}"
    if child == task:
        return f"a `taskwait` after {numbered(run.spawned[child].line)}"
    return f"a `taskgroup` around {numbered(run.spawned[child].line)}"


def add_clause(clauses: list[Clause], new: Clause) -> None:
    """Adds a clause: what a line says of one location is said once."""
    for at, clause in enumerate(clauses):
        if (clause.line, clause.location) == (new.line, new.location):
            if clause.type != new.type:
                clauses[at] = replace(clause, type="inout", instead=clause.instead or new.instead)
            return
    clauses.append(new)


def kinds_of(session: Session, races: Sequence[Race]) -> list[Kind]:
    """The races by pairs of lines, each kind with what would order its steps."""
    run = Run(session)
    found: dict[tuple[object, ...], Kind] = {}
    # What is advised hangs on the tasks and the cell alone, and a loop has thousands of races of one pair of tasks.
    advised: set[tuple[int, str, str, str]] = set()
    line_of = session.positions.line_of
    for number, race in enumerate(races, 1):
        lines = (line_of(race.first), line_of(race.second))
        names = (session.source.line_name(lines[0]), session.source.line_name(lines[1]))
        kind = found.setdefault((*names, race.over == "print", race.apart), Kind(number, race, lines, names, line_name=session.source.line_name))
        kind.count += 1
        same = (kind.number, race.over, race.first.split("#")[0], race.second.split("#")[0])
        if same not in advised:
            advised.add(same)
            advise(run, race, kind)
    return list(found.values())
