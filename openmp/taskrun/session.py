"""The session of a run: a program in the notation, and a `step` for each thing that was done, in its order."""

import os
import re
from collections import Counter
from collections.abc import Iterable, Sequence
from typing import Union

from .actors import Actor, Items, Run, Step
from .cells import Memory, all_homes
from .places import Sources
from .trace import FREED, WRITES, Trace

# A word of the notation, or a number that may become a parameter, with its kind.
Word = Union[str, tuple[str, int]]
Statement = tuple[Sequence[Word], str]     # and its comment
Member = tuple[Actor, list[Statement], list[Word]]
MOST_CELLS, MOST_BODIES, MOST_LINES, MOST_ITEMS, MOST_STEPS = 65536, 1024, 65536, 64, 999999
LONGEST_LINE = 1000
STARTS = 3           # behind the steps by which a region's shares are made
REGISTERS = 15       # for parameters; the last one is for what is read
TYPES = {1: "in", 2: "out", 3: "inout", 4: "mutexinoutset", 8: "inoutset"}
ALL_MEMORY = 0x80
WORDS = {"task": "makes a task", "taskwait": "has waited", "taskgroup": "opens a group", "end": "closes the group"}
NOT_SAID = ("critical sections and locks", "reductions", "detach clauses", "cancellations",
            "accesses by atomic operations alone", "accesses that one lock keeps apart",
            "accesses to copies of reduced variables")


class TooLarge(Exception):
    """The run is beyond the notation's limits."""


class Taken:
    """One step that the run took: whose, which, and how it is called."""

    __slots__ = ("actor", "what", "step", "stamp")

    def __init__(self, actor: Actor, what: str, step: Step | None, stamp: float) -> None:
        self.actor = actor
        self.what = what      # "start", "end", or the kind of the statement
        self.step = step
        self.stamp = stamp


class Session:
    """What a trace becomes; `text()` is the whole, `taken` its steps and `identifiers` their names."""

    def __init__(self, trace: Trace) -> None:
        self.trace = trace
        self.run = Run(trace)
        self.memory = Memory(self.run)
        self.sources = Sources(trace.program, {event.place for event in trace.events})
        self._remarks: list[str] = []
        self.counts = Counter(self.run.counts) + Counter(self.memory.counts)
        self.actors = all_homes(self.run)
        self._item_cells: dict[int, int] = {}
        self._cell_count = len(self.memory.cells)
        self._number_items()
        self._name_actors()
        self.taken = self._take_steps()
        self.identifiers = self._identify()
        self.is_cut = trace.is_cut or self.run.counts["tasks too deep to follow"] > 0
        self.unfinished = [actor for actor in self.actors if actor is not self.run.root and actor.ended is None]

    # ---- numbers and names

    def _number_items(self) -> None:
        """A depend address has the number of the data's cell there, or one of its own."""
        used = set()
        for actor in self.actors:
            lists = [actor.items] + [step.items for _, _, step in actor.steps if step.items]
            for address, _ in (item for items in lists for item in items):
                if address in self._item_cells:
                    continue
                cell = self.memory.cell_at.get(address)
                if cell is not None and cell.number not in used:
                    self._item_cells[address] = cell.number
                else:
                    self._item_cells[address] = self._cell_count
                    self._cell_count += 1
                used.add(self._item_cells[address])

    def _name_actors(self) -> None:
        self.run.root.name = "0"
        waiting = [self.run.root]
        while waiting:
            actor = waiting.pop()
            for _, _, step in actor.steps:
                if step.child is not None:
                    actor.children += 1
                    step.child.name = f"{actor.name}.{actor.children}"
                    step.child.parent = actor
                    waiting.append(step.child)
        self.actors = [actor for actor in self.actors if actor.name]

    # ---- steps

    def _take_steps(self) -> list[Taken]:
        taken = []
        for actor in self.actors:
            start = 0 if actor is self.run.root else actor.started
            if start is None:
                continue
            # The first thread out of a barrier starts its share where it is made.
            taken.append(((start, STARTS if actor.is_part else 0), Taken(actor, "start", None, start)))
            taken += [((stamp, turn), Taken(actor, step.kind, step, stamp)) for stamp, turn, step in actor.steps]
            if actor is not self.run.root and actor.ended is not None:
                taken.append(((actor.ended, 0), Taken(actor, "end", None, actor.ended)))
        taken.sort(key=lambda entry: entry[0])
        steps = [entry for _, entry in taken]
        steps.append(Taken(self.run.root, "end", None, float("inf")))
        return steps

    def _identify(self) -> dict[str, Taken]:
        """The steps' identifiers, as `0.1#3`: the third step of task 0.1."""
        numbers: Counter[str] = Counter()
        found = {}
        for taken in self.taken:
            numbers[taken.actor.name] += 1
            found[f"{taken.actor.name}#{numbers[taken.actor.name]}"] = taken
        return found

    # ---- words

    def line_of(self, place: int) -> str:
        """`file.c:9`."""
        return str(self.sources.place(place))

    def describe(self, taken: Taken) -> str:
        """What a step did, by its source line."""
        if taken.step and taken.what in ("load", "store"):
            mark = taken.step.mark
            done = "frees" if mark & FREED else "writes" if mark & WRITES else "reads"
            return f"{self.line_of(taken.step.place)} {done} {self.sources.expression(taken.step.place)}"
        if taken.step is None:
            place = taken.actor.place
            return f"{taken.what} of the task at {self.line_of(place)}" if place else f"{taken.what} of the program"
        return f"{self.line_of(taken.step.place)} {WORDS[taken.what]}"

    def item_words(self, items: Items) -> list[Word]:
        """` depend TYPE CELL` for each item."""
        words: list[Word] = []
        for address, bits in items:
            if bits & ALL_MEMORY:
                words += ["depend", "inout", "all"]
            else:
                words += ["depend", TYPES.get(bits, "inout"), ("cell", self._item_cells[address])]
        return words

    # ---- the text

    def text(self) -> str:
        """The whole session; TooLarge where the notation has no room for it."""
        program = self.program_text()
        lines = [f"step {taken.actor.name}  # {self.describe(taken)}" for taken in self.taken]
        return program + "---\n" + "".join(cut(line) + "\n" for line in lines)

    def program_text(self) -> str:
        """The program in the notation."""
        bodies = Bodies(self)
        lines = self.remarks()
        lines.append(f"cells {self._cell_count}")
        for cell in self.memory.cells:
            if cell.first:
                lines.append(f"cell {cell.number} {cell.first}")
        lines += bodies.lines()
        self._check_limits(len(bodies.texts), len(lines))
        return "".join(cut(line) + "\n" for line in lines)

    def _check_limits(self, bodies: int, lines: int) -> None:
        most_items = max((len(step.items) for actor in self.actors for _, _, step in actor.steps), default=0)
        most_items = max([most_items] + [len(actor.items) for actor in self.actors])
        for count, most, what in ((self._cell_count, MOST_CELLS, "cells"), (bodies, MOST_BODIES, "bodies"),
                                  (lines, MOST_LINES, "lines"), (most_items, MOST_ITEMS, "depend items of one task"),
                                  (len(self.taken), MOST_STEPS, "steps")):
            if count > most:
                raise TooLarge(f"the run needs {count} {what}, and the notation has room for {most}")

    def remarks(self) -> list[str]:
        """Comments: what the run was, what was left out, and what the notation doesn't say."""
        tasks = sum(1 for actor in self.actors) - 1
        alike = sum(cell.alike for cell in self.memory.cells)
        lines = [f"# a run of {os.path.basename(self.trace.program)}: {tasks} tasks, {len(self.taken)} steps,"
                 f" {len(self.memory.cells)} cells for {alike} places in memory"]
        lines += [f"# {words}" for words in self._remarks]
        for name, count in sorted(self.counts.items()):
            if count:
                told = "not said" if name in NOT_SAID else "left out"
                lines.append(f"# {told}: {name}: {count}")
        return [re.sub(r"[^ -~]", "?", line) for line in lines]

    def remark(self, words: str) -> None:
        """One more comment on what the run was."""
        self._remarks.append(words)

    def unsaid(self) -> list[tuple[str, int]]:
        """What of the run the notation has no word for, with counts."""
        return [(name, self.counts[name]) for name in NOT_SAID if self.counts[name]]


def cut(line: str) -> str:
    """The line without the end of a comment that is too long."""
    return line if len(line) <= LONGEST_LINE else line[:LONGEST_LINE].rsplit("#", 1)[0].rstrip() \
        if "#" in line[:LONGEST_LINE] else line


class Bodies:
    """The bodies of a session: tasks whose statements differ in numbers alone share one."""

    def __init__(self, session: Session) -> None:
        self._session = session
        self._calls: dict[Actor, list[Word]] = {}       # actor: the words that call it, (kind, number) where a number stands
        self._names: Counter[str] = Counter()
        self.texts: list[list[str]] = []
        for actors in self._by_height():
            self._make(actors)

    def _by_height(self) -> list[list[Actor]]:
        heights: dict[Actor, int] = {}
        order = sorted(self._session.actors, key=depth_of, reverse=True)
        for actor in order:
            below = [heights[step.child] for _, _, step in actor.steps if step.child is not None]
            heights[actor] = 1 + max(below, default=-1)
        rows: dict[int, list[Actor]] = {}
        for actor in self._session.actors:
            rows.setdefault(heights[actor], []).append(actor)
        return [rows[height] for height in sorted(rows)]

    def _make(self, actors: list[Actor]) -> None:
        shapes: dict[tuple[int, tuple[Statement, ...]], list[Member]] = {}
        for actor in actors:
            statements = [self._statement(step) for _, _, step in actor.steps]
            shape, numbers = shape_of(statements)
            shapes.setdefault((actor.place, shape), []).append((actor, statements, numbers))
        for (place, shape), members in shapes.items():
            whole = {tuple(flat(statements)) for _, statements, _ in members}
            numbers = members[0][2]
            if len(whole) == 1 or len(numbers) > REGISTERS:
                self._make_literal(place, members)
            else:
                name = self._name(place)
                self._write(name, len(numbers), shape)
                for actor, _, own in members:
                    self._calls[actor] = [name, *own]

    def _make_literal(self, place: int, members: list[Member]) -> None:
        known = {}
        for actor, statements, _ in members:
            key = tuple(flat(statements))
            if key not in known:
                known[key] = "main" if actor is self._session.run.root else self._name(place)
                self._write(known[key], 0, statements)
            self._calls[actor] = [known[key]]

    def _name(self, place: int) -> str:
        line = self._session.sources.place(place).line
        base = f"task{line}" if line else "task"
        self._names[base] += 1
        number = self._names[base]
        return base if number == 1 else f"{base}_{number}"

    def _statement(self, step: Step) -> Statement:
        """(words, comment)."""
        session = self._session
        where = session.line_of(step.place) if step.place else ""
        if step.child:
            words: list[Word] = ["task", *self._calls[step.child], *session.item_words(step.child.items)]
            return words + ([] if step.child.deferred else ["if", "0", "==", "1"]), where
        if step.kind == "taskwait":
            return ["taskwait", *session.item_words(step.items)], where
        if step.cell:
            done = session.describe(Taken(session.run.root, step.kind, step, 0))
            more = f" and {step.cell.alike - 1} more" if step.cell.alike > 1 else ""
            cell = ("cell", step.cell.number)
            words = ["load", "r15", cell] if step.kind == "load" else ["store", cell, ("value", step.value)]
            return words, done + more
        return [step.kind], where

    def _write(self, name: str, parameters: int, statements: Iterable[Statement]) -> None:
        lines = [f"body {name} {parameters}"]
        depth = 1
        for words, comment in statements:
            if words[0] == "end":
                depth -= 1
            text = " ".join(str(word[1]) if isinstance(word, tuple) else word for word in words)
            lines.append("  " * depth + text + (f"  # {comment}" if comment else ""))
            if words[0] == "taskgroup":
                depth += 1
        lines += ["  " * (depth - 1) + "end"] * 1
        self.texts.append(lines)

    def lines(self) -> list[str]:
        """All bodies, main first."""
        return [line for text in reversed(self.texts) for line in text]


def depth_of(actor: Actor) -> int:
    """How many made each other on the way to it."""
    return actor.name.count(".")


def flat(statements: Iterable[Statement]) -> list[Word]:
    """The statements as one list of words."""
    return [word for words, comment in statements for word in (*words, comment)]


def shape_of(statements: Iterable[Statement]) -> tuple[tuple[Statement, ...], list[Word]]:
    """The statements with registers in place of their numbers, and these numbers: a cell has one register each time
    that it is named, a number that is stored has one of its own."""
    registers: dict[tuple[object, ...], str] = {}
    numbers: list[Word] = []
    shape: list[Statement] = []
    for words, comment in statements:
        shaped: list[Word] = []
        for word in words:
            if not isinstance(word, tuple):
                shaped.append(word)
                continue
            key: tuple[object, ...] = word if word[0] == "cell" else (len(numbers),)
            if key not in registers:
                registers[key] = f"r{len(numbers)}"
                numbers.append(word)
            shaped.append(registers[key])
        shape.append((tuple(shaped), comment))
    return tuple(shape), numbers
