"""What each step of a history needs directly, worked out from the lines of `hist` alone, by the definitions of docs/RACES.md."""

from __future__ import annotations

from collections.abc import Iterable, Iterator, Sequence

from shell.ordering import Ordering
from shell.texts import needs_order

Need = tuple[int, str]


class Spawned:
    """A task that was generated: by which step, by whom, and its items."""

    def __init__(self, at: int, parent: str, words: Sequence[str]) -> None:
        self.at = at
        self.parent = parent
        self.items = items_of(words)
        self.before: list[str] = []
        self.undeferred = words[-1] == "undeferred"


def items_of(words: Sequence[str]) -> list[str]:
    """The depend items among the words of a step, each as `TYPE CELL`."""
    return [" ".join(words[at + 1:at + 3]) for at, word in enumerate(words) if word == "depend"]


def number_of(name: str) -> int:
    """A task's number among its siblings."""
    return int(name.rpartition(".")[2])


class Needs:
    """Takes the steps of a history in order. Of a task's own steps only the newest is returned: it needs the others."""

    def __init__(self) -> None:
        self.count = 0
        self.newest: dict[str, int] = {}
        self.ended: dict[str, int] = {}
        self.spawned: dict[str, Spawned] = {}
        self.children: dict[str, list[str]] = {}
        self.groups: dict[str, list[list[str]]] = {}
        self.held: dict[str, str] = {}
        self.ordering = Ordering()
        # By parent and cell, the child that ended last of those that exclude each other there.
        self.exclusive: dict[tuple[str, str], str] = {}
        self.stores: dict[str, Need] = {}
        self.loads: dict[str, list[Need]] = {}
        self.printed: Need | None = None

    def direct(self, name: str, did: str) -> list[tuple[str, int]]:
        """The direct needs of the next step, as pairs of kind and index, from the oldest; the first reason counts."""
        task, words = name.partition("#")[0], did.split(" ")
        kinds: dict[int, str] = {}
        for index, kind in self.reasons(task, words):
            kinds.setdefault(index, kind)
        self.note(task, words, self.count)
        self.count += 1
        return [(kinds[index], index) for index in sorted(kinds)]

    def reasons(self, task: str, words: Sequence[str]) -> Iterator[Need]:
        """Direct needs, and among them all immediate ones: pairs of index and kind."""
        if task in self.newest:
            yield self.newest[task], "task"
        elif task in self.spawned:
            yield self.spawned[task].at, "spawn"
        word = words[0]
        if word in ("load", "store"):
            yield from self.sharers(task, word, words[-2])
        elif word == "print" and self.printed and self.printed[1] != task:
            yield self.printed[0], "print"
        elif word == "start" and task in self.spawned:
            yield from self.ordered(task)
        elif word == "wait":
            items = items_of(words)
            for child in self.children.get(task, ()):
                if not items or "after" in self.orders(items, self.spawned[child].items):
                    yield self.ended[child], "wait"
        elif word == "close":
            yield from ((self.ended[member], "group") for member in self.members(self.groups[task][-1]))
        if task in self.held:
            yield self.ended[self.held[task]], "undeferred"

    def sharers(self, task: str, word: str, cell: str) -> list[Need]:
        """The newest store to a cell, and for a store the loads after it; but no step of the task itself."""
        indexes = [self.stores[cell]] if cell in self.stores else []
        if word == "store":
            indexes += self.loads.get(cell, [])
        return [(index, f"cell {cell}") for index, other in indexes if other != task]

    def ordered(self, task: str) -> Iterator[Need]:
        """The ends of the siblings for which the start of this one waits, or that exclude it."""
        own = self.spawned[task]
        for other in self.candidates(own):
            if other == task or other not in self.ended:
                continue
            elder = number_of(other) < number_of(task)
            new, old = (own, self.spawned[other]) if elder else (self.spawned[other], own)
            how = self.orders(new.items, old.items)
            if elder and "after" in how:
                yield self.ended[other], "before"
            elif "apart" in how:
                yield self.ended[other], "apart"

    def candidates(self, own: Spawned) -> Iterable[str]:
        """The siblings among which the immediate needs are: others come before these."""
        cells = [item.split(" ")[1] for item in own.items if item.startswith("mutexinoutset ")]
        return [*own.before, *(self.exclusive[own.parent, cell] for cell in cells if (own.parent, cell) in self.exclusive)]

    @staticmethod
    def orders(new_items: Sequence[str], old_items: Sequence[str]) -> set[str | None]:
        """Whether items order a task after an elder sibling, or exclude it, by that one's items."""
        return {needs_order(new, old) for new in new_items for old in old_items}

    def members(self, children: Iterable[str]) -> Iterator[str]:
        """These tasks and all their descendants."""
        left = list(children)
        while left:
            member = left.pop()
            yield member
            left += self.children.get(member, ())

    def note(self, task: str, words: Sequence[str], at: int) -> None:
        """Notes a step."""
        word = words[0]
        self.newest[task] = at
        self.held.pop(task, None)
        if word == "spawn":
            self.generate(task, words, at)
        elif word in ("end", "fault"):
            self.ended[task] = at
            self.note_exclusive(task)
        elif word == "open":
            self.groups.setdefault(task, []).append([])
        elif word == "close":
            closed = self.groups[task].pop()
            if self.groups[task]:
                self.groups[task][-1] += closed
        elif word == "print":
            self.printed = at, task
        elif word == "load":
            self.loads.setdefault(words[-2], []).append((at, task))
        elif word == "store":
            self.stores[words[-2]] = at, task
            self.loads[words[-2]] = []

    def generate(self, task: str, words: Sequence[str], at: int) -> None:
        """Notes a child."""
        child = words[1]
        own = self.spawned[child] = Spawned(at, task, words)
        self.children.setdefault(task, []).append(child)
        if self.groups.get(task):
            self.groups[task][-1].append(child)
        if own.undeferred:
            self.held[task] = child
        own.before = self.ordering.add(task, child, own.items).before

    def note_exclusive(self, task: str) -> None:
        """Notes that a task has ended, for those that exclude it."""
        if task in self.spawned:
            own = self.spawned[task]
            for item in own.items:
                kind, cell = item.split(" ")
                if kind == "mutexinoutset":
                    self.exclusive[own.parent, cell] = task
