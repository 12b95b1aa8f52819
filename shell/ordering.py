"""Which siblings a task comes after, and which exclude it, by their depend items: those alone that no other implies.

Per parent and cell the children that have an item there form generations: tasks that the table of docs/NOTATION.md
doesn't order among each other stand in one (readers, a set of `inoutset`, or of `mutexinoutset`), and each comes after
all of the generation in front of its own. So only that one has to be looked at.
"""

from __future__ import annotations

from collections.abc import Sequence
from dataclasses import dataclass, field

ALL = "all"
# Types whose items in a row aren't ordered among each other.
TOGETHER = ("in", "inoutset", "mutexinoutset")
# Of more tasks that exclude each other, each is paired with the one in front of it alone.
MOST_EXCLUSIVE = 40


@dataclass
class Generation:
    """Siblings with items of one type at a cell, in the order of their spawns."""

    type: str
    members: list[str] = field(default_factory=list)


@dataclass
class Family:
    """The children of one task: the generations at each cell, and those that have an item of all memory."""

    cells: dict[str, list[Generation]] = field(default_factory=dict)
    alls: list[str] = field(default_factory=list)

    def at(self, cell: str) -> list[Generation]:
        """The generations at a cell; a new one begins with the newest task that has all memory."""
        if cell not in self.cells:
            self.cells[cell] = [Generation("out", [self.alls[-1]])] if self.alls else []
        return self.cells[cell]


@dataclass
class Order:
    """The siblings that a task comes after, and those that exclude it."""

    before: list[str] = field(default_factory=list)
    apart: list[str] = field(default_factory=list)


def types_by_cell(items: Sequence[str]) -> dict[str, str]:
    """The type of a task's items at each cell; several types at one cell are ordered as `out` is."""
    found: dict[str, str] = {}
    for item in items:
        kind, cell = item.split(" ")
        if kind not in TOGETHER or found.get(cell, kind) != kind:
            kind = "out"
        found[cell] = kind
    return {ALL: "out"} if ALL in found else found


class Ordering:
    """The children of all tasks, as they are generated and taken back: the newest of a parent is the first that goes."""

    def __init__(self) -> None:
        self.families: dict[str, Family] = {}

    def add(self, parent: str, child: str, items: Sequence[str]) -> Order:
        """A child that was generated: returns which elders it comes after, and which it excludes."""
        order, family = Order(), self.families.setdefault(parent, Family())
        for cell, kind in types_by_cell(items).items():
            for generations in list(family.cells.values()) or [[]] if cell == ALL else [family.at(cell)]:
                self.join(generations, child, kind, order)
            if cell == ALL:
                if not family.cells and family.alls:
                    order.before.append(family.alls[-1])
                family.alls.append(child)
        order.before = list(dict.fromkeys(order.before))
        order.apart = [name for name in dict.fromkeys(order.apart) if name not in order.before]
        return order

    @staticmethod
    def join(generations: list[Generation], child: str, kind: str, order: Order) -> None:
        """Puts a child into the newest generation at a cell, or begins one."""
        newest = generations[-1] if generations else None
        if newest is not None and kind == newest.type and kind in TOGETHER:
            if len(generations) > 1:
                order.before += generations[-2].members
            if kind == "mutexinoutset":
                order.apart += newest.members if len(newest.members) <= MOST_EXCLUSIVE else newest.members[-1:]
            newest.members.append(child)
            return
        if newest is not None:
            order.before += newest.members
        generations.append(Generation(kind, [child]))

    def remove(self, parent: str, child: str) -> None:
        """Takes the newest child of a parent out again."""
        family = self.families[parent]
        for generations in family.cells.values():
            if generations and generations[-1].members[-1:] == [child]:
                generations[-1].members.pop()
                if not generations[-1].members:
                    generations.pop()
        if family.alls and family.alls[-1] == child:
            family.alls.pop()
