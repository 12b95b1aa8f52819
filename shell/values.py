"""The numbers of a session at this moment, for expressions."""

import re

from shell.expressions import Unknown
from shell.session import Session

SPAWN = re.compile(r"spawn \S+ \S+((?: -?[0-9]+)*)")


class Values:
    """Asks the program's views, each at most once; `step` is the line of the step that is looked at, if there is one."""

    def __init__(self, session: Session, step: str = "") -> None:
        self.session = session
        self.step = step
        self._tasks: dict[str, list[str]] = {}
        self._cells: dict[str, str] | None = None

    def _view(self, task: str) -> list[str]:
        if task not in self._tasks:
            self._tasks[task] = self.session.view(f"task {task}")
        if not self._tasks[task][0].startswith("task "):
            raise Unknown(f"task {task} hasn't been generated")
        return self._tasks[task]

    def register(self, task: str, number: int) -> int:
        """A register of a task; a pending one's are its arguments."""
        regs = next(line for line in self._view(task) if line.startswith("regs "))
        return int(regs.split(" ")[1 + number])

    def argument(self, task: str, number: int) -> int:
        """A number with which a task was generated."""
        self._view(task)
        parent = task.rpartition(".")[0]
        spawns = (did for name, did in self.session.history.items() if name.startswith(parent + "#") and did.startswith(f"spawn {task} "))
        found = SPAWN.match(next(spawns, ""))
        given = found[1].split() if found else []
        if number >= len(given):
            raise Unknown(f"task {task} has {len(given)} arguments")
        return int(given[number])

    def cell(self, number: int) -> int:
        """The number in a cell."""
        if not 0 <= number < self.session.source.cells:
            raise Unknown(f"the program has no cell {number}")
        if self._cells is None:
            self._cells = dict(line.split(" ", 1) for line in self.session.view("cells")[1:])
        return int(self._cells.get(str(number), "0"))

    def steps(self, task: str) -> int:
        """How many steps of a task are in the history."""
        return int(next(line for line in self._view(task) if line.startswith("steps ")).split(" ")[1])

    def named(self, name: str) -> int:
        """What the step computed, read, stored or printed, or the cell that it used."""
        words = self.step.split(" ")[1:]
        word = words[0] if words else ""
        if name == "value" and word in ("let", "load", "store", "print"):
            return int(words[-1])
        if name == "cell" and word in ("load", "store"):
            return int(words[-2])
        raise Unknown(f"this step has no {name}" if words else f"`{name}` is that of a step: it is for the condition of a breakpoint")
