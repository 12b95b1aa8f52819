"""The breakpoints that a client sets: by lines, bodies, cells and registers, and kinds of steps."""

from __future__ import annotations

import re
from typing import Any

from shell.dap.debuggee import Debuggee, Failed
from shell.expressions import Unreadable
from shell.stops import Where

Body = dict[str, Any]
EXCEPTIONS = {"fault": "Faults", "print": "Prints"}


class Breakpoints:
    """Each request replaces what the one before of its kind, and for lines of its file, has set."""

    def __init__(self, debuggee: Debuggee) -> None:
        self.debuggee = debuggee
        self.stops = debuggee.shell.stops
        self._of: dict[str, list[int]] = {}
        self.reasons: dict[int, str] = {}
        # Of a breakpoint at a line: the number that the client has for it, and its line there.
        self._lines: dict[int, tuple[int, int]] = {}

    def replace(self, kind: str) -> None:
        """Takes those of a kind away."""
        gone = set(self._of.pop(kind, ()))
        self.stops.clear(lambda number, stop: number in gone)

    def add(self, kind: str, reason: str, where: Where, condition: str) -> int:
        """One breakpoint; its number. Raises Failed where the condition is no expression."""
        try:
            number = int(self.stops.add_breakpoint(where, condition)[1:])
        except Unreadable as fault:
            raise Failed(str(fault)) from None
        return self.note(kind, reason, number)

    def note(self, kind: str, reason: str, number: int) -> int:
        """Notes of which kind a breakpoint is."""
        self._of.setdefault(kind, []).append(number)
        self.reasons[number] = reason
        return number

    def at_lines(self, path: str, wanted: list[Body]) -> list[Body]:
        """Breakpoints at lines of a file."""
        kind = f"lines of {path}"
        self.replace(kind)
        return [self.at_line(kind, path, line) for line in wanted]

    def at_line(self, kind: str, path: str, wanted: Body) -> Body:
        """One at a line, or at the next at which a step is executed."""
        number = int(wanted.get("line", 0))
        lines = self.debuggee.lines
        there = lines.nearest(path, number)
        steps = lines.steps_at(path, there)
        if not steps:
            return {"verified": False, "line": number, "message": "no step is executed at this line"}
        try:
            numbers = [self.add(kind, "breakpoint", Where("line", str(step)), wanted.get("condition") or "") for step in steps]
        except Failed as fault:
            return {"verified": False, "line": number, "message": str(fault)}
        self._lines.update((step, (numbers[0], there)) for step in numbers)
        return {"verified": True, "id": numbers[0], "line": there, "source": {"path": path}}

    def as_shown(self, number: int, text: str) -> tuple[int, str]:
        """A breakpoint as the client knows it: one at a line of its file may be several at lines of the program."""
        shown, line = self._lines.get(number, (number, None))
        return shown, text if line is None else re.sub("^line [0-9]+", f"line {line}", text)

    def at_bodies(self, wanted: list[Body]) -> list[Body]:
        """Breakpoints at the starts of bodies."""
        self.replace("bodies")
        made = []
        for body in wanted:
            name = str(body.get("name", ""))
            if name not in self.debuggee.session.source.bodies:
                made.append({"verified": False, "message": f"no body of the program is named {name}"})
                continue
            made.append(self.verified("bodies", "function breakpoint", Where("body", name), body))
        return made

    def verified(self, kind: str, reason: str, where: Where, wanted: Body) -> Body:
        """One of the shell's breakpoints, or why there is none."""
        try:
            return {"verified": True, "id": self.add(kind, reason, where, wanted.get("condition") or "")}
        except Failed as fault:
            return {"verified": False, "message": str(fault)}

    def data_of(self, name: str, task: str) -> Body:
        """Whether a variable can be watched, and under which name."""
        cell = re.fullmatch(r"c\[([0-9]+)\]", name)
        if cell and int(cell[1]) < self.debuggee.session.source.cells:
            return {"dataId": name, "description": f"cell {cell[1]}", "accessTypes": ["read", "write", "readWrite"], "canPersist": True}
        if re.fullmatch(r"r([0-9]|1[0-5])", name):
            return {"dataId": f"{name} of {task}", "description": f"{name} of {task}", "accessTypes": ["write"], "canPersist": False}
        return {"dataId": None, "description": f"{name} can't be watched: cells and registers can"}

    def at_data(self, wanted: list[Body]) -> list[Body]:
        """Breakpoints at accesses of cells, and at changes of cells and registers."""
        self.replace("data")
        return [self.at_one(data) for data in wanted]

    def at_one(self, wanted: Body) -> Body:
        """One of them: reads of a cell are met by its steps, changes by a watched value."""
        name = str(wanted.get("dataId", ""))
        cell = re.fullmatch(r"c\[([0-9]+)\]", name)
        if cell and wanted.get("accessType", "write") != "write":
            return self.verified("data", "data breakpoint", Where("cell", cell[1]), wanted)
        if not cell and not re.fullmatch(r"r([0-9]|1[0-5]) of 0(\.[1-9][0-9]*)*", name):
            return {"verified": False, "message": f"{name} can't be watched"}
        if wanted.get("condition"):
            return {"verified": False, "message": "a watched value has no condition"}
        watch, _ = self.stops.add_watch(name, "0", self.debuggee.session)
        return {"verified": True, "id": self.note("data", "data breakpoint", int(watch[1:]))}

    def at_kinds(self, filters: list[str]) -> list[Body]:
        """Breakpoints at faults and prints."""
        self.replace("kinds")
        return [self.verified("kinds", "exception", Where(name), {}) if name in EXCEPTIONS else
                {"verified": False, "message": f"there is no filter {name}"} for name in filters]
