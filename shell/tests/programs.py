"""Random programs whose control flow doesn't hang on what their tasks read, so every order has the same tasks."""

import random
from collections.abc import Sequence

TYPES = ("in", "out", "inout", "mutexinoutset", "inoutset")


class Maker:
    """Makes one program; a body generates tasks of later bodies alone, so each run ends."""

    def __init__(self, seed: int, bodies: int = 4, cells: int = 3) -> None:
        self.choice = random.Random(seed)
        self.bodies = bodies
        self.cells = cells
        self.lines: list[str] = []

    def cell(self) -> int:
        """Some cell."""
        return self.choice.randrange(self.cells)

    def clauses(self, types: Sequence[str], most: int = 2) -> str:
        """Some depend clauses."""
        return "".join(f" depend {self.choice.choice(types)} {self.cell()}" for _ in range(self.choice.randrange(most + 1)))

    def task(self, body: int, pad: str) -> None:
        """A line that generates a task, deferred most times."""
        line = f"{pad}task b{self.choice.randrange(body + 1, self.bodies)}{self.clauses(TYPES)}"
        self.lines.append(line + (" if 0 == 1" if self.choice.random() < 0.1 else ""))

    def statement(self, body: int, pad: str, deep: int) -> None:
        """One statement, or a block of some."""
        kind = self.choice.choice(("load", "store", "print", "task", "task", "wait", "group", "loop"))
        if kind == "task" and body + 1 < self.bodies:
            self.task(body, pad)
        elif kind == "load":
            self.lines.append(f"{pad}load r{self.choice.randrange(1, 4)} {self.cell()}")
        elif kind == "print":
            self.lines.append(f"{pad}print r{self.choice.randrange(4)}")
        elif kind == "wait":
            items = self.clauses(("in", "inout", "inoutset"), 1)
            self.lines.append(f"{pad}taskwait{items}")
        elif kind == "group" and deep < 2:
            self.lines.append(f"{pad}taskgroup")
            self.block(body, pad + "  ", deep + 1, 2)
            self.lines.append(f"{pad}end")
        elif kind == "loop" and deep < 1:
            self.lines.append(f"{pad}while r9 < 2")
            self.block(body, pad + "  ", deep + 1, 2)
            self.lines += [f"{pad}  let r9 r9 + 1", f"{pad}end"]
        else:
            self.lines.append(f"{pad}store {self.cell()} r{self.choice.randrange(4)}")

    def block(self, body: int, pad: str, deep: int, most: int) -> None:
        """A few statements."""
        for _ in range(self.choice.randrange(1, most + 1)):
            self.statement(body, pad, deep)

    def program(self) -> str:
        """The text."""
        self.lines = [f"cells {self.cells}"]
        for body in range(self.bodies):
            self.lines.append("body main 0" if body == 0 else f"body b{body} 0")
            self.block(body, "  ", 0, 6 if body == 0 else 3)
            self.lines.append("end")
        return "".join(line + "\n" for line in self.lines)


def random_program(seed: int, bodies: int = 4, cells: int = 3) -> str:
    """The text of a program, the same for the same seed."""
    return Maker(seed, bodies, cells).program()
