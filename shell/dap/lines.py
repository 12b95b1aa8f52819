"""Which lines an editor sees: those of the program's own file, or of the C files that a recorded run names."""

from __future__ import annotations

import os
from typing import NamedTuple

from shell.source import Source


class Line(NamedTuple):
    """A line of a file."""

    path: str
    number: int


class Lines:
    """Turns lines of the program into those that an editor shows, and back."""

    def __init__(self, source: Source, folders: list[str]) -> None:
        self.source = source
        self.folders = [os.path.dirname(os.path.abspath(source.path)), *folders, os.getcwd()]
        self._shown: dict[int, Line] = {}
        self._program: dict[Line, list[int]] = {}
        for number in range(1, len(source.lines) + 1):
            found = source.recorded(number)
            if found:
                line = Line(self.find(found[0]), found[1])
                self._shown[number] = line
                self._program.setdefault(line, []).append(number)

    def find(self, name: str) -> str:
        """The path of a file that a comment names: in the first folder that has it."""
        paths = [os.path.join(folder, name) for folder in self.folders]
        return os.path.realpath(next((path for path in paths if os.path.exists(path)), paths[0]))

    def shown(self, number: int | None) -> Line:
        """Where an editor shows a line of the program; of a recorded run, the nearest line above that has a line of C."""
        own = Line(os.path.abspath(self.source.path), number or 1)
        if number is None or not self._shown:
            return own
        body = self.source.body_at(number)
        inside = [at for at in self._shown if self.source.body_at(at) == body]
        above = max((at for at in inside if at <= number), default=min(inside, default=None))
        return own if above is None else self._shown[above]

    def steps_at(self, path: str, number: int) -> list[int]:
        """The lines of the program at which a step is executed for a line that an editor shows."""
        if os.path.realpath(path) == os.path.realpath(self.source.path):
            found = [number]
        else:
            found = self._program.get(Line(os.path.realpath(path), number), [])
        return [at for at in found if self.source.is_step(at)]

    def nearest(self, path: str, number: int) -> int:
        """The line at or after one at which a step can be executed; the line itself where there is none."""
        real = os.path.realpath(path)
        if real == os.path.realpath(self.source.path):
            there = [at for at in range(number, len(self.source.lines) + 1) if self.source.is_step(at)]
        else:
            there = sorted(line.number for line in self._program if line.path == real and line.number >= number)
        return there[0] if there and there[0] <= number + 10 else number
