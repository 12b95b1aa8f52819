"""Labels of arrows: each near its arrow, where it covers no arrow, no words and no other label."""

from __future__ import annotations

import math
from collections import defaultdict
from collections.abc import Iterable, Iterator, Sequence
from dataclasses import dataclass
from typing import NamedTuple

Point = tuple[float, float]
Line = tuple[Point, Point]
# The size of the fields by which close things are found, and of letters.
FIELD_WIDE, FIELD_HIGH = 64, 256
WIDE, HIGH = 6.8, 13.0
# An arrow is taken for so many straight lines: of the greatest number none is a pixel off, however long the arrow is.
LEAST_LINES, MOST_LINES, LINE = 24, 256, 16
PLACES = (0.5, 0.4, 0.6, 0.3, 0.7, 0.2, 0.8, 0.9)


class Rect(NamedTuple):
    """A rectangle by its upper left corner."""

    x: float
    y: float
    wide: float
    high: float

    def meets(self, other: Rect) -> bool:
        """Whether two of them share something."""
        return (self.x < other.x + other.wide and other.x < self.x + self.wide
                and self.y < other.y + other.high and other.y < self.y + self.high)

    def crosses(self, line: Line) -> bool:
        """Whether a straight line comes into it."""
        (x, y), (to_x, to_y) = line
        right, bottom = self.x + self.wide, self.y + self.high
        if max(x, to_x) < self.x or min(x, to_x) > right or max(y, to_y) < self.y or min(y, to_y) > bottom:
            return False
        sides = [(to_x - x) * (corner_y - y) - (to_y - y) * (corner_x - x) for corner_x in (self.x, right) for corner_y in (self.y, bottom)]
        return min(sides) <= 0 <= max(sides)

    def fields(self) -> Iterator[tuple[int, int]]:
        """The fields that it touches."""
        for column in range(int(self.x // FIELD_WIDE), int((self.x + self.wide) // FIELD_WIDE) + 1):
            for row in range(int(self.y // FIELD_HIGH), int((self.y + self.high) // FIELD_HIGH) + 1):
                yield column, row


@dataclass
class Curve:
    """An arrow from its first point to its last, bent by the two between, and its label."""

    points: tuple[Point, Point, Point, Point]
    text: str

    @property
    def path(self) -> str:
        """As SVG has it."""
        first, *others = (f"{x:g} {y:.0f}" for x, y in self.points)
        return f"M{first} C{' '.join(others)}"

    def lines(self) -> list[Line]:
        """The straight lines for which it is taken."""
        length = sum(math.dist(one, two) for one, two in zip(self.points, self.points[1:]))
        count = min(MOST_LINES, max(LEAST_LINES, math.ceil(length / LINE)))
        points = [self.at(at / count) for at in range(count + 1)]
        return list(zip(points, points[1:]))

    def at(self, part: float) -> Point:
        """The point at a part of the way."""
        left = 1 - part
        weights = (left ** 3, 3 * left * left * part, 3 * left * part * part, part ** 3)
        return (sum(weight * point[0] for weight, point in zip(weights, self.points)),
                sum(weight * point[1] for weight, point in zip(weights, self.points)))


class Labels:
    """Finds where there is nothing; what is covered is listed by fields, so that only the fields around are searched."""

    def __init__(self, curves: Sequence[Curve], covered: Iterable[Rect]) -> None:
        self._lines: dict[tuple[int, int], list[Line]] = defaultdict(list)
        self._covered: dict[tuple[int, int], list[Rect]] = defaultdict(list)
        for line in (line for curve in curves for line in curve.lines()):
            (x, y), (to_x, to_y) = line
            for field in Rect(min(x, to_x), min(y, to_y), abs(to_x - x), abs(to_y - y)).fields():
                self._lines[field].append(line)
        for rect in covered:
            self.cover(rect)

    def cover(self, rect: Rect) -> None:
        """Something is here."""
        for field in rect.fields():
            self._covered[field].append(rect)

    def is_free(self, rect: Rect) -> bool:
        """Whether nothing is here."""
        return rect.x > 0 and not any(any(rect.meets(other) for other in self._covered.get(field, ())) or any(rect.crosses(line) for line in self._lines.get(field, ()))
                                      for field in rect.fields())

    def place(self, curve: Curve) -> Rect | None:
        """A free rectangle next to an arrow, which is covered from then on; None where there is none."""
        wide = WIDE * len(curve.text)
        for part in PLACES:
            x, y = curve.at(part)
            for left, above in ((x - wide / 2, y - HIGH - 4), (x - wide / 2, y + 4), (x + 6, y - HIGH / 2), (x - wide - 6, y - HIGH / 2)):
                rect = Rect(left, above, wide, HIGH)
                if self.is_free(rect):
                    self.cover(rect)
                    return rect
        return None
