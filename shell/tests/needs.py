"""What each step of a history needs at once, worked out from its lines: what the program's `causes` is compared with."""

from collections.abc import Mapping, Sequence
from typing import Any

from shell.needs import Needs as Direct


class Needs(Direct):
    """Takes the steps of a history in order; sets of steps are bits of numbers."""

    def __init__(self) -> None:
        super().__init__()
        self.needed: list[int] = []        # of each step, the places of all that it needs

    def add(self, name: str, did: str) -> Any:
        """The immediate needs of the next step, as pairs of kind and place, from the oldest."""
        found, covered = [], 0
        for kind, place in reversed(self.direct(name, did)):
            if not covered >> place & 1:
                found.append((kind, place))
                covered |= self.needed[place] | 1 << place
        self.needed.append(covered)
        return found[::-1]


def without_implied(causes: Mapping[Any, Sequence[tuple[str, Any]]]) -> Any:
    """Of the needs of steps, each of which comes after those that it needs, the ones that no other of the step implies."""
    place = {step: at for at, step in enumerate(causes)}
    needed: list[int] = []
    found = {}
    for step, near in causes.items():
        kept, covered = [], 0
        for kind, early in sorted(near, key=lambda need: place[need[1]], reverse=True):
            if not covered >> place[early] & 1:
                kept.append((kind, early))
                covered |= needed[place[early]] | 1 << place[early]
        needed.append(covered)
        found[step] = kept[::-1]
    return found
