"""What the judge found in a trace, with the source lines of its places."""

import json
import re
import subprocess
from collections.abc import Mapping
from typing import Any

from .building import CannotBuild, judge
from .places import Sources
from .trace import BadTrace, count_events

# Of one event: seconds and bytes of memory of the judge; what is many, and how many its numbers allow.
SECONDS, MEMORY = 4e-7, 100
MANY_EVENTS, MOST_EVENTS = 5_000_000, 4_000_000_000
IS_PART, IS_UNDEFERRED, IS_FINAL, IS_COPIED, HAS_NUMBER, IS_DETACHED, IS_LOOPS = 1, 2, 4, 8, 16, 32, 64


# An object of the judge's answer.
Told = dict[str, Any]


class CannotJudge(Exception):
    """The judge gave no answer."""


class Actor:
    """A task, or a thread's share of a parallel region (`is_part`); the root has no place."""

    def __init__(self, number: int, told: Told) -> None:
        self.number: int = number      # in the order in which they were made
        self.name = told["name"]
        self.place = told["place"]
        self.flags = told["flags"]
        self.items = [tuple(item) for item in told["items"]]    # (address, length, bits of the type)
        self.parent: Actor | None = None
        self.waits: list[Actor] = []     # those that its clauses put right in front of it

    @property
    def is_part(self) -> bool:
        """Whether it is a thread's share of a region."""
        return bool(self.flags & IS_PART)

    @property
    def is_task(self) -> bool:
        """Whether a task directive made it."""
        return self.parent is not None and not self.is_part

    def is_under(self, other: "Actor | None") -> bool:
        """Whether it is this one or comes from it."""
        actor: Actor | None = self
        while actor is not None and actor is not other:
            actor = actor.parent
        return actor is other


class Side:
    """One of the two steps of a race."""

    def __init__(self, told: Told, actors: Mapping[int, Actor]) -> None:
        self.done = told["done"]
        self.place = told["place"]
        self.actor = actors[told["actor"]]
        self.address = told["address"]
        self.size = told["size"]            # of one element
        self.is_unit = told["unit"]
        self.is_frame = told["frame"]       # the function ends that the memory is of
        self.is_library = told["library"]
        self.callers = told["callers"]      # where the function was called that did it, and its caller, and so on
        self.own = self.place               # of these the first that the program's own sources have


class Race:
    """Two steps that nothing orders, and how many pairs there are of these two places."""

    def __init__(self, told: Told, actors: Mapping[int, Actor]) -> None:
        self.count = told["count"]
        self.is_apart = told["apart"]
        self.is_copied = told["copied"]
        self.is_sure = told["sure"]
        self.is_of_lanes = told["lanes"]    # of two iterations of a `simd` loop
        self.address = told["address"]
        self.block = told.get("block")
        self.earlier = Side(told["earlier"], actors)
        self.later = Side(told["later"], actors)


class Finding:
    """The whole answer of the judge."""

    def __init__(self, told: Told) -> None:
        self.told = told
        self.counts = told["counts"]
        self.fault = told["fault"]
        self.actors = {int(number): Actor(int(number), actor) for number, actor in told["actors"].items()}
        for number, actor in told["actors"].items():
            if actor["parent"] >= 0:
                self.actors[int(number)].parent = self.actors[actor["parent"]]
            self.actors[int(number)].waits = [self.actors[other] for other in actor["waits"]]
        self.races = [Race(race, self.actors) for race in told["races"]]
        self.sources = Sources(told["program"], self._places())
        for race in self.races:
            self._find_own(race.earlier)
            self._find_own(race.later)
        self.races = [race for race in self.races if race.is_sure or self._is_fixed(race)]

    def _find_own(self, side: Side) -> None:
        own = [place for place in (side.place, *side.callers) if self.sources.is_own(place)]
        side.own = own[0] if own else side.place

    def _is_fixed(self, race: Race) -> bool:
        """Whether both name one variable, which is no other one for each thread."""
        return all(re.fullmatch(r"[A-Za-z_][\w.]*(\[\d+\])*", self.name_of(side)) for side in (race.earlier, race.later))

    def _places(self) -> set[int]:
        places = {actor.place for actor in self.actors.values()}
        for race in self.races:
            for side in (race.earlier, race.later):
                places |= {side.place, *side.callers}
            if race.block:
                places.add(race.block["place"])
        if self.fault:
            places.add(self.fault["place"])
        return places

    def line(self, place: int) -> str:
        """`file.c:9`."""
        return str(self.sources.place(place))

    def line_of(self, side: Side) -> str:
        """Of a side, in the program's own sources; of code that the compiler made, the line of its directive."""
        return self.line(side.own if self.sources.place(side.own).line else side.actor.place)

    def name_of(self, side: Side) -> str:
        """What the side reads or writes, in the words of the program's own sources."""
        if side.is_frame:
            return "memory"
        if side.is_library and side.own == side.place:
            return self.sources.argument(side.place, side.done != "reads")
        name = self.sources.expression(side.own)
        return name if side.own == side.place else without_call(name, self.sources, side.own)

    def chain_of(self, side: Side) -> str:
        """` (stl_vector.h:1283)`: where it is done, if that isn't in the program's own sources."""
        return "" if side.own == side.place or not self.sources.place(side.place).line else f" ({self.line(side.place)})"


def without_call(name: str, sources: Sources, place: int) -> str:
    """`all` of `all.push_back`: whose function is called there."""
    parts = re.match(r"(.*?)(->|\.)?(\w*)$", name)
    whose, sign = (parts[1], parts[2]) if parts else ("", "")
    if sign and whose and sources.is_call(place):
        return whose
    return name if not sources.is_call(place) else "memory"


def run_judge(*words: str) -> Any:
    """What the judge writes for these words; CannotJudge where it writes nothing."""
    try:
        done = subprocess.run([judge(), *words], capture_output=True, text=True, check=False)
    except CannotBuild as fault:
        raise CannotJudge(str(fault)) from fault
    except (OSError, subprocess.CalledProcessError) as fault:
        raise CannotJudge(f"the judge can't be built or started: {fault}") from fault
    if done.returncode != 0:
        raise CannotJudge(done.stderr.strip() or f"the judge ended with status {done.returncode}")
    return json.loads(done.stdout)


def judge_trace(path: str) -> Finding:
    """The Finding of a trace; CannotJudge where there is none."""
    return Finding(run_judge(path))


def foretell(path: str) -> str | None:
    """What judging the trace will take, where that is much; None where it isn't. CannotJudge where it is too much."""
    try:
        events = count_events(path)
    except BadTrace:
        return None
    if events > MOST_EVENTS:
        raise CannotJudge(f"{path} has {events:,} events, and the judge has room for {MOST_EVENTS:,}")
    if events < MANY_EVENTS:
        return None
    wanted, there = events * MEMORY, memory_there()
    words = f"{events:,} events: this takes some {events * SECONDS:.0f} s and {wanted / 1e9:.1f} GB"
    return f"{words}; {there / 1e9:.1f} GB are free" if there and there < wanted else words


def memory_there() -> int:
    """The free memory in bytes; 0 where that isn't told."""
    try:
        with open("/proc/meminfo", encoding="ascii") as told:
            found = re.search(r"MemAvailable:\s*(\d+) kB", told.read())
    except OSError:
        return 0
    return int(found[1]) * 1024 if found else 0
