"""Who took part in a run: the root, the tasks, and the parts of parallel regions between their barriers.

A parallel region is a taskgroup of what met it. Between two barriers each thread's implicit task is a part of its
own: a child in that group, or, where one part alone does something, as in a `single`, steps of what met the region.
"""

from collections import Counter
from collections.abc import Callable, Sequence
from typing import TYPE_CHECKING

from . import trace as t

if TYPE_CHECKING:
    from .cells import Cell

Items = Sequence[tuple[int, int]]      # addresses, bits of the types
NO_LOCKS: frozenset[int] = frozenset()
LARGE = 64   # bytes: an access of more is one of many places


class Actor:
    """What becomes a task of the notation."""

    def __init__(self, number: int, place: int = 0, parent: "Actor | None" = None) -> None:
        self.number = number    # the recorder's number of its task
        self.place = place      # the directive that made it
        self.parent = parent
        self.items: list[tuple[int, int]] = []     # (address, bits of the type)
        self.lengths: list[int] = []       # of the items, in bytes
        self.deferred = True
        self.final = False
        self.started: int | None = None     # stamps
        self.ended: int | None = None
        self.steps: list[tuple[int, int, Step]] = []     # (stamp, turn, Step)
        self.home: Actor | None = None      # whom its steps belong to, where it has no task of its own
        self.is_part = False    # of a parallel region
        self.children = 0
        self.name = ""
        self.made = 0           # the stamp of the statement that makes it

    def whose(self) -> "Actor":
        """The actor whose steps its steps are."""
        actor = self
        while actor.home is not None:
            actor = actor.home
        return actor

    def is_under(self, other: "Actor") -> bool:
        """Whether it is this one or a descendant of it."""
        actor: Actor | None = self
        while actor is not None and actor is not other:
            actor = actor.parent.whose() if actor.parent else None
        return actor is other


class Step:
    """One statement of an actor; `kind` is the notation's word."""

    __slots__ = ("kind", "place", "child", "items", "cell", "value", "mark")

    def __init__(self, kind: str, place: int = 0, child: Actor | None = None, items: Items = (),
                 cell: "Cell | None" = None, value: int = 0, mark: int = 0) -> None:
        self.kind = kind
        self.place = place
        self.child = child
        self.items = items
        self.cell = cell
        self.value = value
        self.mark = mark


class Phase:
    """A region from one barrier to the next."""

    def __init__(self, opened: int) -> None:
        self.opened = opened
        self.closed: int | None = None
        self.parts: dict[int, Actor] = {}
        self.active: list[Actor] = []     # the parts that do something


class Region:
    """A parallel region: who met it, and its phases."""

    def __init__(self, meeting: Actor, place: int, opened: int) -> None:
        self.meeting = meeting
        self.place = place
        self.phases = [Phase(opened)]
        self.ended = False


class Access:
    """A read or write, with who did it and the locks that were held; `low` to `high` are its places of eight bytes.

    `home` is the actor that it belongs to in the end, `quiet` says that the root did it while it was alone, and
    `segment` is the number of the actor's other steps in front of it."""

    __slots__ = ("stamp", "actor", "is_write", "address", "size", "value", "place", "mark", "locks", "low", "high",
                 "home", "quiet", "segment")

    def __init__(self, event: t.Event, actor: Actor, locks: frozenset[int]) -> None:
        self.address, self.value, self.stamp, _, self.place, self.size, kind, mark = event
        self.mark = mark & t.MARKS & ~t.OUTERMOST
        if self.size == t.LARGE:
            self.size, self.value = self.value, 0
        self.actor = actor
        self.is_write = kind == t.WRITE
        self.locks = locks
        self.home = actor
        self.quiet = False
        self.segment = 0
        self.low = self.address >> 3
        self.high = self.address + (self.size or 1) + 7 >> 3


class Run:
    """The actors of a trace with their steps, the accesses in their order, and what was counted on the way."""

    def __init__(self, trace: t.Trace) -> None:
        self.root = Actor(0)
        self.tasks: dict[int, Actor] = {}        # explicit tasks by their numbers
        self.regions: dict[int, Region] = {}
        self.accesses: list[Access] = []
        self.memory: list[tuple[float, int, int]] = []       # (stamp, address, size): new from there on
        self.copies: dict[int, int] = {}       # copies of reduced variables: address, size
        self.counts: Counter[str] = Counter()
        self._now = {0: self.root}     # the actor that each number stands for now
        self._implicit: dict[int, tuple[Region, int]] = {}     # number: (region, phase)
        self._busy: set[int] = set()   # the numbers that have touched memory since their last barrier
        self._locks: dict[int, frozenset[int]] = {}
        # What a task has no copy of, though it takes part in the reduction: addresses and sizes.
        self._reduced: dict[int, dict[int, int]] = {}
        self._wait_items: dict[int, list[tuple[int, int]]] = {}
        self._blocks: dict[int, int] = {}      # the sizes of blocks, by their addresses
        self._sizes: dict[int, int] = {}
        # What each task touched last at each place, for those of which only the first's is known.
        self._numbers: dict[tuple[int, int], int] = {}
        handlers = self._handlers()
        for event in trace.events:
            handler = handlers.get(event.kind)
            if handler:
                handler(event)
        self._find_homes()
        self._place_parts()

    def _handlers(self) -> dict[int, Callable[[t.Event], None]]:
        return {t.CREATE: self._create, t.ITEM: self._item, t.START: self._start, t.END: self._end,
                t.WAIT: lambda e: self._add(e, Step("taskwait", e.place)),
                t.WAIT_ITEM: self._wait_item, t.WAIT_ITEMS: self._wait_for_items,
                t.GROUP_OPEN: lambda e: self._add(e, Step("taskgroup", e.place)),
                t.GROUP_CLOSE: lambda e: self._add(e, Step("end", e.place)),
                t.REGION_BEGIN: self._region_begin, t.REGION_END: self._region_end,
                t.IMPLICIT_BEGIN: self._implicit_begin, t.BARRIER_BEGIN: self._barrier_begin,
                t.BARRIER_END: self._barrier_end, t.READ: self._access, t.WRITE: self._access,
                t.MEMORY: self._take_memory,
                t.LOCK: self._lock, t.UNLOCK: self._unlock, t.NOTE: self._note, t.COPY: self._copy}

    def actor_of(self, number: int) -> Actor:
        """Who the number stands for at this point of the trace."""
        return self._now.get(number, self.root)

    def _add(self, event: t.Event, step: Step) -> None:
        self.actor_of(event.task).steps.append((event.stamp, 0, step))

    # ---- tasks

    def _create(self, event: t.Event) -> None:
        parent = self.actor_of(event.task)
        child = Actor(event.address, event.place, parent)
        child.final = bool(event.value & t.FINAL)
        # A task of a final task is included: whoever meets it runs it at once.
        child.deferred = not (event.value & t.UNDEFERRED or parent.final)
        self.tasks[event.address] = self._now[event.address] = child
        self._add(event, Step("task", event.place, child=child))

    def _item(self, event: t.Event) -> None:
        if event.task in self.tasks:
            self.tasks[event.task].items.append((event.address, event.mark))
            self.tasks[event.task].lengths.append(event.value)

    def _start(self, event: t.Event) -> None:
        self.actor_of(event.task).started = event.stamp
        if event.mark & t.STACK:
            self.memory.append((event.stamp, event.address, event.value))

    def _end(self, event: t.Event) -> None:
        actor = self.actor_of(event.task)
        if event.mark & t.STACK:
            self.memory.append((event.stamp, event.address, event.value))
        if actor is not self.root and actor.ended is None:
            if actor.started is None:
                actor.started = event.stamp     # it was discarded by a cancellation: it does nothing
            actor.ended = event.stamp

    def _wait_item(self, event: t.Event) -> None:
        self._wait_items.setdefault(event.task, []).append((event.address, event.mark))

    def _wait_for_items(self, event: t.Event) -> None:
        self._add(event, Step("taskwait", event.place, items=self._wait_items.pop(event.task, [])))

    # ---- regions

    def _region_begin(self, event: t.Event) -> None:
        meeting = self.actor_of(event.task)
        self.regions[event.address] = Region(meeting, event.place, event.stamp)

    def _region_end(self, event: t.Event) -> None:
        region = self.regions.get(event.address)
        if region:
            region.phases[-1].closed = event.stamp
            region.ended = True

    def _implicit_begin(self, event: t.Event) -> None:
        region = self.regions.get(event.address)
        if region is None:
            self._now[event.task] = self.root
            return
        self._implicit[event.task] = (region, 0)
        self._now[event.task] = self._part(region, 0, event)

    def _part(self, region: Region, phase: int, event: t.Event) -> Actor:
        part = Actor(event.task, region.place, region.meeting)
        part.is_part = True
        part.started = event.stamp
        region.phases[phase].parts[event.task] = part
        return part

    def _barrier_begin(self, event: t.Event) -> None:
        if event.task in self._implicit:
            self.actor_of(event.task).ended = event.stamp

    def _barrier_end(self, event: t.Event) -> None:
        if event.task not in self._implicit:
            return
        self._busy.discard(event.task)
        region, phase = self._implicit[event.task]
        if region.ended:
            return
        if region.phases[phase].closed is None:
            region.phases[phase].closed = event.stamp
            region.phases.append(Phase(event.stamp))
        self._implicit[event.task] = (region, phase + 1)
        self._now[event.task] = self._part(region, phase + 1, event)

    # ---- memory

    def _take_memory(self, event: t.Event) -> None:
        self.memory.append((event.stamp, event.address, event.value))
        self._blocks[event.address] = event.value

    def _access(self, event: t.Event) -> None:
        task = event.task
        if event.mark & t.FRAME and task not in self.tasks and task not in self._busy:
            return      # a thread's share of a region ends, behind its last barrier
        if not event.mark & t.FRAME:
            self._busy.add(task)
        actor, locks = self._now.get(task, self.root), self._locks.get(task, NO_LOCKS)
        whose = event.task, event.place
        if event.mark & t.FREED and event.size == 0:
            event = event._replace(size=t.LARGE, value=self._blocks.get(event.address, 1))
        if event.size != t.SET:
            self._numbers[whose] = event.value
        self.accesses += [Access(element, actor, locks | self._reductions(element))
                          for element in elements(event, self._numbers.get(whose, 0))]

    def _reductions(self, event: t.Event) -> frozenset[int]:
        """What stands as a lock for the reduction that the element is part of."""
        reduced = self._reduced.get(event.task)
        if not reduced:
            return NO_LOCKS
        return frozenset(address for address, size in reduced.items() if 0 <= event.address - address < size)

    def _lock(self, event: t.Event) -> None:
        self.counts["reductions" if event.value else "critical sections and locks"] += 1
        self._locks[event.task] = self._locks.get(event.task, NO_LOCKS) | {event.address}

    def _unlock(self, event: t.Event) -> None:
        self._locks[event.task] = self._locks.get(event.task, NO_LOCKS) - {event.address}

    def _note(self, event: t.Event) -> None:
        self.counts[t.NOTES[event.value]] += 1

    def _copy(self, event: t.Event) -> None:
        if event.size:
            self._sizes[event.address] = event.value if event.size == t.LARGE else event.size
            return
        size = self._sizes.get(event.value, 8)
        self._sizes[event.address] = size
        if event.address == event.value:
            self._reduced.setdefault(event.task, {})[event.address] = size
        else:
            self.copies[event.address] = size

    # ---- parts

    def _find_homes(self) -> None:
        """A part that alone does something in its phase belongs to what met the region."""
        self.phases = [(region, phase) for region in self.regions.values() for phase in region.phases]
        busy = {access.actor for access in shared_accesses(self)}
        busy |= {region.meeting for region in self.regions.values()}
        for region, phase in self.phases:
            active = [part for part in phase.parts.values() if part.steps or part in busy]
            phase.active = active
            for part in phase.parts.values():
                if part not in active or len(active) == 1:
                    part.home = region.meeting

    def _place_parts(self) -> None:
        """A region's phases are groups in whom they belong to; parts that several do are children there."""
        for region, phase in self.phases:
            if not phase.active:
                continue
            home = region.meeting.whose()
            home.steps.append((phase.opened, 1, Step("taskgroup", region.place)))
            for part in phase.active:
                if part.home is None:
                    home.steps.append((phase.opened, 2, Step("task", region.place, child=part)))
            if phase.closed is not None:
                home.steps.append((phase.closed, -1, Step("end", region.place)))
        for _, phase in self.phases:
            for part in phase.parts.values():
                if part.home is not None:
                    part.whose().steps += part.steps
                    part.steps = []
                elif part.ended is None:
                    part.ended = phase.closed


def elements(event: t.Event, number: int = 0) -> Sequence[t.Event]:
    """The event for each element that it touches; all have the number of the first, those of a set this one."""
    if not event.mark >> t.ROW_SHIFT:
        return (event,)
    size = 1 << (event.mark >> t.ROW_SHIFT) - 1
    if event.size == t.SET:
        return [event._replace(address=event.address + size * i, size=size, value=number) for i in range(64) if event.value >> i & 1]
    return [event._replace(address=address, size=size)
            for address in range(event.address, event.address + event.size, size)]


def shared_accesses(run: Run) -> list[Access]:
    """The accesses to memory that two actors touch and one writes, eight bytes taken together."""
    first: dict[int, Actor] = {}
    shared: set[int] = set()
    written: set[int] = set()
    for access in run.accesses:
        if access.actor is run.root or access.size > LARGE:
            continue
        low, actor = access.low, access.actor
        for granule in (low,) if access.high == low + 1 else range(low, access.high):
            if first.setdefault(granule, actor) is not actor:
                shared.add(granule)
            if access.is_write:
                written.add(granule)
    shared &= written
    return [access for access in run.accesses if access.size > LARGE or access.low in shared
            or access.high > access.low + 1 and not shared.isdisjoint(range(access.low, access.high))]
