"""Which memory becomes cells: what two actors touch and one writes, with the lifetimes of blocks and stacks apart."""

from bisect import bisect_left
from collections import Counter

from . import trace as t
from .actors import Access, Actor, Run, Step

# A granule, and the accesses to it with the bytes that each touches.
Lifetime = tuple[int, list[tuple[Access, int]]]
GRANULE = 8


class Quiet:
    """When the root is alone: no task was made since all that there were had ended."""

    def __init__(self, run: Run) -> None:
        made = [(task.made, task) for task in made_tasks(run)]
        # A region inside another one ends its own tasks alone.
        closes = [phase.closed for region, phase in run.phases
                  if phase.closed is not None and region.meeting is run.root]
        waits = [stamp for stamp, _, step in run.root.steps if step.kind == "taskwait" and not step.items]
        self._ends: list[tuple[int, float]] = []  # (from, to): not alone
        begin: int | None = None
        nested = False
        happenings: list[tuple[int, int, Actor | None]] = [(stamp, 0, task) for stamp, task in made]
        happenings += [(stamp, 1, None) for stamp in closes] + [(stamp, 2, None) for stamp in waits]
        happenings.sort(key=lambda entry: entry[:2])
        for stamp, what, task in happenings:
            if what == 0:
                begin = stamp if begin is None else begin
                nested = nested or maker_of(task) is not run.root
            elif begin is not None and (what == 1 or not nested):
                self._ends.append((begin, stamp))
                begin, nested = None, False
        if begin is not None:
            self._ends.append((begin, float("inf")))
        self._begins = [begin for begin, _ in self._ends]

    def is_before_all(self, stamp: int) -> bool:
        """Whether it is in front of the first task: what was stored there is what cells begin with."""
        return not self._begins or stamp < self._begins[0]

    def at(self, stamp: int) -> bool:
        """Whether the root is alone then."""
        at = bisect_left(self._begins, stamp) - 1
        return at < 0 or stamp > self._ends[at][1]


def maker_of(task: Actor | None) -> Actor | None:
    """Whose statement makes the task."""
    return task.parent.whose() if task and task.parent else None


def made_tasks(run: Run) -> list[Actor]:
    """The actors that have a task of their own, each with the stamp at which it was made."""
    found = []
    for home in all_homes(run):
        for stamp, _, step in home.steps:
            if step.child is not None:
                step.child.made = stamp
                found.append(step.child)
    return found


def all_homes(run: Run) -> list[Actor]:
    """The actors that keep their steps."""
    parts = [part for _, phase in run.phases for part in phase.active if part.home is None]
    return [run.root, *run.tasks.values(), *parts]


class Cell:
    """One cell: an address, how many others were touched alike, and its first number."""

    def __init__(self, number: int, address: int) -> None:
        self.number = number
        self.address = address
        self.alike = 1
        self.first = 0


class Memory:
    """The cells of a run; the actors get their loads and stores."""

    def __init__(self, run: Run) -> None:
        self.run = run
        self.counts: Counter[str] = Counter()
        self.cells: list[Cell] = []
        self.cell_at: dict[int, Cell] = {}      # the first cell of an address
        self._alike: dict[tuple[object, ...], tuple[Cell, list[Access]]] = {}      # (cell, entries) by what touched it
        self._quiet = Quiet(run)
        self._stamps = {actor: sorted(stamp for stamp, _, _ in actor.steps) for actor in all_homes(run)}
        self._copies = {granule for address, size in run.copies.items() for granule in granules(address, size)}
        accesses = self._accesses()
        for lifetime in self._lifetimes(accesses):
            for address, atom in atoms(lifetime):
                self._take(address, atom)
        self._finish()

    def _accesses(self) -> list[Access]:
        """The accesses that count, each with the actor that it belongs to."""
        homes: dict[Actor, Actor] = {}
        found = []
        root = self.run.root
        for access in self.run.accesses:
            if access.low in self._copies:
                self.counts["accesses to copies of reduced variables"] += 1
                continue
            home = homes.get(access.actor)
            if home is None:
                home = homes[access.actor] = access.actor.whose()
            access.home = home
            access.quiet = home is root and self._quiet.at(access.stamp)
            found.append(access)
        return found

    def _shared(self, accesses: list[Access]) -> list[int]:
        """The granules that two actors touch and one writes, sorted."""
        touched: dict[int, Actor | None] = {}
        written: set[int] = set()
        for access in accesses:
            if access.quiet or access.mark & t.FREED:
                continue
            low, home = access.low, access.home
            for granule in (low,) if access.high == low + 1 else range(low, access.high):
                if touched.setdefault(granule, home) is not home:
                    touched[granule] = None
                if access.is_write:
                    written.add(granule)
        known = sorted(touched)
        for access in accesses:
            if access.mark & t.FREED and not access.quiet:
                for granule in between(known, access.low, access.high):
                    if touched[granule] is not access.home:
                        touched[granule] = None
                    written.add(granule)
        shared = [granule for granule in known if touched[granule] is None]
        self.counts["places of eight bytes that one task alone touched"] = len(known) - len(shared)
        self.counts["places of eight bytes that several tasks only read"] = \
            sum(1 for granule in shared if granule not in written)
        return [granule for granule in shared if granule in written]

    def _lifetimes(self, accesses: list[Access]) -> list[Lifetime]:
        """For each shared granule its accesses, as (access, bytes) in lists, one for each time that it was new."""
        shared = self._shared(accesses)
        member = set(shared)
        current: dict[int, list[tuple[Access, int]]] = {}
        done: list[Lifetime] = []
        memory = iter([entry for entry in self.run.memory
                       if between(shared, entry[1] >> 3, entry[1] + entry[2] + 7 >> 3)] + [(float("inf"), 0, 0)])
        stamp, address, size = next(memory)
        for access in accesses:
            low, high = access.low, access.high
            if high == low + 1:
                touched = [low] if low in member else []
            else:
                touched = between(shared, low, high)
            if not touched:
                continue
            while stamp < access.stamp:
                for granule in between(shared, address >> 3, address + size + 7 >> 3):
                    if granule in current:
                        done.append((granule, current.pop(granule)))
                stamp, address, size = next(memory)
            access.segment = bisect_left(self._stamps.get(access.home, ()), access.stamp)
            for granule in touched:
                current.setdefault(granule, []).append((access, mask_of(granule, access)))
        return done + list(current.items())

    def _take(self, address: int, accesses: list[Access]) -> None:
        """Makes a cell of an atom, or one with those that were touched alike."""
        loud = [access for access in accesses if not access.quiet]
        if len({access.home for access in loud}) < 2 or not any(access.is_write for access in loud):
            return
        if all(access.mark & t.ATOMIC for access in loud):
            self.counts["accesses by atomic operations alone"] += len(loud)
            return
        if frozenset.intersection(*(access.locks for access in loud)):
            self.counts["accesses that one lock keeps apart"] += len(loud)
            return
        kept = without_repeats(accesses)
        self.counts["repeated accesses"] += len(accesses) - len(kept)
        key = tuple((id(access.home), access.segment, access.is_write, access.place, access.mark, access.locks)
                    for access in kept)
        known = self._alike.get(key)
        if known is None:
            cell = Cell(len(self.cells), address)
            self.cells.append(cell)
            self._alike[key] = (cell, kept)
        else:
            cell = known[0]
            cell.alike += 1
        self.cell_at.setdefault(address, cell)

    def _finish(self) -> None:
        """Gives the actors their loads and stores."""
        for cell, kept in self._alike.values():
            while kept[0].is_write and self._quiet.is_before_all(kept[0].stamp):
                cell.first = kept.pop(0).value
            if not kept[0].is_write and not cell.first:
                cell.first = kept[0].value
            if any(is_guarded(access) for access in kept):
                self._spread(cell, kept)
                continue
            for access in kept:
                add_step(access, cell, access.is_write)
        for actor in all_homes(self.run):
            actor.steps.sort(key=in_turn)

    def _spread(self, cell: Cell, kept: list[Access]) -> None:
        """Several cells for a place that some touch under a lock, so that two steps meet in a cell exactly where no
        lock keeps them apart: a guarded write loads the place's cell, which the others store, and stores one that
        belongs to its actor and lock, which those load that it isn't kept apart from."""
        owned = {}
        for access in kept:
            if access.is_write and is_guarded(access):
                key = (access.home, access.locks, access.mark)
                if key not in owned:
                    owned[key] = (access, Cell(len(self.cells), cell.address))
                    self.cells.append(owned[key][1])
        for access in kept:
            guarded = is_guarded(access)
            add_step(access, cell, access.is_write and not guarded)
            if access.is_write and not guarded:
                continue
            for writer, own in owned.values():
                if writer.home is not access.home and not are_kept_apart(writer, access):
                    add_step(access, own, False)
            if access.is_write:
                add_step(access, owned[access.home, access.locks, access.mark][1], True)


def in_turn(step: tuple[int, int, Step]) -> tuple[int, int]:
    """By what an actor's steps are in order."""
    return step[:2]


def is_guarded(access: Access) -> bool:
    """Whether a lock is held, or the operation is atomic."""
    return bool(access.locks or access.mark & t.ATOMIC)


def are_kept_apart(one: Access, other: Access) -> bool:
    """Whether a lock or atomic operations keep two accesses apart: the notation doesn't say so."""
    return bool(one.locks & other.locks or one.mark & other.mark & t.ATOMIC)


def add_step(access: Access, cell: Cell, is_store: bool) -> None:
    """Gives the access's actor a load or a store of the cell."""
    mark = access.mark | (t.WRITES if access.is_write else 0)
    access.home.steps.append((access.stamp, 0, Step("store" if is_store else "load", access.place, cell=cell,
                                                    value=access.value, mark=mark)))


def granules(address: int, size: int) -> range:
    """The places of eight bytes that these bytes are in."""
    return range(address >> 3, address + size + GRANULE - 1 >> 3)


def between(known: list[int], low: int, high: int) -> list[int]:
    """Those of the sorted granules from `low` on that are below `high`."""
    first = bisect_left(known, low)
    return known[first:bisect_left(known, high, first)]


def mask_of(granule: int, access: Access) -> int:
    """Which bytes of the granule an access touches, as bits."""
    begin = access.address - granule * GRANULE
    end = begin + (access.size or 1)
    return (1 << (end if end < GRANULE else GRANULE)) - (1 << (begin if begin > 0 else 0))


def atoms(lifetime: Lifetime) -> list[tuple[int, list[Access]]]:
    """The granule's pieces that each access touches whole or not at all: (address, accesses)."""
    granule, entries = lifetime
    masks = sorted({mask for _, mask in entries})
    if len(masks) == 1:
        return [(granule * GRANULE + lowest(masks[0]), [access for access, _ in entries])]
    found, pieces = set(), []
    for byte in range(GRANULE):
        touching = tuple(mask >> byte & 1 for mask in masks)
        if any(touching) and touching not in found:
            found.add(touching)
            pieces.append((granule * GRANULE + byte, [access for access, mask in entries if mask >> byte & 1]))
    return pieces


def lowest(mask: int) -> int:
    """The lowest bit that is set."""
    return (mask & -mask).bit_length() - 1


def without_repeats(accesses: list[Access]) -> list[Access]:
    """One of each kind and place in a row of accesses by one actor between two of its other steps; the root's reads
    while it is alone go too. A store that is kept has the last number of those it stands for."""
    kept: list[Access] = []
    row: tuple[Actor, int] | None = None
    seen: dict[tuple[bool, int, frozenset[int]], Access] = {}
    for access in accesses:
        if access.quiet and not access.is_write:
            continue
        here = (access.home, access.segment)
        if here != row:
            row, seen = here, {}
        key = (access.is_write, access.place, access.locks)
        if key in seen:
            if access.is_write:
                seen[key].value = access.value
            continue
        seen[key] = access
        kept.append(access)
    return kept
