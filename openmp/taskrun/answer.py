"""The answer about a run: a fault, races by source lines, or that there are none."""

from collections.abc import Iterable

from .advice import remedy
from .finding import Actor, Finding, Race, Side, Told

FAULT, RACES, NONE, UNKNOWN = 1, 2, 0, 3
RULES = {
    "Waiting": ("started", "it depends on that one by its depend clause (OpenMP 5.2, 15.9.5)"),
    "Excluded": ("started", "both are mutexinoutset on one place (OpenMP 5.2, 15.9.5)"),
    "Children": ("passed a taskwait", "a taskwait waits for the children that it covers (OpenMP 5.2, 15.5)"),
    "Group": ("passed the end of a taskgroup or region",
              "it waits for all tasks made in it, and their descendants (OpenMP 5.2, 15.4 and 15.3)"),
    "Undeferred": ("went on", "a child that isn't deferred ends first (OpenMP 5.2, 12.5)"),
}
FOR_EVERY = "for this input, every schedule has this outcome"
BY_ONE = "for this input, every schedule by one thread has this outcome"
MORE_THREADS = "a team of one thread asks for its number: what more threads would do isn't known (run it with two or more)"
AS_SEEN = "no race as far as was seen: nothing is said of other schedules"

# What orders nothing, or is this run's alone: where one of these is there, what is said of every schedule says less.
ALIKE = (("locks", "critical sections and locks"), ("reductions", "reductions"), ("cancellations", "cancellations"),
         ("by_atomics", "accesses by atomic operations alone"), ("by_locks", "accesses that one lock keeps apart"),
         ("handed_over", "steps ordered by atomics or signals as seen"),
         ("by_handover", "accesses to what was handed over under a lock"),
         ("by_thread_number", "accesses by the thread's number, which the runtime chooses"))
# What wasn't seen: where one of these is there, nothing is said of other schedules.
UNSEEN = (("strangers", "accesses of threads that aren't OpenMP's"), ("forks", "processes that were forked"))


def what_is_unseen(finding: Finding) -> list[str]:
    """Lines on what of the program wasn't seen."""
    lines = [f"not seen: {words}: {finding.counts[name]}" for name, words in UNSEEN if finding.counts.get(name)]
    if finding.told["unseen"]:
        lines.append(f"not seen: what these do, which weren't compiled by `record cc`: {finding.told['unseen']}")
    return lines


def what_is_alike(finding: Finding) -> list[str]:
    """Lines on what may come in either order without a race."""
    return [f"not ordered, or only as seen: {words}: {finding.counts[name]}" for name, words in ALIKE
            if finding.counts.get(name)]


# ---- a fault of the run

def task_words(finding: Finding, number: int) -> str:
    """`task 0.1 (sum.c:9)`."""
    actor = finding.actors[number]
    return f"task {actor.name} ({finding.line(actor.place)})" if actor.is_task else f"task {actor.name} (the program)"


def tell_fault(finding: Finding) -> list[str]:
    """The lines about the step that broke a rule."""
    fault = finding.fault
    done, rule = RULES[fault["rule"]]
    where = finding.line(fault["place"] or finding.actors[fault["actor"]].place)
    return [f"fault of the run: {task_words(finding, fault['actor'])} {done} while "
            f"{task_words(finding, fault['other'])} hadn't ended: {rule}",
            f"  the step: it {fault['step']}, at {where}; event {fault['event']} of {finding.told['events']}"]


# ---- races

class Report:
    """The races of one pair of lines: one mistake."""

    def __init__(self, race: Race) -> None:
        self.race = race
        self.count = race.count

    def add(self, race: Race) -> None:
        """Takes another race of these lines in; the one in which both write is told."""
        self.count += race.count
        if writes_of(race) > writes_of(self.race):
            self.race = race


def writes_of(race: Race) -> int:
    """How many of its two sides write."""
    return sum(side.done != "reads" for side in (race.earlier, race.later))


def gather(finding: Finding, races: Iterable[Race]) -> list[Report]:
    """The reports, in the order in which their first races came: one for each pair of lines, and of these one for what
    the same advice mends."""
    by_lines: dict[frozenset[str], Report] = {}
    by_advice: dict[tuple[str, str], Report] = {}
    for race in races:
        key = frozenset((finding.line_of(race.earlier), finding.line_of(race.later)))
        if key in by_lines:
            by_lines[key].add(race)
        else:
            by_lines[key] = Report(race)
    for report in by_lines.values():
        first = by_advice.setdefault((who_words(finding, report.race), remedy(finding, report.race)), report)
        if first is not report:
            first.count += report.count
    return list(by_advice.values())


def step_words(finding: Finding, race: Race, side: Side) -> str:
    """`sum.c:9 writes total`; of memory without a name, where it was allocated."""
    name = finding.name_of(side)
    if side.is_frame:
        return f"{finding.line_of(side)} frees memory of the function that ends there"
    words = f"{finding.line_of(side)} {side.done} {name}{finding.chain_of(side)}"
    if name == "memory" and race.block and finding.sources.is_own(race.block["place"]):
        words += f" ({part_of_block(race, side)} allocated at {finding.line(race.block['place'])})"
    return words


def part_of_block(race: Race, side: Side) -> str:
    """`element 12 of the array`, or which byte where the elements aren't one behind the other."""
    block = race.block or {"offset": 0}
    number, rest = divmod(block["offset"], side.size or 1)
    is_element = rest == 0 and side.size in (1, 2, 4, 8, 16)
    return f"element {number} of the array" if is_element else f"byte {block['offset']} of the block"


def who_words(finding: Finding, race: Race) -> str:
    """`tasks at sum.c:9 and sum.c:9`; the one that made the other isn't called a task."""
    first, second = race.earlier.actor, race.later.actor
    if race.is_of_lanes:
        return "the iterations of a simd loop"
    if race.is_copied:
        return f"{part_words(finding, first)} (seen with one: each would do it)"
    if first is second:
        return f"what {part_words(finding, first)} share out"
    if second.is_under(first):
        return f"the task at {finding.line(second.place)} and what made it"
    if first.is_under(second):
        return f"the task at {finding.line(first.place)} and what made it"
    if first.is_part and second.is_part and first.place == second.place:
        return part_words(finding, first)
    if first.is_task and second.is_task:
        return f"tasks at {finding.line(first.place)} and {finding.line(second.place)}"
    return " and ".join(f"the task at {finding.line(actor.place)}" if actor.is_task else part_words(finding, actor)
                        for actor in (first, second))


def part_words(finding: Finding, actor: Actor) -> str:
    """`the threads of the region at sum.c:7`."""
    while not actor.is_part and actor.parent is not None:
        actor = actor.parent
    return f"the threads of the region at {finding.line(actor.place)}"


def tell_races(finding: Finding, races: Iterable[Race]) -> list[str]:
    """A line for each report."""
    lines = []
    for report in gather(finding, races):
        race = report.race
        times = f"  ({report.count} times)" if report.count > 1 else ""
        lines.append(f"{step_words(finding, race, race.earlier)}, {step_words(finding, race, race.later)}: nothing orders "
                     f"{who_words(finding, race)}; {remedy(finding, race)}{times}")
    return lines


# ---- the whole answer

def answer(finding: Finding) -> tuple[int, list[str]]:
    """(exit status, lines)."""
    status, lines = answer_of(finding)
    if status != NONE and finding.sources.why_none:
        lines = [f"places have no lines: {finding.sources.why_none}", *lines]
    return status, lines


def answer_of(finding: Finding) -> tuple[int, list[str]]:
    """The same, without a remark on the program."""
    if finding.fault:
        return FAULT, tell_fault(finding)
    lines = what_is_unseen(finding) + what_is_alike(finding)
    open_races = [race for race in finding.races if not race.is_apart]
    if open_races:
        return RACES, lines + tell_races(finding, open_races) + why_unended(finding)
    whole = why_unended(finding)
    if whole:
        return UNKNOWN, lines + whole
    return NONE, lines + tell_outcome(finding)


def why_unended(finding: Finding) -> list[str]:
    """Lines on what keeps the trace from being a whole run's."""
    told = finding.told
    if finding.counts["no_tool"]:
        return ["the runtime didn't call the recorder (OMP_TOOL=disabled?): tasks and threads weren't seen"]
    if finding.counts["deep"]:
        return ["tasks were too deep to follow: nothing is said of other schedules"]
    if told["ended"] and told["cut"]:
        return ["events are missing from the trace (no room for its file?): nothing is said of other schedules"]
    if not told["ended"] or told["unended"] or told["open_regions"]:
        rest = f", and {told['unended']} tasks hadn't ended" if told["unended"] else ""
        why = ", or there was no room for its trace" if told["cut"] else ""
        return [f"the run didn't end by itself{why}{rest}: what is told is of what was seen until then"]
    return []


def tell_outcome(finding: Finding) -> list[str]:
    """Lines for a legal and finished run without an open race."""
    told = finding.told
    lines = []
    pairs = sorted({f"{step_words(finding, race, race.earlier)}, {step_words(finding, race, race.later)}"
                    for race in finding.races})
    lines += [f"either may come first, never both at once (mutexinoutset): {pair}" for pair in pairs]
    if not told["tasks"] and told["team"] < 2 and not told["regions"] and not finding.counts["simd"]:
        return lines + ["the run had no task and no parallel region: it has one schedule"]
    kind = f"a legal run of {told['tasks']} tasks without a race" if told["tasks"] else \
        f"a legal run of {told['regions']} parallel regions, without a task and without a race" if told["regions"] else \
        f"a legal run of {finding.counts['simd']} simd loops, without a task and without a race"
    if what_is_unseen(finding):
        return lines + [f"a legal run of {told['tasks']} tasks; {AS_SEEN}"]
    sentence = FOR_EVERY
    if finding.counts.get("by_one_number"):
        lines, sentence = [*lines, MORE_THREADS], BY_ONE
    if pairs or what_is_alike(finding):
        sentence += ", as far as what is told above comes out alike in either order"
    return lines + [f"{kind}: {sentence}"]


def as_json(finding: Finding, status: int, lines: list[str]) -> Told:
    """The answer as one object: the status, the lines, and each report with its parts."""
    reports = []
    for report in gather(finding, finding.races):
        race = report.race
        reports.append({"count": report.count, "apart": race.is_apart, "who": who_words(finding, race),
                        "remedy": remedy(finding, race),
                        "steps": [side_json(finding, race, side) for side in (race.earlier, race.later)]})
    return {"status": status, "lines": lines, "tasks": finding.told["tasks"], "threads": finding.told["team"],
            "events": finding.told["events"], "races": reports}


def side_json(finding: Finding, race: Race, side: Side) -> Told:
    """One step of a race."""
    place = finding.sources.place(side.own)
    return {"file": place.file, "line": place.line, "column": place.column,
            "chain": [finding.line(place) for place in (side.place, *side.callers)], "does": side.done,
            "name": finding.name_of(side), "task": side.actor.name, "directive": finding.line(side.actor.place)}
