"""What would order two steps that race: a clause or a directive, in the words of the source."""

import re

from .finding import Actor, Finding, Race, Side
from .places import postfix_expressions
from .scopes import scope_name

OUT, INOUT = 2, 3
TASK_CLAUSES = re.compile(r"#\s*pragma\s+omp\s+task\b")


def branch(actor: Actor, ancestor: Actor) -> Actor:
    """The child of the ancestor that the actor is or comes from."""
    while actor.parent and actor.parent is not ancestor:
        actor = actor.parent
    return actor


def common(first: Actor, second: Actor) -> Actor:
    """The innermost actor that both are or come from."""
    while first.parent and not second.is_under(first):
        first = first.parent
    return first


def remedy(finding: Finding, race: Race) -> str:
    """What would order the two."""
    first, second = race.earlier.actor, race.later.actor
    if race.is_of_lanes:
        return "leave simd out, make it private or a reduction, or say safelen(N) where N iterations apart is safe"
    if race.is_copied or (first is second and first.is_part):
        return shared_words(first)
    meeting = common(first, second)
    if meeting is second:
        return wait_words(finding, race.later, first, second)
    if meeting is first:
        return wait_words(finding, race.earlier, second, first)
    one, other = branch(first, meeting), branch(second, meeting)
    if not (one.is_task and other.is_task) or both_order(race):
        return "keep the two apart by a critical section or an atomic operation, or add a barrier between them"
    earlier, behind = (one, other) if one.number < other.number else (other, one)
    wait = f"a taskwait in front of {finding.line(behind.place)}"
    if one is first and other is second:
        words = depend_words(finding, race)
        if words:
            return f"{words}, or {wait}" if finding.line(one.place) != finding.line(other.place) else words
        return f"add {wait}"
    return (f"add a taskgroup around the task at {finding.line(earlier.place)}: "
            "a depend clause orders children of one task alone")


def both_order(race: Race) -> bool:
    """Whether clauses of both would order the two if one thread surely made both tasks."""
    return race.earlier.actor is not race.later.actor and all(
        any(begin <= race.address < begin + max(length, 1) and bits in (OUT, INOUT) for begin, length, bits in side.actor.items)
        for side in (race.earlier, race.later))


def wait_words(finding: Finding, side: Side, task: Actor, maker: Actor) -> str:
    """Of a task and what made it: a wait in front of the maker's step."""
    child = branch(task, maker)
    where = f"the end of the function at {finding.line_of(side)}" if side.is_frame else finding.line_of(side)
    if child is not task:
        return (f"add a taskwait in front of {where}, and one at the end of the task at {finding.line(child.place)}, or a "
                "taskgroup around both")
    return f"add a taskwait in front of {where}"


def shared_words(part: Actor) -> str:
    """Of what a team's threads do: they are kept apart, or each has a variable of its own."""
    del part
    return ("make it private, keep it apart by a critical section or an atomic operation, or let one thread do it "
            "(single or masked)")


# ---- depend clauses

def depend_words(finding: Finding, race: Race) -> str | None:
    """`add depend(inout: total)`; where one of the two names the place in a clause already, what the other lacks; None
    where the directives take no such clause, or both name it."""
    sides = (race.earlier, race.later)
    directives = [finding.sources.directive(side.actor.place) for side in sides]
    if not all(TASK_CLAUSES.search(text) for text in directives):
        return None
    places = [finding.line(side.actor.place) for side in sides]
    kinds = [kind_of(finding, side) for side in sides]
    known = [item_name(finding, side, race.address) for side in sides]
    for one, other in ((0, 1), (1, 0)):
        name = known[one]
        if name and not known[other] and places[0] != places[1]:
            return (f"add depend({kinds[other]}: {own_name(finding, sides[other], name)}) to the task at "
                    f"{places[other]} (so the one at {places[one]} names that place)")
    if known[0] and known[1]:
        return type_words(places, known)
    names = [scope_name(finding, side) for side in sides]
    name = names[0] or names[1]
    if not name:
        return None
    if places[0] == places[1]:
        return f"add depend(inout: {name})"
    if kinds[0] == kinds[1]:
        return f"add depend(inout: {name}) to both"
    return f"add depend({kinds[0]}: {name}) at {places[0]} and depend({kinds[1]}: {name}) at {places[1]}"


def type_words(places: list[str], known: list[str | None]) -> str:
    """Both name the place: the one that writes has to say so."""
    where = places[0] if places[0] == places[1] else f"{places[0]} and {places[1]}"
    return f"say depend(inout: {known[0]}) where it is written, at {where}"


def item_name(finding: Finding, side: Side, address: int) -> str | None:
    """The name of the depend item of the side's task that covers the address, or None."""
    names = finding.sources.items(side.actor.place)
    for number, (begin, length, _) in enumerate(side.actor.items):
        if begin <= address < begin + max(length, 1) and len(names) == len(side.actor.items):
            return names[number]
    return None


def own_name(finding: Finding, side: Side, other_name: str) -> str:
    """What the side's task calls the place that another one's clause names so: of the expressions in its own lines with
    that variable and as many indexes, the one that no clause of it has; else the other one's words."""
    variable = re.match(r"\w+", other_name)
    if not variable:
        return other_name
    body = finding.sources.statement(side.actor.place)
    own = set(finding.sources.items(side.actor.place))
    found = [name for name in dict.fromkeys(postfix_expressions(body, variable[0]))
             if name.count("[") == other_name.count("[") and name not in own]
    return found[0] if len(found) == 1 else other_name


def kind_of(finding: Finding, side: Side) -> str:
    """The depend type for what the side's task does there, as far as the races show."""
    writes = any(other.done != "reads" and other.actor is side.actor and other.address == side.address
                 for race in finding.races for other in (race.earlier, race.later))
    return "inout" if writes or side.done != "reads" else "in"
