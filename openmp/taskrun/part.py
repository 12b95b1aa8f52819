"""A part of a run: some tasks and what they need, where the whole doesn't fit into a program."""

import os
import tempfile

from .finding import CannotJudge, run_judge
from .places import Sources
from .session import MOST_STEPS, Session, TooLarge
from .trace import HEADER, Trace, count_events

MOST_EVENTS = 3 * MOST_STEPS    # some are no steps


def places_at(trace: str, file: str, line: int) -> list[int]:
    """The places of the trace that are on this line."""
    with open(trace, "rb") as text:
        program = text.readline().decode("utf-8", "surrogateescape").strip().removeprefix(HEADER.decode())
    places = run_judge(trace, "places")
    sources = Sources(program, places)
    found = [place for place in places if sources.place(place).line == line
             and (sources.place(place).file.endswith("/" + file) or sources.place(place).file == file)]
    if not found:
        why = sources.why_none
        raise CannotJudge(f"the run has no step at {file}:{line}" + (f": {why}" if why else ""))
    return found


def part_session(trace: str, words: list[str], told: str) -> Session:
    """The Session of a part, by the judge's words for it; `told` says which."""
    with tempfile.TemporaryDirectory() as folder:
        kept = os.path.join(folder, "trace")
        counts = run_judge(trace, "part", kept, *words)
        session = Session(Trace(kept))
    remark = f"a part of the run: {counts['kept']} of {counts['tasks']} tasks: {told}, and what these need"
    session.remark(remark + (f"; {counts['farther']} more of what they need are left out" if counts["farther"] else ""))
    return session


def session_of(trace: str, around: tuple[str, int] | None = None, tasks: tuple[str, ...] | None = None) -> Session:
    """The Session of a run or of a part; TooLarge where it has no room, with the part to take."""
    if around:
        file, line = around
        return part_session(trace, ["at", *map(str, places_at(trace, file, line))], f"those at {file}:{line}")
    if tasks:
        return part_session(trace, ["tasks", *tasks], f"{tasks[0]} to {tasks[1]}")
    events = count_events(trace)
    if events > MOST_EVENTS:
        raise TooLarge(f"the run has {events:,} events, and the notation has room for {MOST_STEPS:,} steps: {which_part(trace)}")
    session = Session(Trace(trace))
    try:
        session.text()
    except TooLarge as fault:
        raise TooLarge(f"{fault}: {which_part(trace)}") from fault
    return session


def which_part(trace: str) -> str:
    """The option that keeps what matters: the tasks of the first race, or some."""
    from .finding import judge_trace
    try:
        finding = judge_trace(trace)
    except CannotJudge:
        return "--tasks A..B keeps some"
    for race in finding.races:
        line = finding.line_of(race.later)
        if ":" in line:
            return f"--around {line} keeps the tasks of a race"
    return "--around FILE:LINE keeps the tasks of a line, --tasks 0.1..0.9 those of these names"
