"""The commands that set two runs side by side: another session's, or the other outcome of a race."""

from __future__ import annotations

from collections.abc import Callable, Sequence
from itertools import zip_longest
from typing import NamedTuple

from shell.console import counted
from shell.facts import MOST_ASKED, Causes, Facts, Race, race_of
from shell.group import Group, Words, count_in
from shell.protocol import Ended, Refused
from shell.retaking import copy_of
from shell.session import GREATEST_LIMIT, Session, is_step
from shell.source import Source, read_text, split_session

COLUMN = 36
MOST_STEPS = 200000
SHOWN = 40


class Found(NamedTuple):
    """The first difference of two runs: a step of the one, with what it needs, and what the other has in its place."""

    step: str
    here: str
    there: str


def played(path: str, session: Session) -> Session:
    """The session of a file, with all its commands carried out; raises OSError, Refused or Ended."""
    text, commands = split_session(read_text(path))
    other = Session(session.path, Source(text, path), GREATEST_LIMIT, session.options)
    for command in commands or ():
        other.do(command)
    return other


def needs_of(session: Session, asks: bool) -> dict[str, Causes]:
    """The needs of all steps: the immediate ones, or of long histories the direct ones that their lines show."""
    facts = Facts(session)
    steps = facts.steps()
    return (facts.all_causes(steps) if asks else facts.worked_out(steps)) or {}


def first_difference(one: Session, two: Session) -> Found | None:
    """The first step of the one that the other hasn't, or has with other needs; None where both did the same.

    Runs with the same steps and the same immediate needs differ in the order of independent steps alone.
    """
    asks = max(len(one.history), len(two.history)) <= MOST_ASKED
    here, there = needs_of(one, asks), needs_of(two, asks)
    for name, did in one.history.items():
        if two.history.get(name) != did or sorted(here.get(name, ())) != sorted(there.get(name, ())):
            return Found(name, did, two.history.get(name, "not executed"))
    extra = next((name for name in two.history if name not in one.history), None)
    return None if extra is None else Found(extra, "not executed", two.history[extra])


def flip(other: Session, race: Race, stop: Callable[[], bool]) -> str | None:
    """Brings the later step of a race to the front in a session, and returns why it couldn't, if so.

    The earlier step is taken back with all that needs it; where its task excludes the other's, its whole task is.
    Then its task executes no step until the later one was executed.
    """
    early, late = race.first.split("#")[0], race.second.split("#")[0]
    other.do(f"rolltask {early}" if race.apart else f"roll {race.first}")
    for _ in range(MOST_STEPS):
        if race.second in other.history:
            return None
        if stop():
            return "stopped; the session is as it was"
        ready = [task for task in other.view("ready")[1:] if task != early]
        if not ready:
            return f"{race.second} can't come in front of {race.first}: it waits for {early}"
        other.do(f"step {late if late in ready else ready[0]}")
    return f"{race.second} wasn't reached"


def to_the_end(session: Session) -> bool:
    """Runs to the end; returns whether it came."""
    return session.do(f"run {MOST_STEPS}")[-1].endswith(" done")


def side_by_side(left: Sequence[str], right: Sequence[str]) -> list[str]:
    """Two lists as two columns."""
    return [f"  {one:<{COLUMN}}{two}".rstrip() for one, two in zip_longest(left, right, fillvalue="")]


class Comparing(Group):
    """Commands that set two runs side by side."""

    def do_compare(self, words: Words) -> None:
        """Whether another session did the same."""
        if len(words) != 1:
            self.wrong("compare")
            return
        try:
            other = played(words[0], self.session)
        except OSError as fault:
            self.refuse(f"can't read {words[0]}: {fault.strerror}")
            return
        except (Refused, Ended) as fault:
            self.refuse(f"{words[0]}: {fault}")
            return
        try:
            self.report(words[0], other)
        finally:
            other.close()

    def report(self, path: str, other: Session) -> None:
        """What differs from another session."""
        if other.source.text != self.session.source.text:
            self.say(f"{path} has another program")
        found = first_difference(self.session, other)
        count = len(self.session.history)
        if found is None:
            same = list(self.session.history) == list(other.history)
            self.say(f"equal: {counted(count, 'step')}" + ("" if same else ", but for the order of independent steps"))
            return
        self.say(f"different at {found.step}")
        self.say(f"  here:  {found.here}")
        self.say(f"  there: {found.there}")
        for name, session in (("here", self.session), ("there", other)):
            if found.step in session.history:
                needs = [line for line in session.view(f"causes {found.step}")[1:] if not line.startswith("task: ")]
                self.note(f"{name} it needs " + ("; ".join(needs) if needs else "no step of another task"))

    def do_flip(self, words: Words) -> None:
        """Both outcomes of a race."""
        number = count_in(words, 0, 1)
        races = [race_of(line) for line in self.session.view("races")[1:] if is_step(line)]
        if number is None:
            self.wrong("flip")
        elif not races:
            self.refuse("the run has no race so far")
        elif not 1 <= number <= len(races):
            self.refuse(f"the run has {counted(len(races), 'race')}: `flip 1`" + (f" to `flip {len(races)}`" if len(races) > 1 else ""))
        else:
            self.show_both(races[number - 1])

    def show_both(self, race: Race) -> None:
        """Runs both orders to their ends in two other programs, and shows what differs."""
        first, second = copy_of(self.session), copy_of(self.session)
        try:
            why = flip(second, race, lambda: self.interrupted)
            if why is not None:
                self.refuse(why)
                return
            ends = [to_the_end(first), to_the_end(second)]
            for name in (race.first, race.second):
                self.shell.show_line(self.session.line_of(name))
            heads = [f"{race.first} first", f"{race.second} first"]
            self.say(side_by_side([heads[0]], [heads[1]])[0])
            for row in self.rows(first, second, race):
                self.say(row)
            if self.session.source.is_recorded:
                self.note("a recorded run stores the numbers that it had: what its program computes from what is read otherwise isn't known here")
            if not all(ends):
                self.note(f"a run that hadn't ended after {MOST_STEPS:,} steps was left there")
        finally:
            first.close()
            second.close()

    def rows(self, first: Session, second: Session, race: Race) -> list[str]:
        """What the racing steps read, the cells and the output, where they differ, side by side."""
        cells = [dict(line.split(" ") for line in session.view("cells")[1:]) for session in (first, second)]
        differing = sorted((cell for cell in cells[0].keys() | cells[1].keys() if cells[0].get(cell, "0") != cells[1].get(cell, "0")), key=int)
        outs = [session.view("out")[1:] for session in (first, second)]
        raced = [name for name in (race.first, race.second) if first.history.get(name) != second.history.get(name)]
        columns = [[f"{name} {session.history.get(name, 'is not executed')}" for name in raced] for session in (first, second)]
        for column, there in zip(columns, cells):
            column += [f"cell {cell}: {there.get(cell, '0')}" for cell in differing]
        if outs[0] != outs[1]:
            for column, out in zip(columns, outs):
                column.append("out: " + (" ".join(out[:SHOWN]) if out else "nothing"))
        lengths = [len(session.history) for session in (first, second)]
        if lengths[0] != lengths[1]:
            for column, length in zip(columns, lengths):
                column.append(counted(length, "step"))
        return side_by_side(*columns) if columns[0] else ["  both leave the same cells and output"]
