"""What the shell says of replies: errors, refusals and causes in words."""

import re
from collections.abc import Sequence

from shell import help_texts
from shell.console import counted
from shell.protocol import words_of
from shell.session import GREATEST_LIMIT, Session

ERRORS = {
    "line": "the line is too long, or isn't text",
    "word": "no such command; `help` lists them",
    "count": "too few words, or too many",
    "name": "a task is written 0.1, and a step 0.1#2",
    "number": "a number is missing, or out of its range",
}
AT_THE_GREATEST = ("the journal is full at the greatest limit: `save FILE` keeps the session, and `trim` starts anew with the steps "
                   "of the history alone, which gives room for what was taken back")
FULL = "the journal is full; `limit N` gives it more room"


def error_words(command: str, kind: str, workers: int, bodies: Sequence[str] = ()) -> str:
    """What an error says, and where the words are wrong how the command is written; a `go` has so many workers at most."""
    words = words_of(command)
    name = words[0] if words else ""
    if kind == "word" and words:
        return help_texts.meant(words, bodies)
    text = ERRORS.get(kind, kind)
    if name == "step" and kind == "name" and re.fullmatch(r"[1-9][0-9]*", words[1]):
        return f"{text}; `step 0 {words[1]}` takes {counted(int(words[1]), 'step')} of task 0"
    if name == "go" and kind == "number":
        return f"{text}: here W is 1 to {workers}, which `--workers` sets for the whole session, and N is 0 to 1000000"
    if kind != "count" or name not in help_texts.HELP:
        return text
    entry = help_texts.HELP[name]
    return f"{text}: {entry.usage}, for example: {entry.example}"


def needs_order(new: str, old: str) -> str | None:
    """What a new item makes of an earlier one: `after`, `apart`, or None where nothing follows."""
    (kind, cell), (other, name) = new.split(" "), old.split(" ")
    if cell != name and "all" not in (cell, name):
        return None
    if kind == other and kind in ("in", "inoutset"):
        return None
    return "apart" if kind == other == "mutexinoutset" else "after"


def matching_pairs(new_items: Sequence[str], old_items: Sequence[str], how: str | None = None) -> list[tuple[str, str]]:
    """The pairs of items of two siblings from which an order follows, or this one: `after` or `apart`."""
    return [(new, old) for new in new_items for old in old_items
            if needs_order(new, old) and how in (None, needs_order(new, old))]


def matching_items(new_items: Sequence[str], old_items: Sequence[str]) -> tuple[str, str] | None:
    """The first pair of items of two siblings from which an order follows."""
    return next(iter(matching_pairs(new_items, old_items)), None)


def full_words(session: Session) -> str:
    """What can be done where the journal is full."""
    return AT_THE_GREATEST if session.limit is not None and session.limit >= GREATEST_LIMIT else FULL


def no_such_step(words: Sequence[str], session: Session) -> str:
    """Why there is no such step to take back or to look at."""
    name, subject = words[0], words[1] if len(words) > 1 else ""
    if name == "rollprint":
        return "nothing was printed"
    if name == "rollcell":
        cells = session.source.cells
        if int(subject) >= cells:
            there = f"its cells are 0 to {cells - 1}" if cells > 1 else "it has cell 0 alone"
            return f"the program has no cell {subject}: {there}" if cells else "the program has no cells"
        return f"nothing was stored to cell {subject}"
    task = subject.partition("#")[0]
    if task not in session.positions.position:
        return f"task {task} hasn't been generated"
    if name == "rolltask":
        return f"task {task} hasn't started"
    return f"step {subject} isn't in the history"


def refusal_words(command: str, reply: str, session: Session) -> str:
    """A refusal in words, without the clauses."""
    words, parts = words_of(command), reply.split(" ")
    subject = words[1] if len(words) > 1 else ""
    name, other = parts[2], parts[3] if len(parts) > 3 else ""
    if name == "NoSuchStep":
        return no_such_step(words, session)
    return {
        "NoSuchTask": f"task {subject} hasn't been generated",
        "Ended": f"{subject} has ended",
        "Waiting": f"{subject} waits for {other}",
        "Excluded": f"{subject} can't start while {other} is under way",
        "Children": f"{subject} is at a taskwait, and its child {other} hasn't ended",
        "Group": f"{subject} is at the end of a taskgroup, and {other} hasn't ended",
        "Undeferred": f"{subject} waits for its undeferred child {other}",
        "Full": full_words(session),
        "Needed": f"{other} needs it; `roll {subject}` takes it back with all that need it",
        "NoSuchBody": "no body of the program has this name",
        "NoSuchCell": f"the program has no cell {words[-1]}",
        "TooMany": "64 breakpoints are there already",
        "NoSuchBreak": "no such breakpoint; `breaks` shows them, and `clear s1` takes away one that has an `s` in front of its number",
    }.get(name, name)


def cause_words(line: str, step: str, wait_line: int | None) -> str:
    """Why a step needs the one of this line, `KIND: LINE`; `wait_line` is the line of the step's own statement.

    What clauses say of two tasks isn't said here.
    """
    kind, did = line.split(": ", 1)
    task, other = step.split("#")[0], did.split("#")[0]
    return {
        "task": f"the step of {task} in front of it",
        "spawn": f"this generated {task}",
        "print": "prints have one order",
        "before": f"{task} depends on {other}",
        "apart": f"{task} and {other} exclude each other, and {other} was first",
        "wait": f"the taskwait at line {wait_line} waits for {other}",
        "group": f"the taskgroup that ends at line {wait_line} waits for {other}",
        "undeferred": f"{task} waits for its undeferred child {other}",
    }.get(kind) or f"both use {kind}, and this came first"
