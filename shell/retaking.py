"""Steps that were taken back, and are to be executed again: which of them one needs, and what came between.

All is tried in a second program first, so that a refusal changes nothing.
"""

from collections.abc import Sequence

from shell.session import Session


class Came(Exception):
    """A step that came between, so that what was taken back can't be executed again as it was."""


def copy_of(session: Session, lines: Sequence[str] | None = None) -> Session:
    """A second session with these steps, or with those of the history."""
    second = session.another()
    wanted = [session.line_of(name) for name in session.history] if lines is None else lines
    second.retake(wanted)
    return second


def blame(second: Session, line: str) -> str:
    """Which step keeps another from being what it was."""
    name, did = line.split(" ", 1)
    task, number = name.split("#")
    if name in second.history:
        return f"{name} was executed again otherwise: {second.history[name]}"
    reply = second.view(f"task {task}")
    if not reply[0].startswith("task "):
        return f"task {task} isn't generated now"
    have = next(int(row.split(" ")[1]) for row in reply if row.startswith("steps "))
    if have != int(number) - 1:
        return f"{task} has executed {have} steps, and not {int(number) - 1}"
    words = did.split(" ")
    if words[0] in ("load", "store"):
        stores = [other for other, what in second.history.items() if what.startswith(f"store {words[-2]} ")]
        if stores:
            return f"{stores[-1]} {second.history[stores[-1]]} came between"
    answer = second.do(f"step {task}")[0]
    if answer.startswith("refused "):
        other = answer.split(" ")[3] if answer.count(" ") > 2 else ""
        newest = next((step for step in reversed(second.history) if step.split("#")[0] == other), other)
        return f"{newest} came between: {answer}"
    return f"{answer} would be executed, and not {line}"


def try_again(second: Session, lines: Sequence[str]) -> None:
    """Takes the steps in a second session; raises Came at the first that isn't what it was."""
    for line in lines:
        task = line.split("#")[0]
        before = len(second.history)
        reply = second.do(f"step {task}")
        if reply == [line]:
            continue
        if len(second.history) > before and second.newest is not None:
            second.do(f"undo {second.newest}")
        raise Came(f"{line.split(' ')[0]} can't be executed again as it was: {blame(second, line)}")


def retaken(session: Session, lines: Sequence[str]) -> bool:
    """Executes the steps again; raises Came where that can't be, and returns false where the journal has too few slots: then nothing changes."""
    second = copy_of(session)
    try:
        try_again(second, lines)
    finally:
        second.close()
    if len(lines) > session.capacity:
        return False
    return session.retake(lines) == len(lines)


def needed_of(session: Session, lines: Sequence[str], step: str) -> list[str]:
    """Of steps that were taken back, those that one of them needs, and itself; raises Came where it can't be executed again.

    They are tried one by one in a second session, and those that aren't what they were are left out; what the step
    needs there is what it needs here.
    """
    second, done = copy_of(session), []
    try:
        for line in lines:
            name = line.split(" ")[0]
            try:
                try_again(second, [line])
                done.append(line)
            except Came:
                if name == step:
                    raise
            if name == step:
                break
        wanted = {line.split(" ")[0] for line in second.view(f"why {step}")[1:]} | {step}
    finally:
        second.close()
    return [line for line in done if line.split(" ")[0] in wanted]
