"""The commands that take steps back, and take them again."""

from __future__ import annotations

from collections.abc import Sequence

from shell.console import counted
from shell.group import Group, Words, count_in
from shell.protocol import is_digits
from shell.retaking import Came, needed_of, retaken
from shell.session import LIMIT
from shell.stops import Where, program_stops

SHOWN_NEEDERS = 8


class Backwards(Group):
    """Commands that take steps back."""

    def undo_newest(self) -> bool:
        """Takes the newest step back; returns whether it could."""
        newest = self.session.newest
        if newest is None:
            self.refuse("the history has no step")
            return False
        return self.shell.send(f"undo {newest}")[0].startswith("undone")

    def do_back(self, words: Words) -> None:
        """Undoes the newest steps."""
        count = count_in(words, 0, 1)
        if count is None:
            self.wrong("back")
            return
        self.shell.last_step = " ".join(["back", *words])
        undone = 0
        while undone < count and not self.interrupted and self.undo_newest():
            undone += 1
        self.session.merge_taken_back(undone)

    def do_rc(self, words: Words) -> None:
        """Takes the newest steps back, up to the breakpoint before."""
        if words:
            self.wrong("rc")
            return
        self.shell.last_step = "rc"
        stops = self.shell.stops
        stops.refresh(self.session)
        own = program_stops(self.session.view("breaks")[1:])
        undone = 0
        met: list[str] = []
        while not met and self.session.newest is not None and not self.interrupted:
            line = self.session.line_of(self.session.newest)
            if not self.undo_newest():
                break
            undone += 1
            met = stops.changed(line, self.session) + self.met_now(own)
        self.session.merge_taken_back(undone)
        self.say(f"went back {undone} {'break' if met else 'start' if self.session.newest is None else 'stopped'}")
        for text in met:
            self.note(f"breakpoint {text}")

    def met_now(self, own: Sequence[tuple[str, Where]]) -> list[str]:
        """The breakpoints that the newest step of the history meets; watched values aren't among them."""
        if self.session.newest is None:
            return []
        line = self.session.line_of(self.session.newest)
        found = [f"{number}: {where}" for number, where in own if where.meets(line, self.session.positions)]
        return found + self.shell.stops.at_step(line, self.session)

    def do_rs(self, words: Words) -> None:
        """The newest step of a task back, with those that need it."""
        forced = "-f" in words
        names = [word for word in words if word != "-f"]
        if len(names) != 1:
            self.wrong("rs")
            return
        self.shell.last_step = " ".join(["rs", *words])
        task = self.session.view(f"task {names[0]}")
        if not task[0].startswith("task "):
            self.shell.show(task)
            self.shell.explain(f"task {names[0]}", task[0])
            return
        count = int(next(line for line in task if line.startswith("steps ")).split(" ")[1])
        if not count:
            self.refuse(f"task {names[0]} has executed no step")
            return
        step = f"{names[0]}#{count}"
        needers = self.session.view(f"who {step}")[1:]
        if not needers:
            self.shell.send(f"undo {step}")
        elif self.agreed(step, needers, forced):
            self.shell.send(f"roll {step}")

    def agreed(self, step: str, needers: Sequence[str], forced: bool) -> bool:
        """Shows what a rollback takes along, and asks."""
        if forced:
            return True
        self.say(f"{counted(len(needers), 'step')} need{'s' if len(needers) == 1 else ''} {step}, and would go with it:")
        self.shell.show(needers[:SHOWN_NEEDERS])
        if len(needers) > SHOWN_NEEDERS:
            self.say(f"... {len(needers) - SHOWN_NEEDERS} more")
        if self.console.ask(f"roll {step}?"):
            return True
        self.refuse("nothing was taken back" + ("" if self.console.typed else f"; `rs -f {step.split('#')[0]}` doesn't ask"))
        return False

    def do_redo(self, words: Words) -> None:
        """Takes again what was taken back last, whole, or a step of it with what it needs."""
        if len(words) > 1 or (words and not is_step_name(words[0])):
            self.wrong("redo")
            return
        groups = self.session.still_taken_back()
        at = next((place for place in range(len(groups) - 1, -1, -1)
                   if not words or any(line.split(" ")[0] == words[0] for line in groups[place])), None)
        if at is None:
            if not words:
                self.refuse("nothing was taken back that isn't there again")
            else:
                self.refuse(words[0] + (" is in the history" if words[0] in self.session.history else " wasn't taken back"))
            return
        try:
            lines = needed_of(self.session, groups[at], words[0]) if words else groups[at]
            fits = retaken(self.session, lines)
        except Came as between:
            self.refuse(str(between))
            return
        if not fits:
            self.shell.show(["refused 7 Full"])
            self.shell.explain(f"step {lines[0].split('#')[0]}", "refused 7 Full")
            return
        self.shell.show(lines)
        self.say(f"redone {len(lines)}")

    def do_keep(self, words: Words) -> None:
        """Takes back all that a step doesn't need."""
        if len(words) != 1:
            self.wrong("keep")
            return
        reply = self.session.view(f"why {words[0]}")
        if not reply[0].startswith("why "):
            self.shell.show(reply)
            self.shell.explain(f"why {words[0]}", reply[0])
            return
        wanted = {line.split(" ")[0] for line in reply[1:]} | {words[0]}
        rolls = taken = 0
        while not self.interrupted:
            oldest = next((name for name in self.session.history if name not in wanted), None)
            if oldest is None:
                break
            rolled = self.shell.send(f"roll {oldest}")
            if not rolled[0].startswith("rolled "):
                break
            rolls, taken = rolls + 1, taken + len(rolled) - 1
        self.session.merge_taken_back(rolls)
        self.say(f"kept {words[0]} with {counted(len(self.session.history) - 1, 'step')}; {taken} taken back")

    def do_trim(self, words: Words) -> None:
        """Starts anew with the steps of the history alone."""
        count = count_in(words, 0, 0)
        if count is None or count > len(self.session.history):
            self.wrong("trim")
            return
        session = self.session
        lines = [session.line_of(name) for name in session.history]
        wanted = lines[:len(lines) - count]
        session.restart()
        session.retake(wanted)
        self.say(f"started anew with {counted(len(wanted), 'step')}: the journal has room for "
                 f"{(session.limit or LIMIT) - 1 - len(wanted)} more")


def is_step_name(word: str) -> bool:
    """Whether a word is written as a step."""
    task, sign, number = word.partition("#")
    return bool(sign) and all(map(is_digits, task.split("."))) and is_digits(number) and not number.startswith("0")
