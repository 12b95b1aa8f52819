"""A past state, looked at in a second program: nothing is taken back for it."""

from __future__ import annotations

from shell.console import counted
from shell.group import Group, Words
from shell.protocol import is_digits
from shell.retaking import copy_of
from shell.session import Session

# As many steps back are undone one by one; for more the second program starts anew.
FEW = 2000


def prefix_of(session: Session, count: int) -> list[str]:
    """The oldest steps of the history."""
    return [session.line_of(name) for name in list(session.history)[:count]]


def move(past: Session, present: Session, count: int) -> None:
    """Brings a past state to so many of the oldest steps of the history."""
    there = len(past.history)
    if count < there - FEW or past.capacity < FEW:
        past.start()
        there = 0
    wanted = prefix_of(present, count)
    for line in reversed(list(past.history)[count:]):
        past.do(f"undo {line}")
    past.retake(wanted[min(there, count):])


class Looking(Group):
    """The command that looks at past states."""

    def do_at(self, words: Words) -> None:
        """A past state, after a step or after so many; or the present."""
        if len(words) != 1:
            self.wrong("at")
        elif words[0] == "now":
            self.come_back()
        elif "#" in words[0]:
            names = list(self.shell.present.history)
            if words[0] in names:
                self.look(names.index(words[0]) + 1)
            else:
                self.refuse(f"step {words[0]} isn't in the history")
        elif is_digits(words[0]):
            self.look(int(words[0]))
        else:
            self.wrong("at")

    def look(self, count: int) -> None:
        """Looks at the state after so many steps."""
        present = self.shell.present
        steps = len(present.history)
        if count > steps:
            self.refuse(f"the history has {counted(steps, 'step')}")
            return
        if self.shell.past is None:
            self.shell.past = copy_of(present, prefix_of(present, count))
        else:
            move(self.shell.past, present, count)
        self.say(f"at {count} of {counted(steps, 'step')}")
        newest = self.shell.past.newest
        if newest is not None:
            self.shell.show_line(self.shell.past.line_of(newest))
        self.note("views, `print`, `list`, `graph` and `lanes` show this state; `at now` comes back")

    def come_back(self) -> None:
        """Looks at the present."""
        if self.shell.past is not None:
            self.shell.past.close()
            self.shell.past = None
        self.say(f"at {len(self.shell.present.history)}, now")
