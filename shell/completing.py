"""What can follow a command, for the Tab key."""

from __future__ import annotations

import os
from collections.abc import Iterable

from shell import help_texts
from shell.breaking import SETTINGS
from shell.group import Host
from shell.protocol import words_of
from shell.viewing import VIEWS

TAKES_TASK = ("step", "finish", "task", "deps", "rolltask", "list", "rs")
TAKES_STEP = ("undo", "roll", "why", "who", "until", "causes", "lanes", "slide", "keep", "at")
TAKES_FILE = ("save", "source", "page", "graph", "lanes", "slide", "compare")
MOST_CELLS = 100


def files_beginning(text: str) -> list[str]:
    """The names of files that begin so, a folder with a slash at its end."""
    folder, begin = os.path.split(text)
    try:
        with os.scandir(os.path.expanduser(folder) or ".") as entries:
            found = [os.path.join(folder, entry.name) + ("/" if entry.is_dir() else "") for entry in entries
                     if entry.name.startswith(begin) and (begin or not entry.name.startswith("."))]
    except OSError:
        return []
    return sorted(found)


class Completing:
    """Finds the words that fit where the cursor is."""

    def __init__(self, shell: Host) -> None:
        self.shell = shell

    def words(self, text: str, before: str) -> list[str]:
        """The words that begin with a text, after these ones."""
        words = words_of(before)
        fitting = help_texts.expanded(words[0]) if words else []
        name = fitting[0] if len(fitting) == 1 else ""
        if name == "info":
            words = words[1:]
            name = words[0] if words else "info"
        found = [word for word in self.following(name, words) if word.startswith(text)]
        return found + (files_beginning(text) if name in TAKES_FILE else [])

    def tasks(self) -> list[str]:
        """The tasks that are there."""
        return [reply.split(" ")[0] for reply in self.shell.session.view("tasks")[1:]]

    def following(self, name: str, words: list[str]) -> Iterable[str]:
        """The words that can follow these."""
        session = self.shell.session
        if name == "info":
            return VIEWS
        if name == "set":
            return SETTINGS if len(words) == 1 else ("on", "off")
        if name == "go" and len(words) == 1:
            return [str(number) for number in range(1, session.workers + 1)]
        if name == "break":
            return self.after_break(words)
        if name == "rollcell":
            return self.cells()
        if name in TAKES_TASK:
            return self.tasks()
        if name == "redo":
            return [line.split(" ")[0] for lines in session.taken_back for line in lines]
        if name in TAKES_STEP:
            return list(session.history) + (["now"] if name == "at" else [])
        if name == "clear":
            return ["line"] + [f"s{number}" for number in self.shell.stops.there] + [line.split(" ")[0] for line in session.view("breaks")[1:]]
        return ()

    def cells(self) -> list[str]:
        """The cells, of many the first ones."""
        return [str(number) for number in range(min(self.shell.session.source.cells, MOST_CELLS))]

    def after_break(self, words: list[str]) -> Iterable[str]:
        """What follows `break`."""
        if len(words) == 1:
            return help_texts.KINDS
        if len(words) == 2:
            by_kind = {"body": lambda: sorted(self.shell.session.source.bodies), "cell": self.cells, "task": self.tasks}
            return by_kind.get(words[1], lambda: [])()
        return ("if",)
