"""The commands that save and play sessions, and start them anew."""

from __future__ import annotations

from shell.console import counted
from shell.files import is_foreign, write_text
from shell.group import Group, Words
from shell.protocol import is_digits, words_of
from shell.session import GREATEST_LIMIT, LIMIT
from shell.source import read_text, split_session

WRITTEN: set[str] = set()


class Writing(Group):
    """What all commands have that write files."""

    def may_write(self, path: str, forced: bool) -> bool:
        """Whether a file may be written: one that the shell didn't write is replaced only where the user says so."""
        if forced or path in WRITTEN or not is_foreign(path):
            return True
        if self.console.ask(f"{path} is there already: replace it?"):
            return True
        self.refuse(f"{path} was not written" + ("" if self.console.typed else ": it is there already, and `-f` replaces it"))
        return False

    def write(self, path: str, text: str) -> bool:
        """Writes a file; returns whether it could."""
        try:
            write_text(path, text)
        except OSError as fault:
            self.refuse(f"can't write {path}: {fault.strerror}")
            return False
        WRITTEN.add(path)
        return True


def forced(words: Words) -> tuple[bool, list[str]]:
    """Whether `-f` is among the words, and the others."""
    return "-f" in words, [word for word in words if word != "-f"]


class Filing(Writing):
    """Commands about the session as a whole."""

    def do_save(self, words: Words) -> None:
        """Writes the session to a file."""
        force, names = forced(words)
        if len(names) != 1:
            self.fail("save wants a file: save race.session")
            return
        own = self.shell.stops.commands()
        if not self.may_write(names[0], force) or not self.write(names[0], self.session.text(own)):
            return
        self.say(f"saved {names[0]}, {counted(len(self.session.log), 'command')}" + (f" and {counted(len(own), 'breakpoint')}" if own else ""))
        if any(done.ended for done in self.session.log):
            self.note("what several workers did is saved as the steps that they executed")

    def do_restart(self, words: Words) -> None:
        """Starts anew."""
        count = self.session.restart() + len(self.shell.stops.there)
        self.shell.focus = "0"
        self.say("started anew" + (f", with {counted(count, 'breakpoint')}" if count else ""))

    def do_limit(self, words: Words) -> None:
        """A longer journal."""
        if len(words) != 1 or not is_digits(words[0]) or not 1 <= int(words[0]) <= GREATEST_LIMIT:
            self.fail("limit wants a number, 1 to 1000000: limit 200000")
        elif int(words[0]) == (self.session.limit or LIMIT):
            self.say(f"the journal has room for {int(words[0])} entries already")
        elif self.session.replay(int(words[0])):
            self.say(f"the journal has room for {int(words[0])} entries; all was done again")
        else:
            self.refuse(f"{words[0]} entries have no room for what was done; the limit stays")

    def do_source(self, words: Words) -> bool:
        """Plays commands from a file, or the next of the opened session."""
        if not words:
            if not self.shell.queue:
                self.refuse("no commands are left")
                return False
            ends = self.play(self.shell.queue.pop(0))
            # Enter plays the next one, also after a step.
            self.shell.last_step = "source"
            return ends
        try:
            text = read_text(words[0])
        except OSError as fault:
            self.refuse(f"can't read {words[0]}: {fault.strerror}")
            return False
        commands = split_session(text)[1]
        if commands is None:
            commands = [line for line in text.split("\n") if words_of(line)]
        for command in commands:
            if self.interrupted or self.play(command):
                return not self.interrupted
        return False

    def play(self, command: str) -> bool:
        """One command of a file, shown as it would be typed."""
        if words_of(command)[0] == "source":
            self.refuse("a played file plays no other")
            return False
        if not self.console.exact:
            self.say(self.console.dim("(taskback) ") + command)
        outer, self.shell.outcome = self.shell.outcome, type(self.shell.outcome).DONE
        try:
            return self.shell.carry_out(command)
        finally:
            self.shell.outcome = max(outer, self.shell.outcome)
