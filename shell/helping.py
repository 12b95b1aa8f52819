"""The commands about the shell itself."""

from __future__ import annotations

import shutil

from shell import help_texts
from shell.group import Group, Words


class Helping(Group):
    """Help, and the end."""

    def do_help(self, words: Words) -> None:
        """All commands, or one."""
        if not words:
            for line in help_texts.help_list(shutil.get_terminal_size().columns):
                self.say(line)
            return
        fitting = help_texts.expanded(words[0])
        if len(fitting) == 1:
            for line in help_texts.help_of(fitting[0]):
                self.say(line)
        elif fitting:
            self.fail("ambiguous: " + ", ".join(fitting))
        else:
            self.fail(f"no such command: {words[0]}{help_texts.instead(words[0])}")

    def do_quit(self, words: Words) -> bool:
        """Ends the shell."""
        return True
