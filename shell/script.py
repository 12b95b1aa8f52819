"""Plays a list of commands, and says by a status how that went."""

import os
import select
import sys
from collections.abc import Iterable, Iterator
from typing import TextIO

from shell.commands import Shell
from shell.console import Outcome
from shell.protocol import words_of
from shell.source import BYTE_ORDER_MARK, numbered_commands, read_text

# As shells have it for what Ctrl-C has ended.
INTERRUPTED = 130
# Whoever is waited for so long, in seconds, has perhaps left a pipe open by mistake.
PATIENCE = 5

# The number of a command's line, and the command.
Line = tuple[int, str]


def lines_of(path: str) -> Iterator[tuple[str, str]]:
    """The commands of a file with their places, as `a.script:3`; of a session, those after its `---`. Those of standard input, `-`, as they come."""
    lines: Iterable[Line]
    if path == "-":
        lines = piped(sys.stdin) if sys.stdin else ()
    else:
        lines = lines_in(read_text(path))
    name = os.path.basename(path)
    return ((f"{name}:{number}", command) for number, command in lines)


def lines_in(text: str) -> list[Line]:
    """The commands of a text with their lines."""
    session = numbered_commands(text)
    if session is not None:
        return session[1]
    return [(number, line) for number, line in enumerate(text.split("\n"), 1) if words_of(line)]


def piped(stream: TextIO) -> Iterator[Line]:
    """Commands as they are piped in. A session that is piped in is read to its end: its commands come after its program."""
    if not select.select([stream], [], [], PATIENCE)[0]:
        print("run: commands are awaited from standard input; with `< /dev/null` there are none", file=sys.stderr)
    head = ""
    for line in stream:
        head += line
        words = words_of(line.removeprefix(BYTE_ORDER_MARK).rstrip("\n"))
        if words:
            break
    else:
        return
    if words[0] == "body" or (words[0] == "cells" and len(words) > 1):
        yield from lines_in((head + stream.read()).removeprefix(BYTE_ORDER_MARK))
        return
    first = head.count("\n", 0, -1) + 1
    yield first, line.rstrip("\n").removeprefix(BYTE_ORDER_MARK)
    for number, line in enumerate(stream, first + 1):
        if words_of(line.rstrip("\n")):
            yield number, line.rstrip("\n")


class Script:
    """Plays commands; `checks` ends it at the first that can't be carried out."""

    def __init__(self, shell: Shell, checks: bool) -> None:
        self.shell = shell
        self.checks = checks

    def play(self, lines: Iterable[tuple[str, str]]) -> int:
        """Plays all commands, each with its place; returns the status."""
        for place, command in lines:
            ends = self.shell.take(command)
            if self.shell.status:
                return self.shell.status
            if self.checks and self.shell.outcome is not Outcome.DONE:
                return self.stop(place, command)
            if ends or self.shell.interrupted:
                break
        return INTERRUPTED if self.shell.interrupted else 0

    def stop(self, place: str, command: str) -> int:
        """Says at which line the script was ended, and why; returns the status."""
        console = self.shell.console
        reason = console.last_words or self.shell.outcome.name.lower()
        console.begin("", paged=False)
        console.say(f"{place}: {' '.join(words_of(command))}: {reason}")
        console.finish(self.shell.outcome)
        return int(self.shell.outcome)
