"""Starts the shell on a program file or a session file, at a terminal or on a list of commands."""

import argparse
import itertools
import os
import signal
import sys
from collections.abc import Callable
from types import FrameType

from shell.commands import Shell
from shell.console import Console, JsonConsole, counted
from shell.installed import program_here, version
from shell.opening import open_file
from shell.protocol import is_digits
from shell.script import INTERRUPTED, Script, lines_of
from shell.session import Session


def read_words(words: list[str]) -> argparse.Namespace:
    """The command line."""
    parser = argparse.ArgumentParser(prog="taskback-shell", description="A shell over Taskback's session commands.")
    parser.add_argument("file", help="a program, or a session, whose commands `source` plays")
    parser.add_argument("--program", default=program_here(), help="the program to run; TASKBACK_PROGRAM names one too")
    parser.add_argument("--version", action="version", version=f"taskback {version()}")
    parser.add_argument("--plain", action="store_true", help="the program's own lines, and nothing beside them")
    parser.add_argument("-x", "--script", help="plays the commands of a file (`-`: of standard input), and ends")
    parser.add_argument("--check", action="store_true", help="a script ends at the first refusal, with status 1")
    parser.add_argument("--json", action="store_true", help="a line of JSON for each reply (docs/replies.schema.json)")
    parser.add_argument("--limit", help="the most entries of the journal")
    parser.add_argument("--workers", help="passed to the program")
    return parser.parse_args(words)


def set_streams() -> None:
    """Bytes that are no text pass as they are, and only a line feed ends a line."""
    for stream, newline in ((sys.stdin, "\n"), (sys.stdout, None)):
        reconfigure = getattr(stream, "reconfigure", None)
        if reconfigure:
            reconfigure(encoding="utf-8", errors="surrogateescape", **({"newline": newline} if newline else {}))


def start_session(given: argparse.Namespace) -> tuple[Session, list[str]]:
    """The session of the given file, and its commands; ends with a status where it can't be."""
    options = [] if given.workers is None else ["--workers", given.workers]
    limit = int(given.limit) if given.limit and is_digits(given.limit) else None
    if given.limit is not None and limit is None:
        # The program says what is wrong with it.
        options += ["--limit", given.limit]
    return open_file(given.file, given.program, limit, options)


def set_history() -> Callable[[], None]:
    """History across runs, in ~/.taskback_history; returns what writes it."""
    # It changes how the keyboard is read, so it is imported where there is one.
    import readline
    path = os.path.expanduser("~/.taskback_history")
    readline.set_completer_delims(" \t")
    readline.set_history_length(1000)
    try:
        readline.read_history_file(path)
    except OSError:
        pass

    def write() -> None:
        try:
            readline.write_history_file(path)
        except OSError:
            pass
    return write


def catch_interrupts(shell: Shell) -> None:
    """Ctrl-C ends the command that is under way, and else empties the line."""
    def interrupt(number: int, frame: FrameType | None) -> None:
        if not shell.busy:
            raise KeyboardInterrupt
        shell.interrupt()
    signal.signal(signal.SIGINT, interrupt)


def talk(shell: Shell) -> None:
    """Takes lines until the end."""
    while True:
        try:
            shell.cmdloop()
            return
        except KeyboardInterrupt:
            shell.console.say("")


def console_of(given: argparse.Namespace, typed: bool) -> Console:
    """What is written to."""
    if given.json:
        return JsonConsole(sys.stdout)
    exact = given.plain or not sys.stdout.isatty()
    colours = sys.stdout.isatty() and not os.environ.get("NO_COLOR") and os.environ.get("TERM") != "dumb"
    return Console(sys.stdout, exact, colours and not exact, typed)


def play_script(given: argparse.Namespace, shell: Shell, commands: list[str]) -> int:
    """Plays the commands of a session file, and then those of a script; returns the status."""
    try:
        lines = itertools.chain(lines_of(given.file) if commands else (), lines_of(given.script))
    except OSError as fault:
        print(f"run: can't read {fault.filename}: {fault.strerror}", file=sys.stderr)
        return 2
    return Script(shell, given.check).play(lines)


def hold_talk(given: argparse.Namespace, shell: Shell) -> int:
    """Takes lines from the keyboard; returns the status."""
    write_history = set_history() if shell.console.typed else None
    if shell.console.typed and not given.plain:
        source = shell.session.source
        shell.console.say(f"{source.name}: {counted(len(source.lines), 'line')}, `list` shows them. `help` lists the commands, `quit` ends.")
        if shell.queue:
            shell.console.note(f"{counted(len(shell.queue), 'command')} come{'s' if len(shell.queue) == 1 else ''} with it: "
                               "`source` plays the next, Enter goes on")
    talk(shell)
    if write_history:
        write_history()
    return shell.status


def main(words: list[str]) -> int:
    """Runs the shell; returns its status."""
    given = read_words(words)
    typed = sys.stdin.isatty() and sys.stdout.isatty() and given.script is None and not given.json
    set_streams()
    session, commands = start_session(given)
    scripted = given.script is not None
    shell = Shell(session, console_of(given, typed), given.plain, () if scripted else commands)
    catch_interrupts(shell)
    status = 3
    try:
        status = play_script(given, shell, commands) if scripted else hold_talk(given, shell)
    except KeyboardInterrupt:
        # Between two commands of a script, or while it is read.
        status = INTERRUPTED
    except OSError as fault:
        # Nobody reads on, or nothing can be written: only the second is said.
        if not isinstance(fault, BrokenPipeError):
            print("taskback: write", file=sys.stderr)
        os.dup2(os.open(os.devnull, os.O_WRONLY), sys.stdout.fileno())
    session.close()
    return status
