"""Opens a program file or a session file, or says on standard error why it can't be, and ends with that status."""

import os
import sys
from collections.abc import Sequence

from shell import faults
from shell.installed import program_here
from shell.protocol import Ended, Refused
from shell.session import Session
from shell.source import Source, read_text, split_session


def open_file(path: str, program: str, limit: int | None = None, options: Sequence[str] = ()) -> tuple[Session, list[str]]:
    """The session of a file with nothing done yet, and the commands that the file has."""
    try:
        text, commands = split_session(read_text(path))
    except OSError as fault:
        print(f"run: can't read {path}: {fault.strerror}", file=sys.stderr)
        sys.exit(2)
    try:
        return Session(program, Source(text, path), limit, options), commands or []
    except Refused as refused:
        for line in faults.fault_lines(os.path.basename(path), text, refused.line, refused.kind):
            print(line, file=sys.stderr)
        sys.exit(1)
    except Ended as ended:
        print(ended, file=sys.stderr)
        sys.exit(ended.status or 3)


def play_file(path: str, program: str | None = None) -> Session:
    """The session of a file whose commands have been carried out."""
    session, commands = open_file(path, program or program_here())
    for command in commands:
        session.do(command)
    return session
