"""Plays a session through the proved program, whose answer is compared with the judge's."""

import os
import re
import subprocess
import tempfile

TOP = os.path.dirname(os.path.dirname(os.path.dirname(os.path.abspath(__file__))))
PLACES = (os.path.join("crates", "taskback", "out", "taskback"), os.path.join(".cache", "taskback"))


class CannotPlay(Exception):
    """No program, or one that doesn't do its part: nothing was found out."""


def program_words():
    """The words that call the program: TASKBACK_PROGRAM (a path, or a command with its words), else the proved one,
    else the unproved one."""
    named = os.environ.get("TASKBACK_PROGRAM")
    if named:
        return [named] if os.path.exists(named) else named.split()
    for place in PLACES:
        path = os.path.join(TOP, place)
        if os.access(path, os.X_OK):
            return [path]
    raise CannotPlay("no program is built; ./run builds one, or TASKBACK_PROGRAM names one")


class Replies:
    """What the program said: a line for each step, and the races, or None where it doesn't know that word."""

    def __init__(self, lines, steps):
        if len(lines) < steps:
            raise CannotPlay(f"the program answered {len(lines)} of {steps} steps")
        self.steps = lines[:steps]
        self.races = races_of(lines[steps:])

    def refused(self):
        """The number of the first step that was refused, or None."""
        for number, line in enumerate(self.steps):
            if line.startswith(("refused ", "error ")):
                return number
        return None


def races_of(lines):
    """The lines of a reply to `races`, None where it was `error word`."""
    if lines[:1] == ["error word"]:
        return None
    counted = re.fullmatch(r"races (\d+)", lines[0]) if lines else None
    if not counted or len(lines) != 1 + int(counted[1]):
        raise CannotPlay(f"the program answered `races` with {lines[:1]}")
    return lines[1:]


def play(text, steps):
    """The replies to the session's steps and to `races`."""
    words = program_words()
    with tempfile.TemporaryFile() as asked:
        asked.write((text + "races\n").encode())
        asked.seek(0)
        try:
            done = subprocess.run([*words, "--limit", str(max(steps + 1, 1000))], stdin=asked, capture_output=True,
                                  check=False)
        except OSError as fault:
            raise CannotPlay(f"can't start {words[0]}: {fault.strerror}") from fault
    if done.returncode != 0:
        said = done.stderr.decode("utf-8", "replace").strip().splitlines()
        raise CannotPlay(f"the program ended with status {done.returncode}: {said[-1] if said else 'nothing said'}")
    return Replies(done.stdout.decode().splitlines(), steps)
