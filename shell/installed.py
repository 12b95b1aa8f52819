"""What is installed: the folder that all of it is in, its version, and the program that is run."""

import os

TOP = os.path.dirname(os.path.dirname(os.path.abspath(__file__)))
BUILT = os.path.join(TOP, "crates", "taskback", "out", "taskback")
UNPROVED = os.path.join(TOP, ".cache", "taskback")


def version() -> str:
    """The version, from the file VERSION; the tests compare with it the one that the program was compiled with."""
    with open(os.path.join(TOP, "VERSION"), encoding="ascii") as file:
        return file.read().strip()


def program_here() -> str:
    """The program that TASKBACK_PROGRAM names, else the proved one, else the unproved one that ./run has built."""
    there = [path for path in (BUILT, UNPROVED) if os.access(path, os.X_OK)]
    return os.environ.get("TASKBACK_PROGRAM") or (there or [BUILT])[0]
