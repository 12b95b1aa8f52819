"""Where the recorder stands, and which version it is."""

import os

TOP = os.path.dirname(os.path.dirname(os.path.dirname(os.path.realpath(__file__))))


def version() -> str:
    """The version, from the file VERSION."""
    with open(os.path.join(TOP, "VERSION"), encoding="ascii") as file:
        return file.read().strip()


def told_version(words: list[str]) -> bool:
    """Whether the version alone was asked for, which is then written."""
    if words != ["--version"]:
        return False
    print(f"taskback {version()}")
    return True
