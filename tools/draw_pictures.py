"""Draws the pictures of the README and the tutorial from the program's own replies.

    python3 -m tools.draw_pictures [FOLDER]     draws to FOLDER (none: docs/pictures)

TASKBACK_PROGRAM names the program; without it, it is the proved one, else the unproved one of ./run. The shell's tests draw them too, and compare.
"""
import os
import sys

from shell.installed import TOP, program_here
from shell.lanes import lanes_of
from shell.lanes_svg import svg_of
from shell.session import Session
from shell.source import Source, split_session

# Each picture: its session, how many of its commands are carried out first, and the step whose rollback is shaded.
PICTURES: dict[str, tuple[int, str | None]] = {
    "right_sum": (1, "0.1#4"), "order": (5, None), "exclusion": (8, "0.2#1"),
    "waits": (16, None), "unrelated": (1, "0.1#1"), "needs": (6, "0.1#2"),
}


def picture(name: str, program: str) -> str:
    """The lanes of a session after some of its commands."""
    count, chosen = PICTURES[name]
    with open(os.path.join(TOP, "examples", name + ".session"), encoding="utf-8") as file:
        text, commands = split_session(file.read())
    session = Session(program, Source(text, name + ".session"))
    try:
        for command in (commands or ())[:count]:
            session.do(command)
        lanes = lanes_of(session, chosen)
        assert lanes is not None, f"{name}: {chosen} isn't in the history"
        return svg_of(lanes)
    finally:
        session.close()


def main(words: list[str]) -> int:
    """Draws all of them; returns the status."""
    if len(words) > 1:
        print(__doc__, file=sys.stderr)
        return 2
    folder = words[0] if words else os.path.join(TOP, "docs", "pictures")
    os.makedirs(folder, exist_ok=True)
    for name in PICTURES:
        with open(os.path.join(folder, name + ".svg"), "w", encoding="utf-8") as file:
            file.write(picture(name, program_here()))
    return 0


if __name__ == "__main__":
    sys.exit(main(sys.argv[1:]))
