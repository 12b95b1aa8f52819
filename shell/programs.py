"""The programs that ./run starts besides the shell: the page of a session, as a file or live, and pictures of its end."""

from __future__ import annotations

import signal
import sys
from collections.abc import Callable
from functools import partial

from shell.files import write_text
from shell.graph import dot_of, graph_of, write_graph
from shell.lanes import lanes_of, text_rows
from shell.lanes_pages import write_lanes
from shell.opening import play_file
from shell.page import page_of
from shell.protocol import is_digits
from shell.serving import Live, LiveServer

COLUMNS = 100
USAGES = {
    "--serve": "./run --serve FILE [PORT]                plays the commands of FILE, and says at which address its page is",
    "--page": "./run --page SESSION FILE                plays the session, and writes its page to FILE",
    "--graph": ("./run --graph SESSION [FILE]             plays the session and draws its tasks: FILE.dot as text, else by Graphviz\n"
                "                                         as FILE's ending says; without FILE, the dot language on standard output"),
    "--lanes": ("./run --lanes SESSION [T#K] [FILE]       plays the session, and draws its lanes as text, or to FILE as SVG;\n"
                "                                         what `roll T#K` would take is shaded"),
}


def wrong(name: str) -> int:
    """Says how a program is called; returns the status."""
    print(USAGES[name], file=sys.stderr)
    return 2


def serve(words: list[str]) -> int:
    """Serves a file as a live page until Ctrl-C; returns the status."""
    if not 1 <= len(words) <= 2 or (len(words) == 2 and not (is_digits(words[1]) and int(words[1]) < 65536)):
        return wrong("--serve")
    session = play_file(words[0])
    ended: list[int] = []
    for number in (signal.SIGINT, signal.SIGTERM):
        signal.signal(number, lambda number, frame: ended.append(number))
    try:
        server = LiveServer(Live(session), int(words[1]) if len(words) == 2 else 0)
    except OSError as fault:
        print(f"run: can't serve on port {words[1]}: {fault.strerror}", file=sys.stderr)
        return 2
    with server:
        print(f"{session.source.name} is at {server.address} ; Ctrl-C ends it", flush=True)
        server.serve_until(lambda: bool(ended))
    session.close()
    return 0


def page(words: list[str]) -> int:
    """Writes a session's page; returns the status."""
    if len(words) != 2:
        return wrong("--page")
    session = play_file(words[0])
    text, commands, steps = page_of(session)
    session.close()
    return written(words[1], lambda path: write_text(path, text), f"written to {words[1]}, {commands} commands and {steps} steps")


def graph(words: list[str]) -> int:
    """Draws a session's tasks; returns the status."""
    if not 1 <= len(words) <= 2:
        return wrong("--graph")
    session = play_file(words[0])
    drawn = graph_of(session)
    session.close()
    if len(words) == 1:
        sys.stdout.write(dot_of(drawn))
        return 0
    return written(words[1], lambda path: write_graph(path, drawn))


def lanes(words: list[str]) -> int:
    """Draws a session's lanes; returns the status."""
    chosen = next((word for word in words[1:] if "#" in word), None)
    files = [word for word in words[1:] if word != chosen]
    if not words or len(files) > 1:
        return wrong("--lanes")
    session = play_file(words[0])
    drawn = lanes_of(session, chosen)
    session.close()
    if drawn is None:
        print(f"run: step {chosen} isn't in the history", file=sys.stderr)
        return 2
    if files:
        return written(files[0], partial(write_lanes, lanes=drawn))
    print("\n".join(text_rows(drawn, COLUMNS)))
    return 0


def written(path: str, write: Callable[[str], str | None], words: str = "") -> int:
    """Writes a file, and says so by what `write` returns, or by these words; returns the status."""
    try:
        print(write(path) or words)
    except OSError as fault:
        print(f"run: can't write {path}: {fault.strerror}", file=sys.stderr)
        return 2
    return 0


PROGRAMS = {"--serve": serve, "--page": page, "--graph": graph, "--lanes": lanes}
