"""The commands that draw: the graph of the tasks, the lanes of the history, and the page."""

from __future__ import annotations

import shutil
from collections.abc import Callable, Sequence
from functools import partial
from typing import TypeVar

from shell.console import counted
from shell.facts import Stopped
from shell.filing import WRITTEN, Writing, forced
from shell.graph import graph_of, tree_of, write_graph, written_to
from shell.group import Words, count_in
from shell.lanes import lanes_of, text_rows
from shell.lanes_pages import pages_of, write_lanes
from shell.page import page_of
from shell.protocol import Cut
from shell.slide import write_slide

Drawn = TypeVar("Drawn")


class Drawing(Writing):
    """Commands that draw; Ctrl-C stops them."""

    def drawn(self, make: Callable[..., Drawn], *words: object) -> Drawn | None:
        """What is to be drawn; None where Ctrl-C came first."""
        try:
            return make(self.session, *words, stop=lambda: self.interrupted, progress=self.console.progress)
        except (Cut, Stopped):
            if self.session.program.is_cut:
                raise
            self.console.end_progress()
            self.note(f"stopped by {self.console.stopper}; nothing is drawn")
            return None

    def do_graph(self, words: Words) -> None:
        """The tasks as a graph, as text or to a file."""
        force, names = forced(words)
        if len(names) > 1:
            self.wrong("graph")
            return
        if names and not self.may_write(written_to(names[0]), force):
            return
        graph = self.drawn(graph_of)
        if graph is None:
            return
        if not names:
            for line in tree_of(graph):
                self.say(line)
            return
        self.put(names[0], partial(write_graph, stop=lambda: self.interrupted), graph, [written_to(names[0])])

    def do_lanes(self, words: Words) -> None:
        """The history in lanes, as text or to a file."""
        force, names = forced(words)
        chosen = next((word for word in names if "#" in word), None)
        files = [word for word in names if word != chosen]
        if len(files) > 1:
            self.wrong("lanes")
        elif chosen and chosen not in self.session.history:
            self.refuse(f"step {chosen} isn't in the history")
        elif not files or self.may_write(files[0], force):
            self.draw_lanes(chosen, files[0] if files else None, force)

    def do_slide(self, words: Words) -> None:
        """The history as one picture for a lecture."""
        force, names = forced(words)
        chosen = next((word for word in names if "#" in word), None)
        files = [word for word in names if word != chosen]
        if len(files) != 1:
            self.wrong("slide")
        elif chosen and chosen not in self.session.history:
            self.refuse(f"step {chosen} isn't in the history")
        elif self.may_write(files[0], force):
            lanes = self.drawn(lanes_of, chosen)
            if lanes is not None:
                self.put(files[0], write_slide, lanes)

    def put(self, path: str, write: Callable[[str, Drawn], str], what: Drawn, more: Sequence[str] = ()) -> None:
        """Writes a picture, and says so; `more` are files that are written besides."""
        try:
            self.say(write(path, what))
            WRITTEN.update((path, *more))
        except Stopped:
            self.note(f"stopped by {self.console.stopper}; nothing is drawn")
        except OSError as fault:
            self.refuse(f"can't write {path}: {fault.strerror}")

    def draw_lanes(self, chosen: str | None, path: str | None, force: bool) -> None:
        """Draws the lanes, as text where there is no file; none is drawn where one of their pages may not be written."""
        lanes = self.drawn(lanes_of, chosen)
        if lanes is None:
            return
        if path is not None:
            pages = pages_of(path, lanes)
            if all(self.may_write(page, force) for page in pages):
                self.put(path, write_lanes, lanes, pages)
            return
        width = shutil.get_terminal_size((100, 24)).columns
        for row in text_rows(lanes, width, self.console.shaded):
            self.say(row)

    def do_serve(self, words: Words) -> None:
        """All that was done, as a live page, until Ctrl-C."""
        # The live page has a shell of its own, and so the module of this one.
        from shell.serving import Live, LiveServer
        port = count_in(words, 0, 0)
        if port is None or port > 65535:
            self.wrong("serve")
            return
        try:
            server = LiveServer(Live(self.session), port)
        except OSError as fault:
            self.refuse(f"can't serve on port {port}: {fault.strerror}")
            return
        with server:
            self.say(f"the page is at {server.address} ; {self.console.stopper} ends it")
            self.console.announce()
            server.serve_until(lambda: self.interrupted)

    def do_page(self, words: Words) -> None:
        """All that was done, as one page."""
        force, names = forced(words)
        if len(names) != 1:
            self.wrong("page")
            return
        if not self.may_write(names[0], force):
            return
        drawn = self.drawn(page_of)
        if drawn is None:
            return
        page, commands, steps = drawn
        if self.write(names[0], page):
            self.say(f"written to {names[0]}, {counted(commands, 'command')} and {counted(steps, 'step')}")
