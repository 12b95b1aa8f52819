"""One page for a session, with all that it needs in it: no network, no library."""

from __future__ import annotations

import json
import os
from collections.abc import Callable

from shell.facts import Progress
from shell.session import Session
from shell.story import Story

PARTS = os.path.join(os.path.dirname(os.path.abspath(__file__)), "page")
# The scripts of the page, in their order; they are one script.
SCRIPTS = ("state.js", "layout.js", "lanes.js", "tasks.js", "side.js", "page.js")


def part(name: str) -> str:
    """A part of the page."""
    with open(os.path.join(PARTS, name), encoding="utf-8") as file:
        return file.read()


def as_json(data: object) -> str:
    """Data as a script may have it: only `</` could end it."""
    return json.dumps(data, separators=(",", ":")).replace("</", "<\\/")


def filled(data: dict[str, object], live: str = "", connect: str = "", scripts: tuple[str, ...] = ("start.js",)) -> str:
    """The page of some data; `live` is what a page has more that is served, `connect` what it may ask, `scripts` how it starts."""
    # A page can't have bytes that are no text.
    title = str(data["title"]).replace("&", "&amp;").replace("<", "&lt;").encode("utf-8", "replace").decode("utf-8")
    page = part("page.html").replace("@title@", title)
    script = "".join(part(name) for name in SCRIPTS + scripts)
    for mark, text in (("@connect@", connect), ("@style@", part("page.css")), ("@live@", live), ("@data@", as_json(data)), ("@script@", script)):
        before, after = page.split(mark, 1)
        page = before + text + after
    return page


def page_of(session: Session, stop: Callable[[], bool] = lambda: False, progress: Progress = lambda *counts: None) -> tuple[str, int, int]:
    """The page of all that a session did, and how many commands and steps these were."""
    story = Story(session, stop, progress)
    return filled(story.data()), len(story.commands), len(story.steps)
