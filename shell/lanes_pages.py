"""Lanes of many tasks: pages of fifty, and an overview that leads to them."""

from __future__ import annotations

import os
from dataclasses import replace
from xml.sax.saxutils import escape, quoteattr

from shell.console import counted
from shell.files import write_text
from shell.lanes import Lanes, lives
from shell.lanes_svg import RED, colour_of, svg_of

MOST_LANES = 50
# Of the overview: a lane's width, its greatest height, and where it begins.
LANE, HEIGHT, TOP, LEFT = 5, 700, 70, 16


def parts_of(lanes: Lanes) -> list[Lanes]:
    """The lanes by fifties, each with the steps of its own tasks, and the arrows and races among them."""
    found = []
    for at in range(0, len(lanes.tasks), MOST_LANES):
        tasks = lanes.tasks[at:at + MOST_LANES]
        names = {task.name for task in tasks}
        steps = [step for step in lanes.steps if step.task in names]
        there = {step.name for step in steps}
        causes = None if lanes.causes is None else {
            late: [(kind, early) for kind, early in needed if early in there] for late, needed in lanes.causes.items() if late in there}
        races = None if lanes.races is None else [race for race in lanes.races if race.first in there and race.second in there]
        title = f"{lanes.title}, tasks {tasks[0].name} to {tasks[-1].name}"
        found.append(replace(lanes, title=title, tasks=tasks, steps=steps, causes=causes, races=races, shaded=lanes.shaded & there))
    return found


def overview_of(lanes: Lanes, files: list[str]) -> str:
    """All lanes, narrow and low: when each task was there, its steps, and the races; each page is a link."""
    count = len(lanes.steps)
    step_high = min(4.0, HEIGHT / max(1, count))
    row = {step.name: TOP + step_high * at for at, step in enumerate(lanes.steps)}
    x = {task.name: LEFT + LANE * at for at, task in enumerate(lanes.tasks)}
    there = lives(lanes.steps, x)
    wide, high = LEFT * 2 + LANE * len(lanes.tasks), TOP + step_high * count + 24
    parts = []
    for at, name in enumerate(files):
        tasks = lanes.tasks[at * MOST_LANES:(at + 1) * MOST_LANES]
        left, width = x[tasks[0].name] - 3, LANE * len(tasks) + 1
        parts.append(f'<a href={quoteattr(name)}><title>{escape(f"tasks {tasks[0].name} to {tasks[-1].name}")}</title>'
                     f'<rect class="page" x="{left}" y="{TOP - 22}" width="{width}" height="{high - TOP + 14:.0f}" '
                     f'fill="{"#f3f3f3" if at % 2 else "#ffffff"}" stroke="#767676"/>'
                     f'<text x="{left + 3}" y="{TOP - 9}">{escape(tasks[0].name)} ..</text></a>')
    for task in lanes.tasks:
        first, last = there[task.name]
        colour = colour_of(lanes, task)
        begin, end = (TOP + step_high * moment for moment in (first, min(last + 1, count)))
        parts.append(f'<path class="lane" data-task={quoteattr(task.name)} stroke="{colour}" d="M{x[task.name]} {begin:.1f} V{end:.1f}"/>')
    for step in lanes.steps:
        if step.word in ("store", "print"):
            parts.append(f'<path stroke="#1b1b1b" stroke-width="3" d="M{x[step.task] - 1} {row[step.name]:.1f} h3"/>')
    for race in lanes.races or ():
        (one, early), (two, late) = ((x[name.split("#")[0]], row[name]) for name in (race.first, race.second))
        parts.append(f'<path class="race" stroke="{RED}" stroke-width="1.5" d="M{one} {early:.1f} L{two} {late:.1f}"/>')
    heading = f"{counted(len(lanes.tasks), 'task')}, {counted(count, 'step')}, {counted(len(lanes.races or ()), 'race')} in red; each frame is a page of {MOST_LANES}"
    return (f'<svg xmlns="http://www.w3.org/2000/svg" role="img" width="{max(wide, 560)}" height="{high:.0f}" viewBox="0 0 {max(wide, 560)} {high:.0f}">\n'
            f'<title>{escape(f"The tasks of {lanes.title}")}</title>\n<style>text{{font:11px ui-monospace,monospace;fill:#1b1b1b}}path{{fill:none;stroke-width:2}}</style>\n'
            f'<rect width="100%" height="100%" fill="#fff"/>\n<text x="{LEFT}" y="20">{escape(heading)}</text>\n' + "\n".join(parts) + "\n</svg>\n")


def pages_of(path: str, lanes: Lanes) -> list[str]:
    """The files of the pages beside the overview; none where all lanes are in one picture."""
    base, ending = os.path.splitext(path)
    return [f"{base}-{number}{ending}" for number in range(1, -(-len(lanes.tasks) // MOST_LANES) + 1)] if len(lanes.tasks) > MOST_LANES else []


def write_lanes(path: str, lanes: Lanes) -> str:
    """Writes the picture, of many tasks as an overview and pages; returns what to say of it. Raises OSError."""
    steps, tasks = counted(len(lanes.steps), "step"), counted(len(lanes.tasks), "lane")
    if len(lanes.tasks) <= MOST_LANES:
        write_text(path, svg_of(lanes))
        return f"drawn to {path}, {steps} in {tasks}"
    files = pages_of(path, lanes)
    for name, part in zip(files, parts_of(lanes)):
        write_text(name, svg_of(part))
    write_text(path, overview_of(lanes, [os.path.basename(name) for name in files]))
    return f"drawn to {path}, {steps} in {tasks}: an overview of {files[0]} to {os.path.basename(files[-1])}, which have {MOST_LANES} lanes each"
