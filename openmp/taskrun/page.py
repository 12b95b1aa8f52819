"""The answer as a page: each report with its source, both lines marked, and the tasks around the two."""

import html
import os
from collections.abc import Iterable, Mapping

from .advice import branch, common, remedy
from .answer import Report, gather, step_words, who_words
from .finding import Actor, Finding, Race

Point = tuple[int, int]
MOST_REPORTS = 50
AROUND = 4          # lines of source in front of and behind a marked one
WIDTH, HEIGHT, GAP = 190, 44, 26
HEAD = """<!DOCTYPE html>
<html lang="en"><head><meta charset="utf-8"><title>{title}</title><style>
body {{ font: 15px/1.45 system-ui, sans-serif; margin: 2em auto; max-width: 70em; padding: 0 1em; color: #1b1b1b; }}
pre {{ font: 13px/1.5 ui-monospace, monospace; background: #f6f6f4; padding: .6em 0; overflow-x: auto; }}
pre span {{ display: block; padding: 0 1em; white-space: pre; }}
pre .step {{ background: #f9d7d2; }} pre .directive {{ background: #e3e9f7; }}
section {{ border-top: 1px solid #ccc; margin-top: 2em; }} h2 {{ font-size: 1.05em; }}
svg text {{ font: 12px ui-monospace, monospace; }} figure {{ margin: 1em 0; overflow-x: auto; }}
</style></head><body>
"""


def page(finding: Finding, lines: Iterable[str]) -> str:
    """The whole page."""
    title = f"a run of {os.path.basename(finding.told['program'])}"
    parts = [HEAD.format(title=html.escape(title)), f"<h1>{html.escape(title)}</h1>"]
    reports = gather(finding, [race for race in finding.races if not race.is_apart])
    told = set()
    for report in reports[:MOST_REPORTS]:
        parts.append(section(finding, report))
        told.add(step_words(finding, report.race, report.race.earlier))
    rest = [line for line in lines if not any(line.startswith(words) for words in told)]
    parts[2:2] = [f"<p>{html.escape(line)}</p>" for line in rest]
    if len(reports) > MOST_REPORTS:
        parts.append(f"<p>and {len(reports) - MOST_REPORTS} more reports</p>")
    return "\n".join(parts) + "\n</body></html>\n"


def section(finding: Finding, report: Report) -> str:
    """One report."""
    race = report.race
    both = [step_words(finding, race, side) for side in (race.earlier, race.later)]
    times = f" ({report.count} times)" if report.count > 1 else ""
    return (f"<section><h2>{html.escape(both[0])}<br>{html.escape(both[1])}</h2>"
            f"<p>Nothing orders {html.escape(who_words(finding, race))}{times}: {html.escape(remedy(finding, race))}.</p>"
            + sources(finding, race) + f"<figure>{graph(finding, race)}</figure></section>")


# ---- the source

def sources(finding: Finding, race: Race) -> str:
    """The lines of the two steps and of their directives, with those around them, file by file."""
    marks: dict[str, dict[int, str]] = {}
    for side in (race.earlier, race.later):
        for place, mark in ((side.actor.place, "directive"), (side.own, "step")):
            found = finding.sources.place(place)
            if found.line:
                marks.setdefault(found.file, {})[found.line] = mark
    return "".join(excerpt(finding.sources.lines(file), os.path.basename(file), marks[file]) for file in sorted(marks))


def excerpt(text: list[str], name: str, marks: Mapping[int, str]) -> str:
    """The marked lines of one file and those around them."""
    near = sorted({line for mark in marks for line in range(mark - AROUND, mark + AROUND + 1) if 0 < line <= len(text)})
    if not near:
        return f"<p>{html.escape(name)} can't be read</p>"
    rows, before = [], near[0]
    for line in near:
        if line > before + 1:
            rows.append("<span>..</span>")
        rows.append(f"<span class=\"{marks.get(line, '')}\">{line:5}  {html.escape(text[line - 1])}</span>")
        before = line
    return f"<p>{html.escape(name)}</p><pre>{''.join(rows)}</pre>"


# ---- the tasks

def graph(finding: Finding, race: Race) -> str:
    """The tasks around the two: what made them, and those that depend clauses put in front of them or behind."""
    first, second = race.earlier.actor, race.later.actor
    meeting = common(first, second)
    ends = [branch(actor, meeting) if actor is not meeting else actor for actor in (first, second)]
    near = set(ends)
    for actor in finding.actors.values():
        if actor.parent is meeting and any(actor in end.waits or end in actor.waits for end in ends):
            near.add(actor)
    rows = [[meeting]]
    left = sorted(near - {meeting}, key=lambda actor: actor.number)
    placed = {meeting}
    while left:
        row = [actor for actor in left if not any(other in left for other in actor.waits)]
        rows.append(row or left)
        placed |= set(rows[-1])
        left = [actor for actor in left if actor not in placed]
    return draw(finding, rows, (first, second), ends)


def draw(finding: Finding, rows: list[list[Actor]], racing: tuple[Actor, Actor], ends: list[Actor]) -> str:
    """Rows of boxes; what made a task in grey, what a clause orders in black, what nothing orders in red."""
    at = {actor: (10 + column * (WIDTH + GAP), 10 + row * (HEIGHT + GAP * 2))
          for row, actors in enumerate(rows) for column, actor in enumerate(actors)}
    width = max(x for x, _ in at.values()) + WIDTH + 10
    height = max(y for _, y in at.values()) + HEIGHT + 10
    parts = [f'<svg viewBox="0 0 {width} {height}" width="{width}" height="{height}" role="img">']
    for actor in at:
        for other in actor.waits:
            if other in at:
                parts.append(line(at[other], at[actor], "#222"))
        if actor.parent and actor.parent in at:
            parts.append(line(at[actor.parent], at[actor], "#bbb"))
    if ends[0] is not ends[1]:
        parts.append(line(at[ends[0]], at[ends[1]], "#c0392b", "5 4"))
    for actor, (x, y) in at.items():
        is_end = actor in ends or actor in racing
        parts.append(f'<rect x="{x}" y="{y}" width="{WIDTH}" height="{HEIGHT}" rx="4" fill="{"#fdecea" if is_end else "#fff"}"'
                     f' stroke="{"#c0392b" if is_end else "#888"}"/>')
        for number, words in enumerate(box_words(finding, actor)):
            parts.append(f'<text x="{x + 8}" y="{y + 18 + 16 * number}">{html.escape(words)}</text>')
    return "".join(parts) + "</svg>"


def box_words(finding: Finding, actor: Actor) -> tuple[str, str]:
    """The name, and where the directive is."""
    what = "task" if actor.is_task else "share of" if actor.is_part else "the program"
    return f"{what} {actor.name}", finding.line(actor.place) if actor.place else ""


def line(start: Point, end: Point, color: str, dashes: str = "") -> str:
    """From one box to another."""
    down = end[1] > start[1]
    x1, y1 = start[0] + WIDTH / 2, start[1] + (HEIGHT if down else HEIGHT / 2)
    x2, y2 = end[0] + WIDTH / 2, end[1] + (0 if down else HEIGHT / 2)
    dash = f' stroke-dasharray="{dashes}"' if dashes else ""
    return f'<line x1="{x1}" y1="{y1}" x2="{x2}" y2="{y2}" stroke="{color}" stroke-width="1.5"{dash}/>'
