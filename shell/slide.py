"""The history as one picture for a lecture: as wide and high as a screen on a wall, with letters that the last row reads.

A task is a bar, time goes to the right. What a task does for itself, `let` and `test`, has no place in it.
"""

from __future__ import annotations

import math
from collections import Counter
from collections.abc import Sequence
from xml.sax.saxutils import escape, quoteattr

from shell.console import counted
from shell.facts import Step
from shell.files import write_text
from shell.labels import Rect
from shell.lanes import Lanes, lives
from shell.lanes_svg import BODIES, INK, RED

WIDE, HIGH = 1600, 900
# Letters are at least a forty-fifth of the height; so wide is one of them.
LETTER, LETTER_WIDE = 20, 12.1
TOP, BOTTOM, MARGIN = 84, 110, 40
FOLDED = ("let", "test")
# A step that is narrower than this, in pixels, has no tick.
LEAST_WIDE = 0.15
# More arrows of a kind than these nobody could distinguish: every second is drawn, or every third, over the whole picture.
MOST_ARROWS = 120
LONGEST_NAME, LONGEST_WORDS = 14, 16
STYLE = (f"text{{font:{LETTER}px ui-monospace,Menlo,Consolas,'DejaVu Sans Mono',monospace;fill:{INK}}}.title{{font-size:30px;font-weight:bold}}"
         ".word{paint-order:stroke;stroke:#fff;stroke-width:5px;stroke-linejoin:round}.race{font-weight:bold}path{fill:none}")


def cut(text: str, most: int) -> str:
    """A text of so many letters at most."""
    return text if len(text) <= most else text[:most - 1] + "…"


def every(arrows: Sequence[object]) -> int:
    """Each how many-th arrow is drawn."""
    return max(1, -(-len(arrows) // MOST_ARROWS))


def drawn_of(arrows: Sequence[object]) -> str:
    """What the legend says of arrows that aren't all drawn."""
    return f" ({counted(len(arrows[::every(arrows)]), 'arrow')} of {len(arrows):,})" if every(arrows) > 1 else ""


class Slide:
    """Where the bars and steps are, and what is drawn there."""

    def __init__(self, lanes: Lanes) -> None:
        self.lanes = lanes
        self.steps = [step for step in lanes.steps if step.word not in FOLDED]
        self.column = {step.name: at for at, step in enumerate(self.steps)}
        bodies = list(dict.fromkeys(task.body for task in lanes.tasks))
        self.colour = {body: BODIES[at % len(BODIES)] for at, body in enumerate(bodies)}
        self.body = {task.name: task.body for task in lanes.tasks}
        self.high = min(72.0, (HIGH - TOP - BOTTOM) / max(1, len(lanes.tasks)))
        self.y = {task.name: TOP + self.high * (at + 0.5) for at, task in enumerate(lanes.tasks)}
        longest = max((len(f"{task.name} {task.body}") for task in lanes.tasks), default=0)
        self.left = MARGIN + LETTER_WIDE * min(LONGEST_NAME, longest) + 16
        self.wide = (WIDE - MARGIN - self.left) / max(1, len(self.steps))
        self.taken: list[Rect] = []

    def place(self, name: str) -> tuple[float, float]:
        """Where a step is."""
        return self.left + self.wide * (self.column[name] + 0.5), self.y[name.split("#")[0]]

    def bars(self) -> list[str]:
        """The names of tasks, of which as many as there is room for, and their bars: thin from their generation, thick where they step."""
        there = lives(self.steps, self.y)
        spans: dict[str, list[float]] = {}
        for step in self.steps:
            x = self.place(step.name)[0]
            spans.setdefault(step.task, [x, x])[1] = x
        every = math.ceil((LETTER + 2) / self.high)
        parts = []
        for at, task in enumerate(self.lanes.tasks):
            y, colour = self.y[task.name], self.colour[task.body]
            if at % every == 0:
                parts.append(f'<text class="name" x="{MARGIN}" y="{y + 7:.1f}">{escape(cut(f"{task.name} {task.body}", LONGEST_NAME))}</text>')
            first, last = (self.left + self.wide * moment for moment in there[task.name])
            parts.append(f'<path stroke="{colour}" stroke-opacity="0.5" stroke-width="1.5" d="M{first:.1f} {y:.1f} H{last:.1f}"/>')
            if task.name in spans:
                begin, end = spans[task.name]
                parts.append(f'<path class="bar" data-task={quoteattr(task.name)} stroke="{colour}" stroke-opacity="0.3" stroke-linecap="round" '
                             f'stroke-width="{self.thick:.1f}" d="M{begin:.1f} {y:.1f} H{end + 0.1:.1f}"/>')
        return parts

    @property
    def thick(self) -> float:
        """How thick a bar is."""
        return min(18.0, self.high * 0.6)

    def marks(self) -> list[str]:
        """The steps, each a tick; thick where something is stored or printed, and shaded where the rollback takes it.

        Of so many that a tick couldn't be seen there are bars alone, and one shade a pixel.
        """
        parts, shaded, half = [], set(), self.thick / 2
        for step in self.steps:
            x, y = self.place(step.name)
            pixel = (step.task, x if self.wide > 1 else int(x))
            if step.name in self.lanes.shaded and pixel not in shaded:
                shaded.add(pixel)
                wide = max(1.0, self.wide)
                parts.append(f'<rect class="shade" data-step={quoteattr(step.name)} x="{x - wide / 2:.1f}" y="{y - half - 3:.1f}" '
                             f'width="{wide:.1f}" height="{2 * half + 6:.1f}" fill="#ffd24a"/>')
            if self.wide < LEAST_WIDE:
                continue
            heavy = step.word in ("store", "print")
            width = min(self.wide * 0.7, 5 if heavy else 2)
            parts.append(f'<path class="step" stroke="{INK if heavy else self.colour[self.body[step.task]]}" stroke-width="{width:.1f}" '
                         f'd="M{x:.1f} {y - half:.1f} V{y + half:.1f}"><title>{escape(f"{step.name} {step.did}")}</title></path>')
        return parts

    def ordered(self) -> list[tuple[str, str]]:
        """The steps of which one comes before the other, by depend clauses or exclusion."""
        return [(early, late) for early, late, kind in self.lanes.arrows() if kind in ("before", "apart") and early in self.column and late in self.column]

    def arrows(self) -> list[str]:
        """What comes before what, and the races in red."""
        ordered, races = self.ordered(), self.lanes.races or []
        parts = []
        for early, late in ordered[::every(ordered)]:
            (x, y), (to_x, to_y) = self.place(early), self.place(late)
            # It never goes back, however close the two are.
            bend = min(30.0, (to_x - x) / 2)
            parts.append(f'<path class="before" stroke="{INK}" stroke-width="2" marker-end="url(#head)" '
                         f'd="M{x:.1f} {y:.1f} C{x + bend:.1f} {y:.1f} {to_x - bend:.1f} {to_y:.1f} {to_x - min(4, bend / 2):.1f} {to_y:.1f}"/>')
        for race in races[::every(races)]:
            (x, y), (to_x, to_y) = self.place(race.first), self.place(race.second)
            dashes = ' stroke-dasharray="9 5"' if race.apart else ""
            parts.append(f'<path class="race" data-from={quoteattr(race.first)} data-to={quoteattr(race.second)} stroke="{RED}" stroke-width="3"{dashes} '
                         f'd="M{x:.1f} {y:.1f} L{to_x:.1f} {to_y:.1f}"/>')
        return parts

    def words(self) -> list[str]:
        """What steps did, where that lies on no other words: first of those that race, then of what is printed and stored."""
        if self.high < LETTER + 14:
            return []
        raced = [name for race in self.lanes.races or () for name in (race.second, race.first)]
        heavy = [step.name for word in ("print", "store", "load") for step in self.steps if step.word == word]
        by_name = {step.name: step for step in self.steps}
        return [part for name in dict.fromkeys(raced + heavy) for part in self.word(by_name[name], name in raced)]

    def word(self, step: Step, races: bool) -> list[str]:
        """A step's words above its bar, where there is room."""
        x, y = self.place(step.name)
        did = cut(step.did, LONGEST_WORDS)
        wide = LETTER_WIDE * len(did)
        rect = Rect(min(x - wide / 2, WIDE - MARGIN - wide), y - self.thick / 2 - LETTER - 3, wide, LETTER + 2)
        if rect.x < self.left or any(rect.meets(other) for other in self.taken):
            return []
        self.taken.append(rect)
        style = f' style="fill:{RED}"' if races else ""
        return [f'<text class="word" data-step={quoteattr(step.name)} x="{rect.x:.0f}" y="{rect.y + LETTER - 2:.0f}"{style}>{escape(did)}</text>']

    def legend(self) -> list[str]:
        """The colours of the bodies, and what is red, shaded and an arrow."""
        parts, x = [], float(MARGIN)
        entries = [(f'stroke="{colour}" stroke-opacity="0.45" stroke-width="16"', body) for body, colour in self.colour.items()]
        ordered, races = self.ordered(), self.lanes.races
        if races:
            entries.append((f'stroke="{RED}" stroke-width="4"', "a race" + drawn_of(races)))
        if ordered:
            entries.append((f'stroke="{INK}" stroke-width="2"', "comes before" + drawn_of(ordered)))
        if self.lanes.chosen:
            entries.append(('stroke="#ffd24a" stroke-width="18"', f"roll {self.lanes.chosen} takes {len(self.lanes.shaded)}"))
        for look, text in entries:
            wide = 60 + LETTER_WIDE * len(text)
            if x + wide > WIDE - MARGIN:
                break
            parts.append(f'<path {look} d="M{x:.0f} {HIGH - 66} h30"/><text x="{x + 40:.0f}" y="{HIGH - 59}">{escape(text)}</text>')
            x += wide
        return parts + [f'<text class="race" x="{MARGIN}" y="{HIGH - 24}" style="fill:{RED}">{escape(text)}</text>' for text in self.races_in_words()]

    def races_in_words(self) -> list[str]:
        """The races by pairs of lines, as many as a line holds."""
        text = "✕ " + "; ".join(pairs_of(self.lanes))
        return [cut(text, int((WIDE - 2 * MARGIN) / LETTER_WIDE))] if self.lanes.races else []


def pairs_of(lanes: Lanes) -> list[str]:
    """Each pair of lines that races, with how often; of a recorded run, lines of the C file."""
    line = {step.name: (step.line or 0, lanes.recorded.get(step.name, str(step.line))) for step in lanes.steps}
    counts = Counter((tuple(dict.fromkeys(place for _, place in sorted((line[race.first], line[race.second])))), race.apart) for race in lanes.races or ())
    return [("" if lanes.recorded else "lines " if len(places) > 1 else "line ") + f"{' and '.join(places)}: {counted(count, 'race')}" + (", never at once" if apart else "")
            for (places, apart), count in counts.items()]


def slide_of(lanes: Lanes) -> str:
    """The whole picture."""
    slide = Slide(lanes)
    title = f"{lanes.title}: {counted(len(lanes.tasks), 'task')}, {counted(len(lanes.steps), 'step')}" + (f", {counted(len(lanes.races), 'race')}" if lanes.races else "")
    parts = slide.bars() + slide.marks() + slide.arrows() + slide.words() + slide.legend()
    return (f'<svg xmlns="http://www.w3.org/2000/svg" role="img" width="{WIDE}" height="{HIGH}" viewBox="0 0 {WIDE} {HIGH}">\n'
            f'<title>{escape(title)}</title>\n<style>{STYLE}</style>\n'
            '<defs><marker id="head" viewBox="0 0 8 8" refX="7" refY="4" markerWidth="6" markerHeight="6" orient="auto">'
            f'<path d="M0 0 L8 4 L0 8 Z" style="fill:{INK}"/></marker></defs>\n'
            f'<rect width="100%" height="100%" fill="#fff"/>\n<text class="title" x="{MARGIN}" y="48">{escape(cut(title, 80))}</text>\n'
            + "\n".join(parts) + "\n</svg>\n")


def write_slide(path: str, lanes: Lanes) -> str:
    """Writes the picture; returns what to say of it. Raises OSError."""
    write_text(path, slide_of(lanes))
    return f"drawn to {path}, {counted(len(lanes.steps), 'step')} of {counted(len(lanes.tasks), 'task')}"
