"""Lanes as SVG: shapes, dashes and words besides colours, which all have enough contrast on white."""

from __future__ import annotations

from xml.sax.saxutils import escape, quoteattr

from shell.facts import Race, Step, Task
from shell.labels import Curve, Labels, Rect
from shell.lanes import UNLABELLED, Lanes, lives

ROW = 28
TOP = 76
LEFT = 24
LETTER = 7.3
LONGEST = 26
INK, RED = "#1b1b1b", "#b00020"
# Each kind of cause: its colour, its dashes, and what the legend says.
KINDS = {
    "spawn": ("#5c5c5c", "", "generates"),
    "cell": ("#0b5cad", "", "the same cell, and one stores"),
    "print": ("#7a2ea0", "", "prints in order"),
    "before": (INK, "", "comes before, by depend clauses"),
    "apart": ("#8a4b00", "7 4", "excludes"),
    "wait": ("#11693d", "", "is waited for by a taskwait"),
    "group": ("#11693d", "7 4", "is waited for by a taskgroup"),
    "undeferred": ("#5c5c5c", "2 4", "undeferred child of"),
}
# The bodies' colours, in the order in which they come; the page has these too.
BODIES = ("#0b5cad", "#a03a00", "#11693d", "#7a2ea0", "#8a5a00", "#00697a", "#a0226b", "#4d4d9e")
SHAPES = {"start": "M-5 -6 L7 0 L-5 6 Z", "end": "M-6 -6 H6 V6 H-6 Z", "fault": "M-6 -6 L6 6 M6 -6 L-6 6"}
ROUND = "M-5 0 A5 5 0 1 0 5 0 A5 5 0 1 0 -5 0 Z"
STYLE = ("text{font:12px ui-monospace,Menlo,Consolas,'DejaVu Sans Mono',monospace;fill:#1b1b1b}"
         ".name{font-weight:bold;font-size:14px}.on{paint-order:stroke;stroke:#fff;stroke-width:4px}.shaded{stroke:#ffe7a3}"
         "path{fill:none}")


def cut(text: str) -> str:
    """A label that isn't too long."""
    return text if len(text) <= LONGEST else text[:LONGEST - 1] + "…"


def colour_of(lanes: Lanes, task: Task) -> str:
    """The colour of a task's body."""
    return BODIES[lanes.bodies.index(task.body) % len(BODIES)]


class Drawing:
    """Where the steps of some lanes are, and what is drawn there."""

    def __init__(self, lanes: Lanes) -> None:
        self.lanes = lanes
        self.row = {step.name: at for at, step in enumerate(lanes.steps)}
        self.x: dict[str, int] = {}
        self.colour = {task.name: colour_of(lanes, task) for task in lanes.tasks}
        at = LEFT
        labels: dict[str, list[str]] = {}
        for step in lanes.steps:
            labels.setdefault(step.task, []).append(step.did)
        for task in lanes.tasks:
            self.x[task.name] = at
            longest = max([len(cut(text)) for text in labels.get(task.name, ())] + [len(task.body), len(task.name), 8])
            at += int(44 + LETTER * longest)
        self.width = max(at + 8, 420)
        self.bottom = TOP + ROW * len(lanes.steps)

    def place(self, name: str) -> tuple[int, int]:
        """Where a step is."""
        return self.x[name.split("#")[0]], TOP + ROW * self.row[name]

    def lane(self, task: Task, there: tuple[int, int]) -> list[str]:
        """A task's name, and its line from its generation to its end."""
        x, colour = self.x[task.name], self.colour[task.name]
        top, end = (TOP + ROW * at for at in there)
        return [f'<text class="name" x="{x - 8}" y="24">{escape(task.name)}</text>',
                f'<text x="{x - 8}" y="42">{escape(task.body)}</text>',
                f'<path stroke="{colour}" stroke-width="3" d="M{x - 8} 49 h60"/>',
                f'<path stroke="{colour}" stroke-width="1.5" stroke-opacity="0.6" d="M{x} {top} V{min(end, self.bottom)}"/>']

    def shade(self, step: Step) -> str:
        """The shade of a step that a rollback would take."""
        x, y = self.place(step.name)
        wide = int(30 + LETTER * len(cut(step.did)))
        return (f'<rect class="shade" data-step={quoteattr(step.name)} x="{x - 12}" y="{y - 12}" width="{wide}" height="24" rx="5" '
                'fill="#ffe7a3" stroke="#8a4b00" stroke-dasharray="3 2"/>')

    def step(self, step: Step) -> str:
        """A step's mark and label."""
        x, y = self.place(step.name)
        line = f", line {step.line}" if step.line else ""
        halo = "on shaded" if step.name in self.lanes.shaded else "on"
        colour = self.colour[step.task]
        fill = colour if step.word in ("store", "print", "start", "end") else "#fff"
        return (f'<g class="step" data-step={quoteattr(step.name)}><title>{escape(step.name + " " + step.did + line)}</title>'
                f'<path transform="translate({x} {y})" style="fill:{fill}" stroke="{colour}" stroke-width="1.6" '
                f'd="{SHAPES.get(step.word, ROUND)}"/>'
                f'<text class="{halo}" x="{x + 13}" y="{y + 4}">{escape(cut(step.did))}</text></g>')

    def words_at(self, step: Step) -> Rect:
        """Where a step's mark and words are."""
        x, y = self.place(step.name)
        return Rect(x - 8, y - 9, 22 + LETTER * len(cut(step.did)), 18)

    def curve(self, early: str, late: str, bow: int, text: str) -> Curve:
        """An arrow from one step to another."""
        (x, y), (to_x, to_y) = self.place(early), self.place(late)
        side = 1 if to_x > x else -1
        x, to_x = x + side * 7, to_x - side * 9
        lift = bow + (to_y - y) * 0.25
        return Curve(((x, y), (x + side * 30, y + lift), (to_x - side * 40, to_y - lift * 0.3), (to_x, to_y)), text)

    def arrows(self) -> list[str]:
        """The arrows for immediate needs, those of races, and the labels of both where these lie on nothing."""
        needs = [(early, late, kind, self.curve(early, late, 0, kind)) for early, late, kind in self.lanes.arrows()]
        raced = [(race, self.curve(race.first, race.second, -26, ("apart: " if race.apart else "race: ") + race.over)) for race in self.lanes.races or ()]
        parts = [self.arrow(early, late, kind, curve) for early, late, kind, curve in needs] + [self.race(race, curve) for race, curve in raced]
        if not self.lanes.is_labelled:
            return parts
        labels = Labels([curve for *_, curve in needs] + [curve for _, curve in raced], map(self.words_at, self.lanes.steps))
        for race, curve in raced:
            parts += self.label(labels.place(curve), curve.text, RED, " font-weight:bold;")
        for _, _, kind, curve in needs:
            if kind != "spawn":
                parts += self.label(labels.place(curve), kind, KINDS[kind.split(" ")[0]][0], "")
        return parts

    @staticmethod
    def label(rect: Rect | None, text: str, colour: str, more: str) -> list[str]:
        """A label at its place, if there is one."""
        return [] if rect is None else [f'<text class="on" x="{rect.x:.0f}" y="{rect.y + rect.high - 3:.0f}" style="fill:{colour};font-size:11px;{more}">{escape(text)}</text>']

    @staticmethod
    def arrow(early: str, late: str, kind: str, curve: Curve) -> str:
        """An arrow for an immediate need."""
        word = kind.split(" ")[0]
        colour, dashes, _ = KINDS[word]
        dashed = f' stroke-dasharray="{dashes}"' if dashes else ""
        return (f'<path class="cause" data-from={quoteattr(early)} data-to={quoteattr(late)} data-kind={quoteattr(kind)} '
                f'stroke="{colour}" stroke-width="1.8"{dashed} marker-end="url(#{word})" d="{curve.path}"/>')

    @staticmethod
    def race(race: Race, curve: Curve) -> str:
        """A race, in red and thick."""
        dashes = ' stroke-dasharray="9 5"' if race.apart else ""
        return (f'<path class="race" data-from={quoteattr(race.first)} data-to={quoteattr(race.second)} stroke="{RED}" '
                f'stroke-width="3"{dashes} d="{curve.path}"/>')

    def legend(self) -> tuple[list[str], int]:
        """What the arrows and the shade mean, a line each."""
        words = {kind.split(" ")[0] for _, _, kind in self.lanes.arrows()}
        rows, y = [], self.bottom + 18
        for word in (word for word in KINDS if word in words):
            colour, dashes, text = KINDS[word]
            dashed = f' stroke-dasharray="{dashes}"' if dashes else ""
            rows.append(f'<path stroke="{colour}" stroke-width="1.8"{dashed} marker-end="url(#{word})" d="M{LEFT} {y - 4} h26"/>'
                        f'<text x="{LEFT + 40}" y="{y}">{text}</text>')
            y += 18
        if self.lanes.races:
            rows.append(f'<path stroke="{RED}" stroke-width="3" d="M{LEFT} {y - 4} h26"/>'
                        f'<text x="{LEFT + 40}" y="{y}">nothing orders the two</text>')
            y += 18
        if self.lanes.chosen:
            rows.append(f'<rect x="{LEFT}" y="{y - 11}" width="26" height="14" rx="4" fill="#ffe7a3" stroke="#8a4b00" '
                        f'stroke-dasharray="3 2"/><text x="{LEFT + 40}" y="{y}">roll {escape(self.lanes.chosen)} '
                        f'would take these {len(self.lanes.shaded)}</text>')
            y += 18
        for text in self.lanes.remarks() + [UNLABELLED] * (not self.lanes.is_labelled and bool(words)):
            rows.append(f'<text x="{LEFT}" y="{y}">{escape(text)}</text>')
            y += 18
        return rows, y


def heads() -> str:
    """The arrowheads, one a kind."""
    return "".join(f'<marker id="{kind}" viewBox="0 0 8 8" refX="7" refY="4" markerWidth="6" markerHeight="6" orient="auto">'
                   f'<path d="M0 0 L8 4 L0 8 Z" style="fill:{colour}"/></marker>' for kind, (colour, _, _) in KINDS.items())


def svg_of(lanes: Lanes) -> str:
    """The whole picture."""
    drawing = Drawing(lanes)
    there = lives(lanes.steps, drawing.x)
    legend, height = drawing.legend()
    parts = [part for task in lanes.tasks for part in drawing.lane(task, there[task.name])]
    parts += [drawing.shade(step) for step in lanes.steps if step.name in lanes.shaded]
    parts += drawing.arrows()
    parts += [drawing.step(step) for step in lanes.steps]
    title = f"The steps of {lanes.title} by tasks, and what they need"
    return (f'<svg xmlns="http://www.w3.org/2000/svg" role="img" width="{drawing.width}" height="{height}" '
            f'viewBox="0 0 {drawing.width} {height}">\n<title>{escape(title)}</title>\n<style>{STYLE}</style>\n'
            f'<defs>{heads()}</defs>\n<rect width="100%" height="100%" fill="#fff"/>\n' + "\n".join(parts + legend) + "\n</svg>\n")
