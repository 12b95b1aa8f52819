"""Lanes against the program's own replies, on random sessions."""

import os
import random
import unittest
import unittest.mock
import xml.etree.ElementTree as tree
from typing import Any

from programs import random_program
from support import EXAMPLES, PROGRAM, Terminal, contrast, example, needs_program, write_file
from shell import facts, lanes, lanes_svg
from shell.labels import Curve, Labels, Rect
from shell.lanes import NO_CAUSES, NO_RACES, lanes_of, text_rows
from shell.lanes_pages import parts_of, write_lanes
from shell.lanes_svg import svg_of
from shell.session import Session
from shell.source import Source
from test_races import has_views

SVG = "{http://www.w3.org/2000/svg}"


def walked(test: unittest.TestCase, seed: int, steps: int = 40) -> tuple[Session, random.Random]:
    """A session of a random program, after random steps and some rollbacks."""
    session = Session(PROGRAM, Source(random_program(seed), f"random{seed}.task"))
    test.addCleanup(session.close)
    choice = random.Random(seed)
    for _ in range(steps):
        ready = session.view("ready")[1:]
        stand = session.view("hist")[1:]
        if ready and choice.random() < 0.95:
            session.do("step " + choice.choice(ready))
        elif stand:
            session.do("roll " + choice.choice(stand).split(" ")[0])
    return session, choice


def drawn(svg: Any, name: str, *keys: str) -> list[tuple[str | None, ...]]:
    """The attributes of each path or group of this class."""
    root = tree.fromstring(svg)
    return [tuple(found.get(f"data-{key}") for key in keys) for found in root.iter() if found.get("class") == name]


@needs_program
class LanesTest(unittest.TestCase):
    def test_arrows_are_the_causes_and_the_shade_is_the_rollback(self) -> None:
        views = has_views(self)
        kinds = set()
        for seed in range(25):
            session, choice = walked(self, seed)
            steps = [line.split(" ")[0] for line in session.view("hist")[1:]]
            if not steps:
                continue
            chosen = choice.choice(steps)
            svg = svg_of(lanes_of(session, chosen))
            self.assertEqual([name for name, in drawn(svg, "step", "step")], steps)
            wanted = {chosen} | {line.split(" ")[0] for line in session.view("who " + chosen)[1:]}
            self.assertEqual({name for name, in drawn(svg, "shade", "step")}, wanted)
            self.assertEqual(len(session.do("roll " + chosen)) - 1, len(wanted))
            if not views:
                self.assertIn(NO_CAUSES, svg)
                self.assertIn(NO_RACES, svg)
                continue
            svg = svg_of(lanes_of(session))
            arrows = []
            for line in session.view("hist")[1:]:
                for cause in session.view("causes " + line.split(" ")[0])[1:]:
                    kind, early = cause.split("#")[0].split(": ")[0], cause.split(": ", 1)[1].split(" ")[0]
                    if kind != "task":
                        arrows.append((early, line.split(" ")[0], kind))
                        kinds.add(kind.split(" ")[0])
            self.assertEqual(drawn(svg, "cause", "from", "to", "kind"), arrows)
            races = [tuple(line.split(" ")[:2]) for line in session.view("races")[1:]]
            self.assertEqual(drawn(svg, "race", "from", "to"), races)
        if views:
            self.assertTrue(kinds >= {"spawn", "cell", "print", "before"}, kinds)

    def test_text_fits_the_screen_and_has_each_step(self) -> None:
        for seed in range(8):
            session, _ = walked(self, seed)
            picture = lanes_of(session)
            for width in (40, 80, 160):
                rows = text_rows(picture, width)
                self.assertTrue(all(len(row) <= width for row in rows))
                self.assertGreaterEqual(len(rows), len(picture.steps) + 2)

    def test_a_step_that_does_not_stand(self) -> None:
        session, _ = walked(self, 3)
        self.assertIsNone(lanes_of(session, "0.9.9#9"))

    def test_contrast(self) -> None:
        for colour in [lanes_svg.INK, lanes_svg.RED] + [colour for colour, _, _ in lanes_svg.KINDS.values()]:
            for ground in ("#ffffff", "#ffe7a3"):
                self.assertGreaterEqual(contrast(colour, ground), 4.5, (colour, ground))

    def test_commands(self) -> None:
        shell = Terminal(self, [os.path.join(EXAMPLES, "race.task")], NO_COLOR="1")
        shell.read_until("(taskback) ")
        shell.ask("run")
        shown = shell.ask("lanes 0.1#4")
        self.assertEqual(shown[0].split(), ["0", "0.1", "0.2"])
        self.assertEqual(len([line for line in shown if line.startswith("* ")]), 10)
        path = write_file(self, "", "a.svg")
        self.assertEqual(shell.ask(f"lanes 0.1#4 {path}"), [f"drawn to {path}, 17 steps in 3 lanes"])
        with open(path, encoding="utf-8") as file:
            self.assertEqual(len(drawn(file.read(), "shade", "step")), 10)
        self.assertEqual(shell.ask("lanes 0#99"), ["step 0#99 isn't in the history"])
        self.assertEqual(shell.ask("lanes a b"), ["lanes [-f] [T#K] [FILE], for example: lanes 0.1#4"])
        self.assertEqual(shell.ask("lanes /no/file"), ["can't write /no/file: No such file or directory"])

    def test_labels_lie_on_nothing(self) -> None:
        placed = 0
        for seed in range(25):
            session, _ = walked(self, seed)
            drawing = lanes_svg.Drawing(lanes_of(session))
            curves = [drawing.curve(early, late, 0, kind) for early, late, kind in drawing.lanes.arrows()]
            words = [drawing.words_at(step) for step in drawing.lanes.steps]
            labels = Labels(curves, words)
            found = [rect for curve in curves if (rect := labels.place(curve))]
            points = [curve.at(at / 300) for curve in curves for at in range(301)]
            for at, rect in enumerate(found):
                self.assertFalse(any(rect.meets(other) for other in words + found[:at]))
                inner = Rect(rect.x + 3, rect.y + 2, rect.wide - 6, rect.high - 4)
                self.assertFalse(any(inner.meets(Rect(*point, 0, 0)) for point in points))
            placed += len(found)
        self.assertGreater(placed, 30)

    def test_lines_that_come_into_a_rectangle(self) -> None:
        rect = Rect(10, 10, 20, 5)
        for line, wanted in ((((0, 0), (40, 100)), False), (((0, 0), (40, 20)), True), (((12, 12), (13, 13)), True), (((0, 12), (9, 12)), False),
                             (((0, 12), (100000, 12)), True), (((25, -90000), (25, 90000)), True), (((31, -90000), (31, 90000)), False), (((5, 12), (12, 30)), False)):
            self.assertEqual(rect.crosses(line), wanted, line)
            self.assertEqual(rect.crosses(line[::-1]), wanted, line)

    def test_arrows_of_any_length_are_few_lines(self) -> None:
        for height in (40, 4000, 4000000):
            curve = Curve(((0, 0), (30, height / 4), (900, height * 0.9), (1000, height)), "wait")
            lines = curve.lines()
            self.assertLessEqual(len(lines), 256)
            for at in range(1001):
                point = curve.at(at / 1000)
                self.assertTrue(any(Rect(point[0] - 1, point[1] - 1, 2, 2).crosses(line) for line in lines), (height, at))
        # As high as the longest history whose arrows have labels.
        labels = Labels([Curve(((0, 0), (30, 1e5), (60, 2e5), (90, 3e5)), "wait")] * 400, ())
        rect = labels.place(curve)
        self.assertIsNotNone(rect)

    def test_a_long_history_is_drawn_by_needs_from_its_lines_and_without_labels(self) -> None:
        session = Session(PROGRAM, Source(example("race.task"), "race.task"))
        self.addCleanup(session.close)
        session.do("run 99")
        whole = lanes_of(session)
        with unittest.mock.patch.object(facts, "MOST_ASKED", 5), unittest.mock.patch.multiple(lanes, MOST_ASKED=5, MOST_LABELLED=5):
            long = lanes_of(session)
            self.assertEqual(list(long.causes), list(whole.causes))
            for name, needed in whole.causes.items():
                self.assertLessEqual({early for _, early in needed}, {early for _, early in long.causes[name]} | {early for early in long.causes if early.split("#")[0] == name.split("#")[0]})
            self.assertIn("some arrows are drawn that others imply", long.remarks()[-1])
            self.assertNotIn("font-size:11px", lanes_svg.svg_of(long))
            self.assertIn("no arrow has a label", lanes_svg.svg_of(long))
        self.assertEqual(whole.remarks(), [])

    def test_steps_without_a_lane_can_be_read(self) -> None:
        text = "cells 1\nbody main 0\n  while r0 < 5\n    task add r0 depend inout 0\n    let r0 r0 + 1\n  end\nend\nbody add 1\n  load r1 0\n  let r1 r1 + r0\n  store 0 r1\nend\n"
        session = Session(PROGRAM, Source(text, "x.task"))
        self.addCleanup(session.close)
        session.do("run 99")
        for width in (60, 80, 100):
            rows = lanes.text_rows(lanes_of(session), width)
            self.assertLessEqual(max(map(len, rows)), width)
            self.assertIn("0.5#4 store 0 10", "\n".join(rows))
            self.assertTrue(rows[-1].startswith("  no lane fits for "), rows[-1])

    def test_many_tasks_are_pages_with_an_overview(self) -> None:
        text = "cells 1\nbody main 0\n  while r0 < 299\n    task t depend inout 0\n    let r0 r0 + 1\n  end\nend\nbody t 0\n  load r1 0\n  store 0 r1\nend\n"
        session = Session(PROGRAM, Source(text, "many.task"))
        self.addCleanup(session.close)
        session.do("run 9999")
        path = write_file(self, "", "many.svg")
        lanes = lanes_of(session)
        self.assertTrue(write_lanes(path, lanes).endswith("2,096 steps in 300 lanes: an overview of " + path.replace(".svg", "-1.svg") + " to many-6.svg, which have 50 lanes each"))
        folder = os.path.dirname(path)
        self.assertEqual(sorted(os.listdir(folder)), [f"many-{number}.svg" for number in range(1, 7)] + ["many.svg"])
        root = tree.parse(path).getroot()
        self.assertEqual([link.get("href") for link in root.iter(SVG + "a")], [f"many-{number}.svg" for number in range(1, 7)])
        self.assertEqual(len(drawn(tree.tostring(root, encoding="unicode"), "lane", "task")), 300)
        seen = []
        for number in range(1, 7):
            with open(os.path.join(folder, f"many-{number}.svg"), encoding="utf-8") as file:
                seen += [name for name, in drawn(file.read(), "step", "step")]
        self.assertEqual(sorted(seen), sorted(step.name for step in lanes.steps))
        # A slide has fifty lanes on one page.
        self.assertEqual(len(parts_of(lanes)[0].tasks), 50)

    def test_bodies_have_colours(self) -> None:
        session, _ = walked(self, 1)
        lanes = lanes_of(session)
        self.assertEqual(len(set(lanes_svg.Drawing(lanes).colour.values())), len({task.body for task in lanes.tasks}))
        for colour in lanes_svg.BODIES:
            self.assertGreaterEqual(contrast(colour, "#ffffff"), 4.5)

    def test_names_are_escaped(self) -> None:
        session = Session(PROGRAM, Source(example("race.task"), "<a&b>.task"))
        self.addCleanup(session.close)
        session.do("run 3")
        self.assertIn("<a&b>.task", tree.fromstring(svg_of(lanes_of(session))).find(SVG + "title").text)


if __name__ == "__main__":
    unittest.main()
