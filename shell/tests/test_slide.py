"""The picture for a lecture: its shape, its letters, and what of the history it shows."""

import re
import tempfile
import unittest
import unittest.mock
import xml.etree.ElementTree as tree
from collections import Counter
from collections.abc import Iterator
from typing import Any

from support import PROGRAM, Typed, contrast, example, needs_program
from test_dap import RECORDED
from test_lanes import SVG, drawn, walked
from shell import slide
from shell.labels import Rect
from shell.lanes import lanes_of
from shell.lanes_svg import BODIES
from shell.session import Session
from shell.slide import slide_of
from shell.source import Source

LOOP = "cells 60\nbody main 0\n  while r0 < {count}\n    task work r0 depend inout r0\n    let r0 r0 + 1\n  end\n  taskwait\n  print r0\nend\n" \
       "body work 1\n  let r2 r0 + 1\n  load r3 r2\n  store r0 r3\nend\n"


def rects(root: Any) -> Iterator[Rect]:
    """Where the names of tasks and the words of steps are."""
    for text in root.iter(SVG + "text"):
        if text.get("class") in ("name", "word"):
            x, y = float(text.get("x")), float(text.get("y"))
            yield Rect(x, y - slide.LETTER + 3, slide.LETTER_WIDE * len(text.text), slide.LETTER - 2)


@needs_program
class SlideTest(unittest.TestCase):
    def looped(self, count: int) -> tuple[Session, str]:
        """The slide of a loop of so many tasks."""
        session = Session(PROGRAM, Source(LOOP.replace("{count}", str(count)), "loop.task"))
        self.addCleanup(session.close)
        session.do("run 9000")
        return session, slide_of(lanes_of(session, "0.2#3"))

    def test_sixteen_to_nine_with_large_letters_that_lie_on_no_others(self) -> None:
        for count in (9, 30, 49):
            session, svg = self.looped(count)
            root = tree.fromstring(svg)
            self.assertEqual(int(root.get("width")) * 9, int(root.get("height")) * 16)
            sizes = [int(size) for size in re.findall(r"font(?:-size)?:(\d+)px", svg)]
            self.assertGreaterEqual(min(sizes) * 45, int(root.get("height")))
            for path in root.iter(SVG + "path"):
                if path.get("class") == "before":
                    begin, *_, bent, end = (float(pair.split(" ")[0]) for pair in re.findall(r"[0-9.]+ [0-9.]+", path.get("d")))
                    self.assertTrue(begin <= bent < end, path.get("d"))
            there = list(rects(root))
            self.assertGreaterEqual(len(there), 17)
            for at, one in enumerate(there):
                self.assertTrue(0 <= one.x and one.x + one.wide <= slide.WIDE and 0 < one.y < slide.HIGH)
                self.assertFalse([other for other in there[:at] if one.meets(other)], count)

    def test_what_is_shown_is_what_happened(self) -> None:
        session, svg = self.looped(9)
        self.assertIn("<text class=\"title\" x=\"40\" y=\"48\">loop.task: 10 tasks, 77 steps, 8 races</text>", svg)
        self.assertIn("✕ lines 12 and 13: 8 races", svg)
        taken = {"0.2#3"} | {line.split(" ")[0] for line in session.view("who 0.2#3")[1:]}
        self.assertEqual({name for name, in drawn(svg, "shade", "step")}, taken)
        self.assertEqual(drawn(svg, "race", "from", "to")[:8], [tuple(line.split(" ")[:2]) for line in session.view("races")[1:]])
        self.assertEqual(len(drawn(svg, "step")), 77 - sum(" let " in line or " test " in line for line in session.view("hist")[1:]))

    def test_lines_that_race_are_told_once_in_either_order(self) -> None:
        text = "cells 1\nbody main 0\n  while r0 < 6\n    task write\n    task read\n    let r0 r0 + 1\n  end\nend\nbody write 0\n  store 0 1\nend\nbody read 0\n  load r0 0\n  print r0\nend\n"
        session = Session(PROGRAM, Source(text, "x.task"))
        self.addCleanup(session.close)
        session.do("run 999")
        lines = Counter(tuple(sorted({session.positions.line_of(step) for step in line.split(" ")[:2]})) for line in session.view("races")[1:])
        self.assertEqual(lines.keys(), {(10, 13), (14,)})
        self.assertIn(f"✕ lines 10 and 13: {lines[10, 13]} races; line 14: {lines[14,]} races", slide_of(lanes_of(session)))

    def test_of_too_many_arrows_some_are_drawn_over_the_whole_picture(self) -> None:
        session, _ = self.looped(9)
        with unittest.mock.patch.object(slide, "MOST_ARROWS", 3):
            svg = slide_of(lanes_of(session))
        self.assertEqual(drawn(svg, "race", "from", "to")[:3], [tuple(line.split(" ")[:2]) for line in session.view("races")[1::3]])
        self.assertIn(">a race (3 arrows of 8)</text>", svg)

    def test_of_very_many_steps_there_are_bars_alone_and_a_shade_a_pixel(self) -> None:
        session, _ = self.looped(40)
        with unittest.mock.patch.object(slide, "WIDE", 400), unittest.mock.patch.object(slide, "LEAST_WIDE", 20):
            svg = slide_of(lanes_of(session, "0#1"))
        self.assertEqual(drawn(svg, "step"), [])
        self.assertEqual(len(drawn(svg, "bar", "task")), 41)
        shades = re.findall(r'class="shade" data-step="([0-9.]+)#[0-9]+" x="([0-9.]+)" y="[0-9.]+" width="1.0"', svg)
        self.assertTrue(100 < len(shades) < 250, len(shades))
        self.assertEqual(len(shades), len(set(shades)))

    def test_races_of_a_recorded_run_are_told_by_lines_of_c(self) -> None:
        text = RECORDED.split("---\n")[0].replace(" depend inout 0", "")
        session = Session(PROGRAM, Source(text, "sum.session"))
        self.addCleanup(session.close)
        session.do("run 99")
        self.assertIn("✕ sum.c:5 and sum.c:7: 2 races", slide_of(lanes_of(session)))

    def test_any_session(self) -> None:
        for seed in range(15):
            session, _ = walked(self, seed)
            tree.fromstring(slide_of(lanes_of(session)))

    def test_colours_can_be_told_from_white(self) -> None:
        self.assertGreater(min(contrast(colour, "#ffffff") for colour in BODIES), 4.5)

    def test_command(self) -> None:
        typed = Typed(self, example("race.task"))
        typed.ask("run 99")
        with tempfile.TemporaryDirectory() as folder:
            self.assertEqual(typed.ask(f"slide 0.1#4 {folder}/a.svg"), [f"drawn to {folder}/a.svg, 17 steps of 3 tasks"])
            self.assertEqual(typed.ask(f"slide {folder}/a.svg"), [f"drawn to {folder}/a.svg, 17 steps of 3 tasks"])
            self.assertEqual(typed.ask(f"slide {folder}/no/a.svg"), [f"can't write {folder}/no/a.svg: No such file or directory"])
            self.assertEqual(typed.ask(f"slide 0.9#4 {folder}/a.svg"), ["step 0.9#4 isn't in the history"])
        self.assertEqual(typed.ask("slide"), ["slide [-f] [T#K] FILE, for example: slide talk.svg"])
