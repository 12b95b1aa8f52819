"""The program's `causes` against those that are computed from the history, and replies that are asked for together."""

import contextlib
import dataclasses
import random
import unittest
import unittest.mock
from typing import Any

from programs import random_program
from support import PROGRAM, needs_program
from needs import Needs, without_implied
from shell import facts as facts_module, graph, lanes, story
from shell.facts import Facts
from shell.graph import dot_of, graph_of
from shell.lanes import lanes_of
from shell.lanes_svg import svg_of
from shell.session import Session
from shell.source import Source
from shell.story import Story
from test_lanes import walked
from test_races import has_views

# All memory, exclusion of elder and younger siblings, groups in groups, waits with items.
MANY = """cells 2
body main 0
  task leaf depend mutexinoutset 0
  task leaf depend mutexinoutset 0 depend in 1
  task leaf depend inout all
  task leaf depend inoutset 0
  task leaf depend inoutset 0
  task leaf depend out all
  taskwait depend in 1
  taskgroup
    task deep
    taskgroup
      task leaf depend mutexinoutset 0 if 1 == 2
    end
    task deep
  end
  taskwait
  print 1
end
body deep 0
  task leaf
  load r0 1
  print r0
end
body leaf 0
  load r1 0
  store 0 r1
  store r2 9
  load r1 77
end
"""

# Readers and writers of 8 cells, undeferred tasks, groups and waits.
LONG = """cells 8
body main 0
  let r0 0
  let r1 0
  while r0 < 120
    task writer r1 depend inout r1
    task reader r1 depend in r1
    taskgroup
      task reader 0
    end
    task reader r1 if 0 == 1
    if r1 == 7
      taskwait
      let r1 -1
    end
    let r0 r0 + 1
    let r1 r1 + 1
  end
end
body writer 1
  load r1 r0
  let r1 r1 + 1
  store r0 r1
end
body reader 1
  load r1 r0
  print r1
end
"""


def schedule(test: unittest.TestCase, text: str, seed: int) -> Any:
    """A session of this program, its steps in a random order."""
    session = Session(PROGRAM, Source(text, "x.task"))
    test.addCleanup(session.close)
    choice = random.Random(seed)
    for _ in range(150):
        ready = session.view("ready")[1:]
        if not ready:
            break
        session.do("step " + choice.choice(ready))
    return session


@needs_program
class NeedsTest(unittest.TestCase):
    def test_they_are_the_causes(self) -> None:
        if not has_views(self):
            return
        kinds = set()
        texts = [MANY] * 15 + [random_program(seed) for seed in range(25)]
        for seed, text in enumerate(texts):
            session, needs = schedule(self, text, seed), Needs()
            steps = session.view("hist")[1:]
            wanted = [reply[1:] for reply in session.views(["causes " + step.split(" ")[0] for step in steps])]
            found = [[f"{kind}: {steps[place]}" for kind, place in needs.add(*step.split(" ", 1))] for step in steps]
            self.assertEqual(found, wanted, (seed, text))
            kinds |= {kind.split(":")[0].split(" ")[0] for lines in wanted for kind in lines}
        self.assertEqual(kinds, {"task", "spawn", "cell", "print", "before", "apart", "wait", "group", "undeferred"})

    def test_all_are_had_by_one_reply(self) -> None:
        """`edges` says of each step what `causes` says; a program without `edges` is asked for the causes of each."""
        for seed in range(12):
            session = schedule(self, MANY if seed < 4 else random_program(seed), seed)
            facts = Facts(session)
            wanted = {name: facts.causes(name) for name in session.history}
            self.assertEqual(facts.edges(), wanted)
            with unittest.mock.patch.object(session, "view", side_effect=session.view) as view:
                self.assertEqual(facts.all_causes(facts.steps()), wanted)
            self.assertEqual([call.args[0] for call in view.mock_calls], ["causes 0#1", "edges"])
            with unittest.mock.patch.object(Facts, "edges", lambda facts: None):
                self.assertEqual(facts.all_causes(facts.steps()), wanted)

    def test_a_program_without_edges(self) -> None:
        session = schedule(self, MANY, 1)
        with unittest.mock.patch.object(session.program, "ask", lambda command: ["error word"]):
            self.assertIsNone(Facts(session).edges())
            self.assertIsNone(Facts(session).all_causes(Facts(session).steps()))

    def test_a_picture_of_a_long_history_is_drawn_from_replies(self) -> None:
        if not has_views(self):
            return
        session = Session(PROGRAM, Source(LONG, "x.task"))
        self.addCleanup(session.close)
        session.do("run 1000000")
        lanes, needs = lanes_of(session), Needs()
        self.assertGreater(len(lanes.steps), 3000)
        names = [step.name for step in lanes.steps]
        self.assertEqual(lanes.causes, {step.name: [(kind, names[place]) for kind, place in needs.add(step.name, step.did)]
                                        for step in lanes.steps})

    def both_ways(self) -> Any:
        """Sessions of some length, also with rollbacks."""
        long = Session(PROGRAM, Source(LONG, "x.task"))
        self.addCleanup(long.close)
        long.do("run 1500")
        return [long, *(schedule(self, MANY if seed < 3 else random_program(seed), seed) for seed in range(9)), *(walked(self, seed)[0] for seed in range(6))]

    def test_pictures_by_asked_needs_are_those_by_needs_that_were_worked_out(self) -> None:
        """But for what others imply: lanes, graph and page are the same by `edges` and by the lines of the history."""
        if not has_views(self):
            return
        for at, session in enumerate(self.both_ways()):
            told = []
            for most in (1000000, 0):
                with contextlib.ExitStack() as stack:
                    for module in (facts_module, lanes, graph, story):
                        stack.enter_context(unittest.mock.patch.object(module, "MOST_ASKED", most))
                    stack.enter_context(unittest.mock.patch.object(story, "VERY_FEW", 1000000))
                    drawn = lanes_of(session)
                    self.assertEqual(drawn.implied, not most)
                    page: dict[str, Any] = Story(session).data()
                    left = [text for text in page.pop("leftOut") if "follow from others" in text]
                    self.assertEqual(len(left), int(not most))
                    causes = without_implied({number: step[5] for number, step in enumerate(page["steps"])})
                    page["steps"] = [step[:5] + [causes[number]] + step[6:] for number, step in enumerate(page["steps"])]
                    drawn = dataclasses.replace(drawn, causes=without_implied(drawn.causes), implied=False)
                    told.append((svg_of(drawn), dot_of(graph_of(session)), page))
                if most:
                    self.assertEqual(drawn.causes, lanes_of(session).causes, at)
            self.assertEqual(told[0], told[1], at)

    def test_replies_that_are_asked_for_together(self) -> None:
        session, _ = walked(self, 3)
        commands = [word for _ in range(40) for word in ("tasks", "cells", "hist", "causes 0#1", "why 0#99", "cells 1", "ready", "fly")]
        self.assertEqual(list(session.views(commands)), [session.view(command) for command in commands])
        self.assertEqual(list(Facts(session).ask_all([])), [])


if __name__ == "__main__":
    unittest.main()
