"""The drawn graph against `deps`, `hist` and `causes`, on random sessions."""

import os
import re
import shutil
import subprocess
import sys
import unittest
import unittest.mock
import xml.etree.ElementTree as tree
from collections.abc import Iterable
from typing import Any

from support import EXAMPLES, MAIN, PROGRAM, Terminal, needs_program, write_file
from shell import facts, graph
from shell.opening import play_file
from shell.graph import dot_of, graph_of, plate, tree_of, write_graph
from shell.lanes import NO_CAUSES
from test_lanes import walked
from test_races import has_views

EDGE = re.compile(r'^\s*"([^"]+)" -> "([^"]+)" \[class=(\w+)', re.M)
needs_dot = unittest.skipUnless(shutil.which("dot"), "left out: Graphviz isn't here")


def edges(dot: str, kind: str) -> Any:
    """The arrows of this class in a text of the dot language."""
    return {(early, late) for early, late, found in EDGE.findall(dot) if found == kind}


def closure(pairs: Iterable[tuple[str, str]]) -> Any:
    """All pairs that a chain of these joins."""
    found = set(pairs)
    while True:
        more = {(one, four) for one, two in found for three, four in pairs if two == three} - found
        if not more:
            return found
        found |= more


def boxes(dot: str) -> Any:
    """The boxes around each task, from the outermost."""
    stack, found = [], {}
    for line in dot.split("\n"):
        opened = re.match(r'\s*subgraph "cluster ([^"]+)"', line)
        named = re.match(r'\s*"([0-9.]+)" \[label', line)
        if opened:
            stack.append(opened[1])
        elif line.strip() == "}" and stack:
            stack.pop()
        elif named:
            found[named[1]] = tuple(stack)
    return found


@needs_program
class GraphTest(unittest.TestCase):
    def test_arrows(self) -> None:
        views = has_views(self)
        implied = 0
        for seed in range(40):
            session, _ = walked(self, seed)
            dot = dot_of(graph_of(session))
            names = [line.split(" ")[0] for line in session.view("tasks")[1:]]
            told = [(line.split(" "), name) for name in names for line in session.view("deps " + name)[1:]]
            before = {(other, name) for (other, how), name in told if how == "before"}
            drawn = edges(dot, "before")
            # Each arrow is a dependence that no chain of others gives, and all the others are given by chains.
            self.assertTrue(drawn <= before)
            for arrow in drawn:
                self.assertNotIn(arrow, closure(before - {arrow}))
            self.assertEqual(closure(drawn), closure(before))
            implied += len(before) - len(drawn)
            apart = {frozenset((other, name)) for (other, how), name in told if how == "apart"}
            self.assertEqual({frozenset(pair) for pair in edges(dot, "apart")}, apart)
            steps = session.view("hist")[1:]
            spawned = {(line.split("#")[0], line.split(" ")[2]) for line in steps if line.split(" ")[1] == "spawn"}
            self.assertEqual(edges(dot, "spawn"), spawned)
            self.assertEqual(set(boxes(dot)), set(names))
            if not views:
                self.assertEqual(edges(dot, "wait"), set())
                self.assertEqual(NO_CAUSES in dot, any(line.split(" ")[1] == "wait" for line in steps))
                continue
            waits = {(cause.split(" ")[1].split("#")[0], line.split(" ")[0]) for line in steps if line.split(" ")[1] == "wait"
                     for cause in session.view("causes " + line.split(" ")[0])[1:] if cause.startswith("wait: ")}
            self.assertEqual(edges(dot, "wait"), waits)
        self.assertGreater(implied, 0)

    def test_many_tasks_and_waits_are_asked_for_by_few_replies(self) -> None:
        """The order of many tasks is that of `deps`, and the waits have the children that `causes` names."""
        for seed in range(25):
            session, _ = walked(self, seed, 60)
            wanted = dot_of(graph_of(session))
            commands: list[str] = []
            ask_all = session.program.ask_all

            def ask(asked: list[str], ask_all: Any = ask_all, commands: list[str] = commands) -> Any:
                commands.extend(asked)
                return ask_all(asked)
            with unittest.mock.patch.object(facts, "MOST_ORDERED", 0), unittest.mock.patch.object(graph, "FEW_WAITS", 0), \
                    unittest.mock.patch.object(session.program, "ask_all", ask):
                self.assertEqual(dot_of(graph_of(session)), wanted, seed)
            self.assertLessEqual({command.split(" ")[0] for command in commands}, {"tasks", "ready", "waits", "races", "causes", "edges"})
            self.assertLessEqual(len(commands), 6)

    def test_a_long_chain_of_siblings(self) -> None:
        path = write_file(self, "cells 1\nbody main 0\n  while r0 < 300\n    task t depend inout 0\n    let r0 r0 + 1\n  end\nend\n"
                          "body t 0\nend\n---\nrun 900\n", "chain.session")
        session = play_file(path, PROGRAM)
        self.addCleanup(session.close)
        drawn = graph_of(session).drawn
        self.assertEqual(len(drawn), 301)
        self.assertEqual(sum(map(len, drawn.values())), len(drawn) - 2)

    def test_boxes_labels_and_states(self) -> None:
        session = play_file(os.path.join(EXAMPLES, "waits.session"), PROGRAM)
        self.addCleanup(session.close)
        dot = dot_of(graph_of(session))
        self.assertEqual(boxes(dot), {"0": (), "0.1": (), "0.1.1": (), "0.2": ("0#4",), "0.2.1": ("0#4",)})
        self.assertRegex(dot, r'"0.1.1" \[label="0.1.1  grandchild\\npending\\ncan step", style="filled,dashed".*penwidth=3\]')
        session = play_file(os.path.join(EXAMPLES, "tasks.session"), PROGRAM)
        self.addCleanup(session.close)
        self.assertIn('"0.2" -> "0.3" [class=before, penwidth=1.8, label=' + plate("cell 0: inout, in") + "]", dot_of(graph_of(session)))
        self.assertIn("      after 0.2, cell 0: inout, in", tree_of(graph_of(session)))
        session = play_file(os.path.join(EXAMPLES, "exclusion.session"), PROGRAM)
        self.addCleanup(session.close)
        self.assertIn(plate("not together\ncell 0: mutexinoutset, mutexinoutset"), dot_of(graph_of(session)))

    def test_races_are_red(self) -> None:
        session = play_file(os.path.join(EXAMPLES, "luck.session"), PROGRAM)
        self.addCleanup(session.close)
        session.do("run 99")
        graph = graph_of(session)
        wanted = {tuple(sorted(step.split("#")[0] for step in line.split(" ")[:2])) for line in session.view("races")[1:]}
        self.assertTrue(wanted)
        self.assertEqual(edges(dot_of(graph), "race"), wanted)
        self.assertIn('class=race, dir=none, style=bold, color="#b00020"', dot_of(graph))
        for first, _ in wanted:
            self.assertTrue(any(line.strip().startswith(f"races with {first}, ") for line in tree_of(graph)))

    def many(self, count: int) -> Any:
        """A run of so many tasks, each after one of eight."""
        text = (f"cells 8\nbody main 0\n  while r1 < {count}\n    task writer r2 depend inout r2\n    let r1 r1 + 1\n    let r2 r2 + 1\n    if r2 == 8\n      let r2 0\n"
                "    end\n  end\n  task reader\n  taskwait\nend\nbody writer 1\n  load r1 r0\n  store r0 r1\nend\nbody reader 0\n  load r0 0\nend\n---\nrun 1000000\n")
        session = play_file(write_file(self, text, "many.session"), PROGRAM)
        self.addCleanup(session.close)
        return session

    @needs_dot
    def test_a_thousand_tasks_are_clusters(self) -> None:
        session = self.many(1000)
        path = write_file(self, "", "many.svg")
        before = os.times()
        told = write_graph(path, graph_of(session))
        taken = sum(os.times()[:4]) - sum(before[:4])
        self.assertEqual(told, f"drawn to {path}, 1,002 tasks")
        self.assertLess(taken, 5)
        dot = dot_of(graph_of(session))
        self.assertIn("1000 x writer\\nof line 4\\n1000 ended\\n992 ordered among them", dot)
        edges = re.findall(r'^  (c\d) -> (c\d) \[class=(\w+).*label=" (\d+)"\]', dot, re.M)
        self.assertEqual(sorted(edges), [("c0", "c1", "spawn", "1000"), ("c0", "c2", "spawn", "1"), ("c1", "c2", "race", "1")])

    @needs_dot
    def test_hundreds_of_tasks_with_many_dependences_are_drawn_in_time(self) -> None:
        text = ("cells 40\nbody main 0\n  while r3 < 9\n    let r0 0\n    while r0 < 30\n      let r1 r0 + 1\n      task w r0 r1 depend inout r0 depend in r1\n"
                "      let r0 r0 + 1\n    end\n    let r3 r3 + 1\n  end\nend\nbody w 2\n  store r0 r1\nend\n---\nrun 100000\n")
        session = play_file(write_file(self, text, "stencil.session"), PROGRAM)
        self.addCleanup(session.close)
        drawn, path = graph_of(session), write_file(self, "", "stencil.svg")
        before = os.times().children_user
        with unittest.mock.patch.object(graph, "PATIENCE", 600):
            self.assertEqual(write_graph(path, drawn), f"drawn to {path}, 271 tasks")
        # Of the processor, since the machine may be busy.
        self.assertLess(os.times().children_user - before, 20)
        with unittest.mock.patch.object(graph, "PATIENCE", 0.01):
            self.assertEqual(write_graph(path, drawn), f"drawn to {path}, 271 tasks as clusters: Graphviz took more than 0.01 s for each of its own")
        with open(path, encoding="utf-8") as file:
            self.assertIn("270 x w", file.read())

    @needs_dot
    def test_ctrl_c_ends_graphviz_and_keeps_the_file(self) -> None:
        path = write_file(self, "as before", "many.svg")
        asked: list[int] = []

        def stop() -> bool:
            asked.append(1)
            return len(asked) > 1
        with unittest.mock.patch.object(graph, "LOOK", 0.001):
            self.assertRaises(facts.Stopped, write_graph, path, graph_of(self.many(250)), stop)
        with open(path, encoding="utf-8") as file:
            self.assertEqual(file.read(), "as before")

    def test_few_tasks_are_drawn_one_by_one(self) -> None:
        dot = dot_of(graph_of(self.many(50)))
        self.assertEqual(len(boxes(dot)), 52)
        self.assertNotIn("among them", dot)

    @needs_dot
    def test_graphviz_draws_it(self) -> None:
        for seed in range(4):
            session, _ = walked(self, seed)
            dot = dot_of(graph_of(session))
            done = subprocess.run(["dot", "-Tsvg"], input=dot, capture_output=True, text=True, check=True)
            root = tree.fromstring(done.stdout)
            drawn = [group for group in root.iter("{http://www.w3.org/2000/svg}g") if group.get("class", "").startswith("edge")]
            self.assertEqual(len(drawn), len(EDGE.findall(dot)))
            self.assertEqual(done.stderr, "")

    @needs_dot
    def test_each_label_is_drawn(self) -> None:
        for name in ("luck", "right_sum", "exclusion", "apart", "undeferred", "tasks"):
            session = play_file(os.path.join(EXAMPLES, name + ".session"), PROGRAM)
            self.addCleanup(session.close)
            dot = dot_of(graph_of(session))
            done = subprocess.run(["dot", "-Tsvg"], input=dot, capture_output=True, text=True, check=True)
            labels = [row for plated in re.findall("<td>(.*?)</td>", dot) for row in plated.split("<br/>")]
            texts = ["".join(text.itertext()) for text in tree.fromstring(done.stdout).iter("{http://www.w3.org/2000/svg}text")]
            self.assertTrue(labels, name)
            self.assertEqual([label for label in labels if texts.count(label) < labels.count(label)], [], name)

    def test_commands(self) -> None:
        shell = Terminal(self, [os.path.join(EXAMPLES, "order.task")], NO_COLOR="1")
        shell.read_until("(taskback) ")
        shell.ask("run 3")
        shown = shell.ask("graph")
        self.assertEqual(shown[:2], ["0 main: running at line 6, waits for 0.1", "  0.1 add: pending, can step"])
        self.assertEqual(shown[2:4], ["  0.2 add: pending, depends on 0.1", "      after 0.1, cell 0: inout, inout"])
        path = write_file(self, "", "a.dot")
        self.assertEqual(shell.ask("graph " + path), [f"written to {path}, 3 tasks"])
        self.assertEqual(shell.ask("graph a b"), ["graph [-f] [FILE], for example: graph tasks.svg"])
        self.assertEqual(shell.ask("graph /no/file.dot"), ["can't write /no/file.dot: No such file or directory"])

    def test_without_graphviz_the_text_is_written(self) -> None:
        path = write_file(self, "", "a.svg")
        done = subprocess.run([sys.executable, MAIN, "--graph", os.path.join(EXAMPLES, "order.session"), path],
                              capture_output=True, text=True, check=True, env={"TASKBACK_PROGRAM": PROGRAM, "PATH": "/nowhere"})
        wanted = path.replace(".svg", ".dot")
        self.assertEqual(done.stdout, f"written to {wanted}, 3 tasks; Graphviz, which would draw it, isn't here\n")
        with open(wanted, encoding="utf-8") as file:
            self.assertEqual(edges(file.read(), "before"), {("0.1", "0.2")})


if __name__ == "__main__":
    unittest.main()
