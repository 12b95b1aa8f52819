"""The page of a session: its data against the views, and the page itself in a real browser."""

import io
import json
import os
import re
import unittest
import unittest.mock
from typing import Any

from browser import InBrowser, browser
from programs import random_program
from support import EXAMPLES, PROGRAM, TOP, Terminal, contrast, example, needs_program, write_file
from shell import story
from shell.commands import Shell
from shell.console import Console
from shell.opening import play_file
from shell.facts import Facts
from shell.graph import groups_of, waits_of
from shell.page import page_of
from shell.race_advice import kinds_of
from shell.session import Session
from shell.source import Source
from test_lanes import walked
from test_races import has_views

WATCH = """<script>window.faults = []; window.addEventListener("error", (event) => faults.push(event.message));
document.addEventListener("securitypolicyviolation", (event) => faults.push(event.violatedDirective));</script>"""
TOOLS = """
const find = (id) => document.getElementById(id), names = (query) => [...document.querySelectorAll(query)].map((found) => found.dataset.step);
const move = (at) => { find("at").value = at; find("at").dispatchEvent(new Event("input")); };
const point = (name) => document.querySelector('.step[data-step="' + name + '"]').dispatchEvent(new PointerEvent("pointerover", { bubbles: true }));
const texts = (query) => [...document.querySelectorAll(query)].map((found) => found.textContent);
const side = (rect, from, size) => [Number(rect.getAttribute(from)), Number(rect.getAttribute(from)) + Number(rect.getAttribute(size))];
const meets = (one, two) => [["x", "width"], ["y", "height"]].every(([from, size]) => side(one, from, size)[0] < side(two, from, size)[1] && side(two, from, size)[0] < side(one, from, size)[1]);
const press = (key) => find("lanes").dispatchEvent(new KeyboardEvent("keydown", { key, bubbles: true }));
"""
EACH_MOMENT = """
return data.commands.map((command) => command[2]).map((at) => {
  move(at);
  const shown = { where: find("where").textContent, steps: names(".step"), cells: texts("#cells li"), out: texts("#out li"),
    stand: texts("#program li").map((text) => (text.split("◀ ")[1] || "")), boxes: [...document.querySelectorAll("#graph [data-task]")].map((box) => box.dataset.task),
    edges: [...document.querySelectorAll("#graph .edge.before")].map((edge) => [edge.dataset.from, edge.dataset.to]),
    inside: [...document.querySelectorAll("#graph [data-task]")].map((box) => [box.dataset.task, box.dataset.inside]),
    groups: [...document.querySelectorAll("#graph .group")].map((group) => [group.dataset.group,
      [...document.querySelectorAll("#graph [data-task]")].filter((box) => meets(group, box.querySelector(".box"))).map((box) => box.dataset.task)]),
    waits: [...document.querySelectorAll("#graph [data-wait]")].map((wait) => wait.dataset.wait),
    waited: [...document.querySelectorAll("#graph .edge.wait")].map((edge) => [edge.dataset.from, edge.dataset.to]),
    arrows: [...document.querySelectorAll("#drawn .arrow:not(.racing)")].map((arrow) => [arrow.dataset.from, arrow.dataset.to, arrow.dataset.kind]),
    races: [...document.querySelectorAll("#race-list button")].flatMap((button) => button.dataset.races.split("; ")), lit: {} };
  for (const name of shown.steps) { point(name); shown.lit[name] = [names(".step.needs"), names(".step.needers")]; }
  return shown;
});"""

# Groups in a group, a task with a wait in one, one after a wait, and two that follow each other.
NESTED = """cells 2
body main 0
  task leaf depend out 0
  taskgroup
    task deep
    taskgroup
      task leaf depend in 0
      task leaf depend inout 0
    end
    task leaf depend in 1
  end
  task leaf
  taskwait
  taskgroup
    task leaf
  end
  task leaf
end
body deep 0
  task leaf
  taskwait
  task leaf
end
body leaf 0
  let r0 1
end
"""


def page_file(test: unittest.TestCase, session: Session) -> str:
    """The page of a session, as a file."""
    return write_file(test, page_of(session)[0], "page.html")


def in_browser(path: str, script: str, size: str = "1400,4000", dark: bool = False) -> Any:
    """What a script that is added to the page returns, and the errors that came up."""
    with open(path, encoding="utf-8") as file:
        page = file.read()
    told = f"<script>const result = (() => {{{TOOLS}{script}}})();\n" \
           "document.body.replaceChildren(); document.body.textContent = JSON.stringify([faults, result]);</script></body>"
    head, tail = page.split("<head>")
    with open(path + ".tried.html", "w", encoding="utf-8") as file:
        file.write(head + "<head>" + WATCH + tail.replace("</body>", told))
    text = re.search(r"<body>(.*)</body>", browser().shown("file://" + path + ".tried.html", size, dark), re.S)[1]
    for mark, sign in (("&lt;", "<"), ("&gt;", ">"), ("&amp;", "&")):
        text = text.replace(mark, sign)
    return json.loads(text)


def views_of(session: Session) -> dict[str, Any]:
    """What the views show: the steps with what each needs and who needs it, the cells, the output, where tasks stand."""
    steps = [line.split(" ")[0] for line in session.view("hist")[1:]]
    lit = {step: [[line.split(" ")[0] for line in session.view(f"{view} {step}")[1:]] for view in ("why", "who")] for step in steps}
    stand: dict[int, list[str]] = {}
    for line in session.view("tasks")[1:]:
        name, _, state, *at = line.split(" ")
        if state == "running":
            stand.setdefault(int(at[0]), []).append(name)
    return {"steps": steps, "lit": lit, "cells": ["cell " + ": ".join(line.split(" ")) for line in session.view("cells")[1:]],
            "out": session.view("out")[1:], "stand": stand, "boxes": [line.split(" ")[0] for line in session.view("tasks")[1:]],
            "races": [" ".join(line.split(" ")[:2]) for line in session.view("races")[1:]]}


@needs_program
class DataTest(unittest.TestCase):
    def data(self, session: Session) -> Any:
        found = re.search(r'<script type="application/json" id="data">(.*?)</script>', page_of(session)[0], re.S)
        return json.loads(found[1])

    def test_the_page_needs_nothing_else(self) -> None:
        session, _ = walked(self, 1)
        page = page_of(session)[0]
        for word in ("http:", "https:", "src=", "@import", "url(http", "fetch(", "XMLHttpRequest"):
            self.assertNotIn(word, page.replace("http://www.w3.org/2000/svg", ""))

    def test_what_was_left_out_is_told(self) -> None:
        session, _ = walked(self, 2)
        told = " ".join(self.data(session)["leftOut"])
        self.assertEqual(has_views(self), "causes" not in told and "races" not in told)

    def test_what_would_order_races_is_told_of_those_that_were_taken_back_too(self) -> None:
        for seed in range(8):
            session = Session(PROGRAM, Source(random_program(seed), "x.task"))
            wanted: set[str] = set()
            self.addCleanup(session.close)
            for command in ("run 40", "rolltask 0.1", "run 60", "rolltask 0.2"):
                if command.startswith("rolltask"):
                    wanted.update({"|".join([*kind.names, str(kind.example.over == "print").lower(), str(kind.example.apart).lower()])
                                   for kind in kinds_of(session, Facts(session).races())})
                session.do(command)
            there = kinds_of(session, Facts(session).races())
            told = self.data(session)["hints"]
            self.assertEqual(told.keys(), wanted | {"|".join([*kind.names, str(kind.example.over == "print").lower(), str(kind.example.apart).lower()]) for kind in there})
            for kind in there:
                self.assertIn(kind.advice().replace("`", ""), told.values(), seed)

    def test_names_can_not_end_the_script(self) -> None:
        session = Session(PROGRAM, Source("# </script><script>alert(1)</script>\n" + example("first.task"), "</script>.task"))
        self.addCleanup(session.close)
        session.do("step 0 # </script>")
        self.assertEqual(self.data(session)["commands"][0][0], "step 0 # </script>")
        self.assertEqual(page_of(session)[0].count("</script>"), 2)

    def test_the_session_that_is_used_stays(self) -> None:
        session, _ = walked(self, 3)
        before = session.view("hist"), list(session.log)
        page_of(session)
        self.assertEqual((session.view("hist"), session.log), before)

    def test_needs_by_one_reply_are_those_that_are_asked_for_one_by_one(self) -> None:
        for seed in range(6):
            session, _ = walked(self, seed)
            told = []
            for few in (0, 1000):
                with unittest.mock.patch.object(story, "FEW", few):
                    told.append(self.data(session)["steps"])
            self.assertEqual(told[0], told[1], seed)

    def test_needs_from_the_lines_are_those_of_the_program(self) -> None:
        """Also where after a rollback few steps are new, which are asked for."""
        for seed in range(24):
            session, _ = walked(self, seed // 2)
            with unittest.mock.patch.multiple(story, MOST_ASKED=0, MOST_LOOKS=0, VERY_FEW=1 if seed % 2 else 100):
                told = self.data(session)["steps"]
                there = {step[0]: at for at, step in enumerate(told) if step[4] is None}
                self.assertEqual(list(there), list(session.history))
                for name, at in there.items():
                    found, left = set(), [at]
                    while left:
                        fresh = [early for _, early in told[left.pop()][5] if early not in found]
                        found.update(fresh)
                        left += fresh
                    self.assertEqual({told[early][0] for early in found}, {line.split(" ")[0] for line in session.view(f"why {name}")[1:]}, (seed, name))

    def test_thirty_thousand_steps(self) -> None:
        text = "cells 8\nbody main 0\n  while r1 < 300\n    task writer r2 depend inout r2\n    let r1 r1 + 1\n    let r2 r2 + 1\n    if r2 == 8\n      let r2 0\n" \
               "    end\n  end\n  taskwait\nend\nbody writer 1\n  while r3 < 19\n    load r1 r0\n    let r1 r1 + 1\n    store r0 r1\n    let r3 r3 + 1\n  end\nend\n"
        session = Session(PROGRAM, Source(text, "big.task"))
        self.addCleanup(session.close)
        session.do("run 1000000")
        self.assertGreater(len(session.history), 30000)
        before, told = sum(os.times()[:4]), []
        page_of(session, progress=lambda done, what, total: told.append((done, total)))
        # Of the processor; 100,000 steps in 20 seconds allow 6 for these.
        self.assertLess(sum(os.times()[:4]) - before, 6)
        self.assertEqual(told[-1], (len(session.history), len(session.history)))

    def test_command(self) -> None:
        shell = Terminal(self, [os.path.join(EXAMPLES, "race.task")], NO_COLOR="1")
        shell.read_until("(taskback) ")
        shell.ask("run")
        path = write_file(self, "", "a.html")
        self.assertEqual(shell.ask("page " + path), [f"written to {path}, 1 command and 17 steps"])
        self.assertEqual(shell.ask("page"), ["page [-f] FILE, for example: page race.html"])
        self.assertEqual(shell.ask("page /no/file"), ["can't write /no/file: No such file or directory"])

    def test_ctrl_c_stops_each_picture(self) -> None:
        session, _ = walked(self, 1)
        out = io.StringIO()
        shell = Shell(session, Console(out))
        # As the handler of Ctrl-C sets it while a command is carried out.
        shell.interrupted = True
        path = write_file(self, "as before", "a.html")
        asked: tuple[tuple[str, list[str]], ...] = (("lanes", []), ("graph", ["-f", path]), ("page", ["-f", path]))
        for name, words in asked:
            shell.methods[name](words)
        self.assertEqual(out.getvalue(), "  stopped by Ctrl-C; nothing is drawn\n" * 3)
        with open(path, encoding="utf-8") as file:
            self.assertEqual(file.read(), "as before")


class ContrastTest(unittest.TestCase):
    def check(self, style: str, colour: dict[str, str]) -> None:
        """Words can be read on each ground, and lines that carry a meaning can be seen."""
        for ground in ("paper", "pale", "chosen", "needs", "needers", "ended", "faulted"):
            self.assertGreaterEqual(contrast(colour["ink"], colour[ground]), 4.5, ground)
        for word in ("race", "blue", "green", "faint", "brown", "violet", *(f"body{number}" for number in range(8))):
            self.assertGreaterEqual(contrast(colour[word], colour["paper"]), 4.5, word)
        # Lines and frames need less.
        for stroke in re.findall(r"stroke: (#\w+|var\(--\w+\))", style):
            if stroke != "var(--paper)":
                self.assertGreaterEqual(contrast(colour.get(stroke[6:-1], stroke), colour["paper"]), 3, stroke)
        self.assertGreaterEqual(contrast(colour["line"], colour["paper"]), 3)

    def test_light_and_dark(self) -> None:
        with open(os.path.join(TOP, "shell", "page", "page.css"), encoding="utf-8") as file:
            style = file.read()
        light, dark = (dict(re.findall(r"--(\w+): (#\w+);", line)) for line in style.split("\n")[:2])
        self.assertEqual(light.keys(), dark.keys())
        rules = "\n".join(style.split("\n")[2:])
        self.assertIn("::placeholder { color: var(--faint); opacity: 1; }", rules)
        self.check(rules, light)
        self.check(rules, dark)
        self.assertNotRegex(rules, "#[0-9a-f]{6}")


@needs_program
class BrowserTest(InBrowser):
    def agree(self, session: Session) -> None:
        """The page at each command against the views after it."""
        faults, moments = in_browser(page_file(self, session), EACH_MOMENT)
        self.assertEqual(faults, [])
        again = Session(PROGRAM, session.source)
        self.addCleanup(again.close)
        self.assertEqual(len(moments), len(session.log))
        for at, shown in enumerate(moments):
            again.do(session.log[at][0])
            wanted = views_of(again)
            for key in ("steps", "boxes", "races"):
                self.assertEqual(sorted(shown[key]) if key == "races" else shown[key], sorted(wanted[key]) if key == "races" else wanted[key], (at, key))
            self.assertEqual({name: [sorted(pair[0]), sorted(pair[1])] for name, pair in shown["lit"].items()},
                             {name: [sorted(pair[0]), sorted(pair[1])] for name, pair in wanted["lit"].items()})
            numbers = [text.split("  (")[0] for text in shown["cells"] if not text.endswith(": 0  (just changed)")]
            self.assertEqual(numbers if wanted["cells"] else [], wanted["cells"])
            self.assertEqual(shown["out"], wanted["out"] or ["nothing"])
            for line, names in wanted["stand"].items():
                for name in names:
                    self.assertIn(name, shown["stand"][line - 1].split(", "))
            self.agree_arrows(again, shown)
            self.agree_graph(again, shown)

    def agree_graph(self, session: Session, shown: Any) -> None:
        """Each task stands in the boxes of its groups and in no other; each wait that is over has its children."""
        facts = Facts(session)
        steps = facts.steps()
        inside, outer = groups_of(steps)
        members: dict[str, list[str]] = {}
        for name in shown["boxes"]:
            group = inside[name]
            while group:
                members.setdefault(group, []).append(name)
                group = outer[group]
        self.assertEqual(dict(shown["inside"]), {name: inside[name] or "" for name in shown["boxes"]})
        # A group has a box too where only waits stand in it.
        self.assertEqual({group: names for group, names in shown["groups"] if names}, members)
        self.assertLessEqual({group for group, _ in shown["groups"]}, outer.keys())
        self.assertEqual(shown["waits"], [step.name for step in steps if step.word == "wait"])
        waits = waits_of(facts, steps)
        if waits is not None:
            self.assertEqual(sorted(shown["waited"]), sorted([child, wait.step] for wait in waits for child in wait.children))

    def agree_arrows(self, session: Session, shown: Any) -> None:
        """The arrows between lanes are the causes of each kind, where the program shows them."""
        if session.view("causes 0#1") == ["error word"]:
            return
        wanted = []
        for step in shown["steps"]:
            for line in session.view("causes " + step)[1:]:
                kind, early = line.split(": ", 1)[0], line.split(": ", 1)[1].split(" ")[0]
                if kind != "task":
                    wanted.append([early, step, kind])
        self.assertEqual(sorted(shown["arrows"]), sorted(wanted))

    def test_the_slider_reaches_each_command_and_a_step_lights_what_the_views_list(self) -> None:
        has_views(self)
        for name in ("race", "exclusion", "tasks", "waits"):
            session = play_file(os.path.join(EXAMPLES, name + ".session"), PROGRAM)
            self.addCleanup(session.close)
            self.agree(session)

    def test_groups_stand_in_boxes_and_waits_below_their_children(self) -> None:
        has_views(self)
        session = Session(PROGRAM, Source(NESTED, "nested.task"))
        self.addCleanup(session.close)
        for command in ("run 12", "run 9", "step 0", "run 100", "rolltask 0.2"):
            session.do(command)
        self.agree(session)

    def test_random_sessions(self) -> None:
        for seed in (1, 4):
            self.agree(walked(self, seed, 25)[0])

    def test_keys_and_races(self) -> None:
        session = play_file(os.path.join(EXAMPLES, "race.session"), PROGRAM)
        self.addCleanup(session.close)
        faults, told = in_browser(page_file(self, session), """
          const told = [];
          for (const key of ["ArrowDown", "ArrowDown", "End", "ArrowUp", "Home", "Escape"]) { press(key); told.push(names(".step.chosen")[0] || null); }
          find("back").click(); told.push(find("where").textContent.split("  |")[0]);
          find("on").click(); find("on").click(); told.push(find("where").textContent.split("  |")[0]);
          const button = document.querySelector("#race-list button");
          if (button) button.click();
          told.push(texts("#program li.race").map((text) => text.trim()), names(".step.chosen"));
          return told;""")
        self.assertEqual(faults, [])
        self.assertEqual(told[:8], ["0#1", "0#2", "0#7", "0#6", "0#1", None, "27 of 28: 0#6 print 3", "28 of 28: 0#7 end"])
        if has_views(self):
            self.assertEqual(told[8:], [["load r1 0", "store 0 r1"], ["0.2#2"]])

    def test_all_is_reached_by_keys(self) -> None:
        """What scrolls can have the focus, each control has a name, and a chosen step is told as the list's active one."""
        session = play_file(os.path.join(EXAMPLES, "race.session"), PROGRAM)
        self.addCleanup(session.close)
        faults, told = in_browser(page_file(self, session), """
          const scrolls = [...document.querySelectorAll("body *")].filter((part) => getComputedStyle(part).overflowY === "auto");
          const unreached = scrolls.filter((part) => part.tabIndex < 0 && !part.querySelector("button")).map((part) => part.id || part.className);
          const named = (part) => part.ariaLabel || part.textContent.trim() || part.getAttribute("aria-labelledby") || (part.closest("label") && part.closest("label").textContent.trim());
          const unnamed = [...document.querySelectorAll("button, input, [tabindex]")].filter((part) => !named(part)).map((part) => part.id);
          press("ArrowDown");
          const active = document.getElementById(find("lanes").getAttribute("aria-activedescendant"));
          press("Escape");
          return [unreached, unnamed, active && active.dataset.step, find("lanes").hasAttribute("aria-activedescendant")];""")
        self.assertEqual((faults, told), ([], [[], [], "0#1", False]))

    def test_four_sizes(self) -> None:
        session = play_file(os.path.join(EXAMPLES, "tasks.session"), PROGRAM)
        self.addCleanup(session.close)
        path = page_file(self, session)
        for size in ("1920,1080", "1400,900", "800,1000", "375,800"):
            faults, told = in_browser(path, "return [document.documentElement.scrollWidth, innerWidth, names('.step').length, find('lanes').clientWidth];", size)
            self.assertEqual(faults, [])
            self.assertLessEqual(told[0], told[1], size)
            self.assertGreater(told[2], 5)
            self.assertGreater(told[3], 250)

    def test_needs_that_are_left_out_are_not_counted(self) -> None:
        session, _ = walked(self, 1)
        page = re.sub(r'"leftOut":\[[^]]*\]', '"leftOut":["needs: for a try"]', page_of(session)[0])
        faults, told = in_browser(write_file(self, page, "page.html"), "point('0#1'); return find('told').textContent;")
        self.assertEqual((faults, told.split(": ")[1]), ([], "what it needs is left out"))

    def test_ten_thousand_steps_stay_fluent(self) -> None:
        text = "cells 8\nbody main 0\n  while r0 < 90\n    task t r0\n    let r0 r0 + 1\n  end\nend\nbody t 1\n  while r1 < 26\n" \
               "    let r1 r1 + 1\n    load r2 0\n    let r4 r1\n    let r3 r2\n  end\nend\n"
        many = Session(PROGRAM, Source(text, "many.task"))
        self.addCleanup(many.close)
        for _ in range(21):
            many.do("run 500")
        before = os.times().user
        path = page_file(self, many)
        # Of the processor, for what the page itself does; asking for the causes of each step would take minutes.
        self.assertLess(os.times().user - before, 30)
        faults, times = in_browser(path, """
          const times = [], count = Number(find("at").max), box = find("lanes");
          const time = (act) => { let best = 1e9; for (let k = 0; k < 5; k++) { const from = performance.now(); act(k); document.body.offsetHeight; best = Math.min(best, performance.now() - from); } return best; };
          times.push(time((k) => move(count - 1 - k % 2)));
          move(count);
          times.push(time((k) => { const all = names(".step"); point(all[k]); }));
          times.push(time((k) => { box.scrollTop = 50000 + 3000 * k; press(k % 2 ? "End" : "Home"); }));
          return [document.querySelectorAll(".step").length, ...times];""", "1400,900")
        self.assertEqual(faults, [])
        self.assertGreater(len(many.view("hist")), 10000)
        # A screen has some tens of steps. An idle machine needs some tens of milliseconds, a busy one more.
        drawn, *milliseconds = times
        self.assertTrue(5 < drawn < 200, times)
        self.assertLess(max(milliseconds), 300)


if __name__ == "__main__":
    unittest.main()
