#!/usr/bin/env python3
"""Compares the judge with another implementation of run texts on random ones.

    openmp/tests/compare_runs.py --oracle 'COMMAND' [--program PROGRAM] [--count N] [--seed S] [--keep DIR]

The COMMAND gets a run text on standard input and has to report on it: `legal K`, `unended M` and their names, `races R` and
their lines; or `line L: refused NUMBER NAME ..`. A file of Python that has a function `report` is called in this process.
PROGRAM plays the sessions whose histories are the texts (TASKBACK_PROGRAM, or the program of this folder).

Each text is made a trace, as if one thread had taken the steps. Of one in three nothing is changed; in the others two
events are exchanged, one is left out, doubled, or has another task or number. What a trace can't say isn't compared: a text
is cut in front of a step that has a wrong name or number, reads a wrong number, or is of a task that hasn't started or has
ended, since the recorder counts these itself; prints and what the program does with numbers aren't in a trace.
"""

import argparse
import importlib.util
import json
import os
import random
import re
import shlex
import subprocess
import sys
import tempfile
from collections import Counter

from support import TOP, write_trace
from taskrun import building
from taskrun import trace as t

BASE = 1 << 20      # where the cells are
TYPES = {"in": 1, "out": 3, "inout": 3, "mutexinoutset": 4, "inoutset": 8}
ALL_MEMORY, UNDEFERRED, EXPLICIT = 0x80, 0x8000000, 4
RULES = {"3": "Waiting", "4": "Excluded", "5": "Children", "6": "Group", "13": "Undeferred"}


def module_of(path, name):
    """A file of Python as a module."""
    spec = importlib.util.spec_from_file_location(name, path)
    module = importlib.util.module_from_spec(spec)
    spec.loader.exec_module(module)
    return module


class Program:
    """A random program: bodies of a few statements, in which tasks of the bodies behind are made."""

    def __init__(self, r):
        self.r = r
        self.cells = r.choice([1, 1, 2, 3])
        self.head = [f"cells {self.cells}"] + [f"cell {cell} {cell + 4}" for cell in range(self.cells) if r.random() < 0.3]
        self.lines = list(self.head)
        names = ["main", "a", "b", "c"][:r.choice([2, 3, 4])]
        for at, name in enumerate(names):
            self.lines.append(f"body {name} 0")
            self._statements(names[at + 1:], r.choice([2, 4, 6]) if at else r.choice([4, 6, 9]))
            self.lines.append("end")

    def _items(self, types, counts):
        return "".join(f" depend {self.r.choice(types)} {self.r.randrange(self.cells)}" for _ in range(self.r.choice(counts)))

    def _statements(self, names, count, depth=0):
        for _ in range(count):
            kind = self.r.choice(["load", "store", "store", *["task"] * (5 if names else 0), "taskwait", "group"])
            cell = self.r.randrange(self.cells)
            if kind == "load":
                self.lines.append(f"load r1 {cell}")
            elif kind == "store":
                self.lines.append(f"store {cell} {self.r.randrange(4)}")
            elif kind == "task":
                items = self._items([*TYPES, "mutexinoutset"], [0, 1, 1, 1, 2, 3])
                if self.r.random() < 0.06:
                    items = self.r.choice([" depend out all", " depend inout all"])
                self.lines.append(f"task {self.r.choice(names)}{items}" + self.r.choice(["", "", "", "", " if 0 == 1"]))
            elif kind == "taskwait" and self.r.random() < 0.5:
                self.lines.append("taskwait" + self._items(["in", "out", "inout", "inoutset"], [0, 1, 1, 2]))
            elif kind == "group" and depth < 2:
                self.lines.append("taskgroup")
                self._statements(names, 2, depth + 1)
                self.lines.append("end")


def history(program, r):
    """(the lines in front of the events, the events) of a random session, as `hist` tells them."""
    made = Program(r)
    names = ["0"] * 8 + ["0." + ".".join(str(r.choice([1, 1, 2, 2, 3, 4, 5])) for _ in range(r.choice([1, 1, 1, 2, 2, 3])))
                         for _ in range(40)]
    steps = ["step " + r.choice(names) for _ in range(r.choice([0, 100, 400, 800]))]
    asked = "\n".join([*made.lines, "---", *steps, f"run {r.choice([0, 20, 100])}", "hist"]) + "\n"
    done = subprocess.run([program], input=asked.encode(), capture_output=True, check=False).stdout.decode("utf-8", "replace")
    found = re.search(r"(?m)^hist \d+\n((?:.*\n)*)", done)
    return made.head, found[1].splitlines()[:r.choice([12, 20, 30])] if found else []


def changed(events, r):
    """The events with one change, without the steps' numbers; what is loaded is what was stored last."""
    events = [re.sub(r"#\d+", "", event, count=1) for event in events]
    if len(events) < 3:
        return events
    one, other = r.randrange(1, len(events)), r.randrange(1, len(events))
    kind = r.choice(["exchange", "exchange", "leave", "leave", "double", "task", "number"])
    if kind == "exchange":
        events[one], events[other] = events[other], events[one]
    elif kind == "leave":
        del events[one]
    elif kind == "double":
        events.insert(other, events[one])
    elif kind == "task":
        events[one] = events[other].split()[0] + " " + " ".join(events[one].split()[1:])
    else:
        events[one] = re.sub(r" \d+\b", lambda found: r.choice([found[0], " 0", " 1"]), events[one])
    return events


def with_right_loads(head, events):
    """The events, in which each load has the number that was stored last."""
    cells = {words[1]: words[2] for words in map(str.split, head) if words[0] == "cell"}
    found = []
    for event in events:
        words = event.split()
        if words[1:2] == ["store"] and len(words) == 4:
            cells[words[2]] = words[3]
        if words[1:2] == ["load"] and len(words) == 5:
            words[4] = cells.get(words[3], "0")
        found.append(" ".join(words))
    return found


class Made:
    """The trace of a run text: its events, the numbers of its tasks, and the line of each place."""

    def __init__(self, events):
        self.numbers = {"0": 0}
        self.names = {0: "0"}
        self.events = []
        self._stamp = 0
        for line, event in enumerate(events, 1):
            self._take(line, *event.split(maxsplit=1))

    def _add(self, kind, task, address=0, value=0, place=0, size=0, mark=0):
        event = t.Event(address, value, 0, task, place, size, kind, mark)
        self._stamp += t.takes_number(event)
        self.events.append(event._replace(stamp=self._stamp))

    def _items(self, kind, task, words, line):
        while words[:1] == ["depend"]:
            is_all = words[2] == "all"
            mark = ALL_MEMORY | 3 if is_all else TYPES[words[1]]
            self._add(kind, task, 0 if is_all else BASE + 8 * int(words[2]), 8, line, mark=mark)
            words = words[3:]
        return words

    def _take(self, line, name, text):
        task, words = self.numbers[name.partition("#")[0]], text.split()
        kind = words[0]
        if kind in ("start", "end"):
            if task:
                self._add(t.START if kind == "start" else t.END, task, place=line)
            elif kind == "end":
                self._add(t.ENDED, 0, place=line)
        elif kind in ("load", "store"):
            cell = words[2] if kind == "load" else words[1]
            self._add(t.READ if kind == "load" else t.WRITE, task, BASE + 8 * int(cell), 0, line, 8)
        elif kind == "spawn":
            self._spawn(task, line, words)
        elif kind == "wait":
            self._items(t.WAIT_ITEM, task, words[1:], line)
            self._add(t.WAIT_ITEMS if len(words) > 1 else t.WAIT, task, place=line)
        elif kind in ("open", "close"):
            self._add(t.GROUP_OPEN if kind == "open" else t.GROUP_CLOSE, task, place=line)

    def _spawn(self, task, line, words):
        child = len(self.numbers)
        self.numbers[words[1]] = child
        self.names[child] = words[1]
        flags = EXPLICIT | (UNDEFERRED if words[-1] == "undeferred" else 0)
        self._add(t.CREATE, task, child, flags, line)
        at = words.index("depend") if "depend" in words else len(words)
        self._items(t.ITEM, child, words[at:], line)


def judged(judge, folder, events, *words):
    """What the judge says of these events."""
    path = os.path.join(folder, "trace")
    write_trace(path, "/none", Made(events).events)
    return json.loads(subprocess.run([judge, path, *words], capture_output=True, check=True).stdout)


def of_oracle(told, lines_before):
    """(the rule that is broken or None, the line, whom it names; {later step: (earlier, whether apart)}, unended names)."""
    refused = re.match(r"line (\d+): refused (\d+) \w+ ?(\S*)", told)
    if refused:
        return refused[2], int(refused[1]) - lines_before, refused[3], {}, []
    lines = told.splitlines()
    count = int(lines[1].split()[1])
    races = {}
    for line in lines[3 + count:]:
        earlier, later, word = line.split()[:3]
        if word != "print":
            races[later] = earlier, line.endswith(" apart")
    return None, 0, "", races, [name for name in lines[2:2 + count] if name != "0"]


def ids_of(events):
    """`T#K` of each event."""
    counts, found = Counter(), []
    for event in events:
        name = event.split()[0].partition("#")[0]
        counts[name] += 1
        found.append(f"{name}#{counts[name]}")
    return found


def pairs_of(told):
    """{the line of a later step: [(the line of an earlier one, whether they are apart)]} as the judge has them."""
    pairs = {}
    for race in told["races"]:
        pairs.setdefault(race["later"]["place"], []).append((race["earlier"]["place"], race["apart"]))
    return pairs


def races_of(told, events):
    """{later step: (the newest earlier one, whether all are apart)} as the judge has them."""
    ids, pairs, found = ids_of(events), pairs_of(told), {}
    for later, earlier in pairs.items():
        bare = [place for place, apart in earlier if not apart]
        found[ids[later - 1]] = ids[max(bare or [place for place, _ in earlier]) - 1], not bare
    return found


class Exclusion:
    """Which steps no schedule has at once, since each is of a task, or comes in front of its end, and the two tasks
    exclude each other. A run text's `apart` is of its own order: it holds too where a child goes on past such an end."""

    def __init__(self, oracle, head, events):
        self.oracle, self.cells = oracle, int(head[0].split()[1])
        self.head = [f"cells {self.cells + 1}", *head[1:]]
        self.events = [re.sub(r"#\d+", "", event, count=1) for event in events]
        self.places = {}
        for words in map(str.split, self.events):
            if words[1] == "spawn":
                self.places[words[2]] = {place for kind, place in zip(words, words[1:]) if kind == "mutexinoutset"}

    def _is_in_front(self, line, task):
        """Whether the step comes in front of the task's end: a store behind it and a load there, of one more cell, race
        where it doesn't."""
        own, end = self.events[line - 1].split()[0], f"{task} end"
        if own == task:
            return True
        if end not in self.events[line:]:
            return False
        at = self.events.index(end)
        text = [*self.head, *self.events[:line], f"{own} store {self.cells} 1", *self.events[line:at],
                f"{task} load r1 {self.cells} 1", *self.events[at:]]
        told = self.oracle("\n".join(text) + "\n")
        return not re.search(rf" cell {self.cells}( apart)?$", told, re.M)

    def pairs(self, earlier, later):
        """The tasks that exclude each other of which these steps are, or from which their tasks come."""
        def outer(line):
            name = self.events[line - 1].split()[0].split(".")
            return [".".join(name[:count]) for count in range(2, len(name) + 1)]
        return [(a, b) for a in outer(earlier) for b in outer(later)
                if a != b and a.rpartition(".")[0] == b.rpartition(".")[0] and self.places[a] & self.places[b]]

    def may_order(self, earlier, later):
        """Whether between the two one task has ended in front of the start of another one that it excludes."""
        ends = [event.split()[0] for event in self.events[earlier - 1:later] if event.endswith(" end")]
        starts = [event.split()[0] for event in self.events[earlier - 1:later] if event.endswith(" start")]
        return any(a != b and a.rpartition(".")[0] == b.rpartition(".")[0] and self.places[a] & self.places[b]
                   and self.events.index(f"{a} end") < self.events.index(f"{b} start")
                   for a in ends for b in starts if a in self.places and b in self.places)

    def keeps_apart(self, earlier, later):
        """Whether no schedule has these two at once."""
        return any(self._is_in_front(earlier, a) and self._is_in_front(later, b) for a, b in self.pairs(earlier, later))


def are_alike(told, races, events, exclusion):
    """Whether both have the same races, and the judge's `apart` is that of every schedule."""
    ids, pairs = ids_of(events), pairs_of(told)
    if {ids[later - 1] for later in pairs} != set(races):
        return False
    for later, earlier in pairs.items():
        newest, is_apart = races[ids[later - 1]]
        if newest not in {ids[line - 1] for line, _ in earlier}:
            return False
        for line, word in earlier:
            is_newest = ids[line - 1] == newest
            # What the run text calls apart: all of them, or those behind the newest that isn't.
            is_told_apart = is_apart or line > max(place for place, _ in earlier if ids[place - 1] == newest)
            if word != exclusion.keeps_apart(line, later) or (is_newest and word and not is_apart):
                return False
            if is_told_apart and not word and not exclusion.may_order(line, later):
                return False
    return True


def kinds(apart):
    """Whether some race isn't apart, and else whether there is one."""
    return False in apart, bool(apart)


def differences(oracle, judge, folder, head, events):
    """What the two say differently of a text, as words; and what was compared."""
    told = oracle("\n".join([*head, *events]) + "\n")
    if told is None:
        return [], "fault"
    rule, line, whom, races, unended = of_oracle(told, len(head))
    if rule is not None and rule not in RULES:
        return differences(oracle, judge, folder, head, events[:line - 1]) if line > 1 else ([], "empty")
    if rule is not None:
        events = events[:line]
    plain = judged(judge, folder, events, "plain")
    fault = plain["fault"]
    if (rule is None) != (fault is None):
        return [f"oracle: {told.splitlines()[0]}; judge: {fault}"], "refused"
    if rule is not None:
        names = Made(events).names
        other = names.get(fault["other"])
        is_alike = (RULES[rule], line, whom) == (fault["rule"], fault["place"], other)
        return [] if is_alike else [f"oracle: {told.splitlines()[0]} (event {line}); judge: {fault}, {other}"], "refused " + RULES[rule]
    short = judged(judge, folder, events)
    wrong = []
    if not are_alike(plain, races, events, Exclusion(oracle, head, events)):
        wrong.append(f"races: oracle {races}; judge {races_of(plain, events)}")
    if kinds({race["apart"] for race in short["races"]}) != kinds({race["apart"] for race in plain["races"]}):
        wrong.append(f"races with short cuts: oracle {races}; judge {races_of(short, events)}")
    if plain["unended"] != len(unended):
        wrong.append(f"unended: oracle {unended}; judge {plain['unended']}")
    return wrong, "races" if races else "no race"


def oracle_of(command):
    """A function from a text to the report, or None where the text has a fault."""
    if command.endswith(".py") and os.path.exists(command):
        report = module_of(command, "oracle_of_runs").report
        sys.setrecursionlimit(10000)

        def ask(text):
            out, fault, _ = report(text.encode())
            return None if fault else out
        return ask

    def run(text):
        done = subprocess.run(shlex.split(command), input=text, capture_output=True, text=True, check=False)
        return None if done.stderr else done.stdout
    return run


def main():
    given = argparse.ArgumentParser(description=__doc__, formatter_class=argparse.RawDescriptionHelpFormatter)
    given.add_argument("--oracle", required=True)
    given.add_argument("--program", default=os.environ.get("TASKBACK_PROGRAM", os.path.join(TOP, ".cache", "taskback")))
    given.add_argument("--count", type=int, default=3000)
    given.add_argument("--seed", type=int, default=1)
    given.add_argument("--keep", default="differing")
    options = given.parse_args()
    oracle, judge = oracle_of(options.oracle), building.judge()
    compared, differing = Counter(), 0
    with tempfile.TemporaryDirectory() as folder:
        for seed in range(options.seed, options.seed + options.count):
            r = random.Random(seed)
            head, events = history(options.program, r)
            if seed % 3:
                events = with_right_loads(head, changed(events, r))
            if not events or any(event.split()[1:] == ["fault"] for event in events):
                compared["nothing to compare"] += 1
                continue
            wrong, kind = differences(oracle, judge, folder, head, events)
            compared[kind] += 1
            if not wrong:
                continue
            differing += 1
            os.makedirs(options.keep, exist_ok=True)
            with open(os.path.join(options.keep, f"{seed}.run"), "w", encoding="utf-8") as file:
                file.write("\n".join([*head, *events]) + "\n")
            print(f"seed {seed}: " + "; ".join(wrong), flush=True)
    print(", ".join(f"{kind}: {count}" for kind, count in sorted(compared.items())))
    print(f"{options.count} texts: {differing} differ")
    return 1 if differing else 0


if __name__ == "__main__":
    sys.exit(main())
