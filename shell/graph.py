"""The tasks as a graph: who generated whom, which dependences order them, who excludes whom, and who is waited for."""

from __future__ import annotations

import html
import os
import shutil
import subprocess
import time
from collections.abc import Callable, Sequence
from dataclasses import dataclass

from shell.console import counted
from shell.clusters import MOST_TASKS, clusters_in_dot
from shell.facts import MOST_ASKED, Facts, Progress, Race, Step, Stopped, Task, by_name, label_of, reduced
from shell.files import write_bytes, write_text
from shell.lanes import NO_CAUSES, NO_RACES
from shell.session import Session

# Each state: its fill, its outline, and the style of the outline, so that it is seen without colour too.
STATES = {
    "pending": ("#ffffff", "#5c5c5c", "dashed"),
    "running": ("#cfe3ff", "#0b5cad", "solid"),
    "ended": ("#e4e4e4", "#1b1b1b", "solid"),
    "faulted": ("#ffd6d6", "#b00020", "diagonals"),
}
READY = "#11693d"
# Of more tasks Graphviz is asked for a quick layout with straight arrows, since its best takes minutes.
MANY = 100
QUICK = ("-Gnslimit=1", "-Gnslimit1=1", "-Gmclimit=0.1", "-Gsplines=line")
# What takes longer, in seconds, is drawn as clusters.
PATIENCE = 20.0
# So often it is looked whether the user stops it.
LOOK = 0.1
RACE = "#b00020"
# Of so many waits the needs are asked for one by one, and of more all needs by one reply.
FEW_WAITS = 20
# Of more pairs of racing tasks none has a say in the ranks, since that would take long and pull the picture apart.
MOST_RANKING = 40


@dataclass
class Wait:
    """A taskwait that is over, and the children whose ends it needs at once."""

    step: str
    line: int | None
    children: list[str]


@dataclass
class Graph:
    """What is drawn."""

    title: str
    tasks: dict[str, Task]
    drawn: dict[str, list[str]]
    inside: dict[str, str | None]
    outer: dict[str, str | None]
    spawned: dict[str, int | None]
    undeferred: set[str]
    waits: list[Wait]
    races: list[Race]
    left_out: list[str]

    def pairs_of_races(self) -> dict[tuple[str, str], list[Race]]:
        """The races by the two tasks of their steps, whichever of them came first."""
        found: dict[tuple[str, str], list[Race]] = {}
        for race in self.races:
            one, two = sorted((race.first.split("#")[0], race.second.split("#")[0]), key=by_name)
            found.setdefault((one, two), []).append(race)
        return found


def groups_of(steps: Sequence[Step]) -> tuple[dict[str, str | None], dict[str, str | None]]:
    """The innermost group of each task, named by the step that opened it, and of each group the one around it."""
    opened: dict[str, list[str]] = {}
    inside: dict[str, str | None] = {"0": None}
    outer: dict[str, str | None] = {}
    for step in steps:
        stack = opened.setdefault(step.task, [])
        # What a task generates outside of its own groups is where the task itself is.
        here = stack[-1] if stack else inside[step.task]
        if step.word == "open":
            outer[step.name] = here
            stack.append(step.name)
        elif step.word == "close":
            stack.pop()
        elif step.word == "spawn":
            inside[step.did.split(" ")[1]] = here
    return inside, outer


def waits_of(facts: Facts, steps: Sequence[Step]) -> list[Wait] | None:
    """The waits that are over, by what each needs at once; None where the program doesn't show it."""
    waits = [step for step in steps if step.word == "wait"]
    if waits and facts.causes(waits[0].name) is None:
        return None
    needs = facts.edges() if len(waits) > FEW_WAITS and len(steps) <= MOST_ASKED else None
    needs = needs or facts.asked([step.name for step in waits])
    return [Wait(step.name, step.line, [early.split("#")[0] for kind, early in needs[step.name] if kind == "wait"]) for step in waits]


def graph_of(session: Session, stop: Callable[[], bool] = lambda: False, progress: Progress = lambda *counts: None) -> Graph:
    """The graph of a session at this moment."""
    facts = Facts(session, stop)
    tasks, steps = facts.tasks(), facts.steps()
    spawns = [step for step in steps if step.word == "spawn"]
    waits, races = waits_of(facts, steps), facts.races()
    inside, outer = groups_of(steps)
    return Graph(session.source.name, tasks, reduced({name: task.before for name, task in tasks.items()}), inside, outer,
                 {step.did.split(" ")[1]: step.line for step in spawns},
                 {step.did.split(" ")[1] for step in spawns if step.did.endswith(" undeferred")},
                 waits or [], races or [], [NO_CAUSES] * (waits is None) + [NO_RACES] * (races is None))


def plate(label: str) -> str:
    """A label in the dot language, off its arrow, and on a white plate: Graphviz lets arrows pass below labels."""
    if not label:
        return '""'
    rows = html.escape(label).replace("\n", "<br/>")
    return f'<<table border="0" cellborder="0" cellspacing="0" cellpadding="2" bgcolor="white"><tr><td>{rows}</td></tr></table>>'


def quoted(text: str) -> str:
    """A text as a word of the dot language."""
    return '"' + text.replace("\\", "\\\\").replace('"', '\\"').replace("\n", "\\n") + '"'


def note_of(task: Task) -> str:
    """What a task does or waits for."""
    if task.ready:
        return "can step"
    if task.waits:
        why, other = task.waits
        return {"Waiting": f"depends on {other}", "Excluded": f"excluded by {other}"}.get(why, f"waits for {other}")
    return task.state


def state_of(task: Task) -> str:
    """The task's state with its line: `running at line 5`."""
    return task.state + (f" at line {task.line}" if task.line else "")


def node(task: Task) -> str:
    """A task's box."""
    fill, outline, style = STATES[task.state]
    rows = [f"{task.name}  {task.body}", state_of(task)] + ([note_of(task)] if note_of(task) != task.state else [])
    wide = 3 if task.ready else 1.2
    return (f"{quoted(task.name)} [label={quoted(chr(10).join(rows))}, style={quoted('filled,' + style)}, fillcolor={quoted(fill)}, "
            f"color={quoted(READY if task.ready else outline)}, penwidth={wide}]")


def boxes(graph: Graph) -> dict[str | None, list[str]]:
    """The groups in each group, where a task is in them."""
    inner: dict[str | None, list[str]] = {}
    seen: set[str] = set()
    for group in graph.inside.values():
        while group and group not in seen:
            seen.add(group)
            inner.setdefault(graph.outer[group], []).append(group)
            group = graph.outer[group]
    return inner


def cluster(graph: Graph, group: str | None, inner: dict[str | None, list[str]], members: dict[str | None, list[str]], pad: str) -> list[str]:
    """The tasks of a group, and the groups in it, each in a box."""
    lines = [pad + node(graph.tasks[name]) for name in members.get(group, ())]
    for child in inner.get(group, ()):
        # Its title is below its tasks, since arrows come from above.
        lines += [f"{pad}subgraph {quoted('cluster ' + child)} {{",
                  f'{pad}  label={quoted("taskgroup " + child)}; labelloc=b; labeljust=l; fontsize=9; style=rounded; color="#11693d"',
                  *cluster(graph, child, inner, members, pad + "  "), pad + "}"]
    return lines


def arrows(graph: Graph) -> list[str]:
    """The arrows: who generated whom, who comes before whom, who excludes whom, who was waited for."""
    lines = []
    for name, task in graph.tasks.items():
        if task.parent is not None:
            label = "undeferred" if name in graph.undeferred else ""
            lines.append(f'{quoted(task.parent)} -> {quoted(name)} [class=spawn, color="#8c8c8c", arrowhead=open, label={plate(label)}]')
        for other in graph.drawn[name]:
            label = "\n".join(label_of(task, graph.tasks[other], "after"))
            lines.append(f"{quoted(other)} -> {quoted(name)} [class=before, penwidth=1.8, label={plate(label)}]")
        for other in task.apart:
            if by_name(other) < by_name(name):
                label = "\n".join(["not together"] + label_of(task, graph.tasks[other], "apart"))
                lines.append(f'{quoted(other)} -> {quoted(name)} [class=apart, dir=none, style=dashed, color="#8a4b00", '
                             f"constraint=false, label={plate(label)}]")
    for wait in graph.waits:
        place = f"taskwait\nline {wait.line}" if wait.line else "taskwait"
        lines.append(f'{quoted(wait.step)} [shape=diamond, fontsize=9, margin="0.02", label={quoted(place)}]')
        lines.append(f'{quoted(wait.step.split("#")[0])} -> {quoted(wait.step)} [class=at, color="#8c8c8c", arrowhead=none]')
        lines += [f'{quoted(child)} -> {quoted(wait.step)} [class=wait, color="#11693d", style=dotted]' for child in wait.children]
    raced = graph.pairs_of_races()
    # Graphviz drops the label of an arrow that has no say in the ranks and leads from one to another.
    ranks = "weight=0" if len(raced) <= MOST_RANKING else "constraint=false"
    for (first, second), races in raced.items():
        label = races[0].over if len(races) == 1 else f"{len(races)} races"
        style = "dashed" if all(race.apart for race in races) else "bold"
        lines.append(f'{quoted(first)} -> {quoted(second)} [class=race, dir=none, style={style}, color="{RACE}", fontcolor="{RACE}", '
                     f"{ranks}, label={plate(label)}]")
    return lines


def dot_of(graph: Graph, clustered: bool = False) -> str:
    """The graph in the dot language; many tasks as clusters, and others where that is asked for."""
    members: dict[str | None, list[str]] = {}
    for name in graph.tasks:
        members.setdefault(graph.inside.get(name), []).append(name)
    title = "\n".join([f"The tasks of {graph.title}", *graph.left_out])
    lines = ["digraph tasks {", f'  graph [fontname="monospace", bgcolor=white, labelloc=t, label={quoted(title)}]',
             '  node [shape=box, fontname="monospace", fontsize=11, fontcolor="#1b1b1b"]',
             '  edge [fontname="monospace", fontsize=9, fontcolor="#1b1b1b", color="#1b1b1b"]',
             *(clusters_in_dot(graph) if clustered or len(graph.tasks) > MOST_TASKS else
               [*cluster(graph, None, boxes(graph), members, "  "), *("  " + line for line in arrows(graph))]), "}"]
    return "\n".join(lines) + "\n"


def tree_of(graph: Graph) -> list[str]:
    """The graph as text, a task a line, each below the one that generated it."""
    lines = []
    raced = graph.pairs_of_races()
    for name, task in graph.tasks.items():
        parts = [state_of(task)] + ([note_of(task)] if note_of(task) != task.state else [])
        parts += ["undeferred"] if name in graph.undeferred else []
        pad = "  " * name.count(".")
        lines.append(f"{pad}{name} {task.body}: {', '.join(parts)}")
        for word, others, how in (("after", graph.drawn[name], "after"), ("apart from", task.apart, "apart")):
            lines += [f"{pad}    {word} {other}, {', '.join(label_of(task, graph.tasks[other], how)[:3])}" for other in others]
        lines += [f"{pad}    races with {other}, {', '.join(dict.fromkeys(race.over for race in races))}" for (other, late), races in raced.items() if late == name]
    return lines + graph.left_out


def drawn_by(words: list[str], text: str, seconds: float | None, stop: Callable[[], bool]) -> bytes | str:
    """What Graphviz makes of a text in the dot language, or what it says against it; raises TimeoutExpired or Stopped."""
    given: bytes | None = text.encode("utf-8", "surrogateescape")
    end = time.monotonic() + (float("inf") if seconds is None else seconds)
    # A session of its own: Ctrl-C at the terminal is for the shell alone.
    with subprocess.Popen(words, stdin=subprocess.PIPE, stdout=subprocess.PIPE, stderr=subprocess.PIPE, start_new_session=True) as child:
        try:
            while True:
                try:
                    out, said = child.communicate(given, min(LOOK, max(0.0, end - time.monotonic())))
                    return out if not child.returncode else f"dot: {said.decode('utf-8', 'replace').strip()}"
                except subprocess.TimeoutExpired:
                    given = None
                    if stop():
                        raise Stopped from None
                    if time.monotonic() >= end:
                        raise
        except BaseException:
            child.kill()
            raise


def written_to(path: str) -> str:
    """The file that is written: where Graphviz isn't here, a text in its language beside the picture that was asked for."""
    base, kind = os.path.splitext(path)
    return path if kind == ".dot" or shutil.which("dot") else base + ".dot"


def write_graph(path: str, graph: Graph, stop: Callable[[], bool] = lambda: False) -> str:
    """Writes the picture, by Graphviz where the file isn't a `.dot`; returns what to say of it. Raises Stopped where `stop` ends it."""
    kind, program = os.path.splitext(path)[1], shutil.which("dot")
    tasks = counted(len(graph.tasks), "task")
    if kind != ".dot" and program:
        words, said = [program, f"-T{kind[1:] or 'svg'}"], f"drawn to {path}, {tasks}"
        try:
            drawn = drawn_by(words + list(QUICK) * (len(graph.tasks) > MANY), dot_of(graph), PATIENCE, stop)
        except subprocess.TimeoutExpired:
            drawn = drawn_by(words, dot_of(graph, True), None, stop)
            said += f" as clusters: Graphviz took more than {PATIENCE:g} s for each of its own"
        if isinstance(drawn, str):
            return drawn
        write_bytes(path, drawn)
        return said
    path = written_to(path)
    write_text(path, dot_of(graph))
    return f"written to {path}, {tasks}" + ("" if kind == ".dot" else "; Graphviz, which would draw it, isn't here")
