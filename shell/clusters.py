"""Many tasks as clusters: one box for the tasks of one body that one line generated, with counts on the arrows."""

from __future__ import annotations

from collections import Counter
from typing import Protocol

from shell.facts import Race, Task, by_name

# A graph of more tasks is drawn as clusters.
MOST_TASKS = 300
STYLES = {"spawn": 'color="#8c8c8c", arrowhead=open', "before": "penwidth=1.8", "apart": 'dir=none, style=dashed, color="#8a4b00", constraint=false',
          "race": 'dir=none, style=bold, color="#b00020", fontcolor="#b00020", constraint=false'}
WORDS = {"before": "ordered", "apart": "not together", "race": "races"}

Key = tuple[str, int | None]


class Graph(Protocol):
    """What clusters show of a graph: its tasks, what each comes after, and by which line it was generated."""

    tasks: dict[str, Task]
    drawn: dict[str, list[str]]
    spawned: dict[str, int | None]

    def pairs_of_races(self) -> dict[tuple[str, str], list[Race]]:
        """The races by the two tasks of their steps."""


def key_of(graph: Graph, name: str) -> Key:
    """The cluster of a task: its body, and the line that generated it."""
    return graph.tasks[name].body, graph.spawned.get(name)


def counts_of(graph: Graph) -> Counter[tuple[str, Key, Key]]:
    """How many arrows of each kind lead from one cluster to another; of races each one counts."""
    found: Counter[tuple[str, Key, Key]] = Counter()
    for name, task in graph.tasks.items():
        own = key_of(graph, name)
        if task.parent is not None:
            found["spawn", key_of(graph, task.parent), own] += 1
        for other in graph.drawn[name]:
            found["before", key_of(graph, other), own] += 1
        for other in task.apart:
            if by_name(other) < by_name(name):
                found["apart", key_of(graph, other), own] += 1
    for pair, races in graph.pairs_of_races().items():
        one, two = sorted((key_of(graph, name) for name in pair), key=lambda key: (key[1] or 0, key[0]))
        found["race", one, two] += len(races)
    return found


def clusters_in_dot(graph: Graph) -> list[str]:
    """The boxes and arrows in the dot language."""
    members: dict[Key, Counter[str]] = {}
    for name, task in graph.tasks.items():
        members.setdefault(key_of(graph, name), Counter())[task.state] += 1
    names = {key: f"c{number}" for number, key in enumerate(members)}
    counts = counts_of(graph)
    lines = []
    for key, states in members.items():
        body, line = key
        rows = [f"{sum(states.values())} x {body}", f"of line {line}" if line else "the root", ", ".join(f"{count} {state}" for state, count in states.items())]
        rows += [f"{counts[kind, key, key]} {word} among them" for kind, word in WORDS.items() if counts[kind, key, key]]
        text = "\\n".join(rows)
        lines.append(f'  {names[key]} [label="{text}", style="filled,rounded", fillcolor="#f3f3f3", peripheries={2 if sum(states.values()) > 1 else 1}]')
    for (kind, first, second), count in counts.items():
        if first != second or kind == "spawn":
            lines.append(f'  {names[first]} -> {names[second]} [class={kind}, {STYLES[kind]}, label=" {count}"]')
    return lines
