"""The commands that execute steps: many at once, of one task, and in any order."""

from __future__ import annotations

import random
from collections import deque
from collections.abc import Callable, Sequence

from shell.console import ROWS, counted
from shell.group import Group, Host, Words, count_in
from shell.protocol import is_digits
from shell.session import GREATEST_LIMIT, Steps, is_step

# A run that is longer than so many screens is shown as a count, with so many lines at its end.
SCREENS = 4
LEAST_SHOWN = 100
LAST_SHOWN = 12


def task_of(line: str) -> str:
    """The task of a step's line."""
    return line.split("#")[0]


class Shower:
    """Shows the steps of a run as they come: the first screens of them, and then a count with the last ones."""

    def __init__(self, group: Group, verbose: bool) -> None:
        self.group = group
        self.most: float = float("inf") if verbose or group.console.whole else max(LEAST_SHOWN, SCREENS * (group.console.rows() or ROWS))
        self.executed = 0
        self.hidden = 0
        self.last: deque[str] = deque(maxlen=LAST_SHOWN)

    def __call__(self, steps: Steps) -> None:
        """Some more steps."""
        shown = steps[:max(0, int(min(len(steps), self.most - self.executed)))]
        self.group.shell.show(shown)
        self.executed += len(steps)
        self.hidden += len(steps) - len(shown)
        self.last.extend(steps[len(shown):])
        if self.hidden:
            self.group.console.progress(self.executed, "steps")

    def end(self) -> None:
        """The run is over."""
        self.group.console.end_progress()
        if self.hidden > len(self.last):
            self.group.say(f"... {counted(self.hidden - len(self.last), 'more step')} (`-v` shows all)")
        self.group.shell.show(list(self.last))


def options_of(words: Words) -> tuple[bool, list[str]]:
    """Whether `-v` is among the words, and the others."""
    return "-v" in words, [word for word in words if word != "-v"]


class Walking(Group):
    """Commands that execute steps."""

    def __init__(self, shell: Host) -> None:
        super().__init__(shell)
        self.told_of_breakpoints = False

    def walk(self, prefix: str, count: int, stop: Callable[[Steps], str | None] | None = None, piece: int = 1000, verbose: bool = False) -> None:
        """A long run in pieces, which Ctrl-C or `stop` ends: that returns the word for why."""
        shower = Shower(self, verbose)
        ended: str | None = None

        def ends(steps: Steps) -> bool:
            nonlocal ended
            ended = stop(steps) if stop else None
            return ended is not None or self.interrupted

        def show(steps: Steps) -> None:
            shower(steps)
            if steps:
                self.shell.focus = task_of(steps[-1])
        executed, why, _ = self.session.run(prefix, count, show, ends, piece)
        shower.end()
        self.say(f"ran {executed} {ended or why}")
        self.shell.explain(prefix, f"ran {executed} {why}")
        if why == "break" and not self.console.exact:
            self.shell.breaking.report_met(self.session.newest)
        if not executed and why == "done" and self.session.history:
            self.note("no task can step: `waits` says for whom they wait" if len(self.session.view("waits")) > 1 else
                      "all tasks are over; `restart` starts anew, and `rc` goes back")
        if self.interrupted:
            self.note(f"stopped by {self.console.stopper}; the session goes on")

    def one_step(self, task: str) -> bool:
        """One step of a task; returns whether it was executed."""
        reply = self.shell.send(f"step {task}")
        if is_step(reply[0]):
            self.shell.focus = task
        return is_step(reply[0])

    def ready(self) -> list[str]:
        """The tasks that can step."""
        return self.session.view("ready")[1:]

    def do_step(self, words: Words) -> None:
        """The next step, or the next few, of a task."""
        self.shell.last_step = " ".join(["step", *words])
        if len(words) == 1:
            self.one_step(words[0])
            return
        count = count_in(words, 1, 1)
        if count is None:
            self.wrong("step")
            return
        ready = [] if words else self.ready()
        if not words and not ready:
            self.refuse("no task can step")
            return
        task = words[0] if words else ready[0]
        for _ in range(count):
            if self.interrupted or not self.one_step(task):
                return

    def do_run(self, words: Words) -> None:
        """Steps of the least task."""
        verbose, left = options_of(words)
        count = count_in(left, 0, GREATEST_LIMIT)
        if count is None:
            self.shell.send(" ".join(["run", *left]))
            return
        self.shell.last_step = " ".join(["run", *words])
        if self.shell.breaking.run_breaks:
            self.stopping("go 1", count, verbose)
        else:
            self.walk("run", count, verbose=verbose)
            self.report_breakpoints()

    def report_breakpoints(self) -> None:
        """Says once, where there are breakpoints, that `run` has passed by them."""
        if not self.told_of_breakpoints and not self.console.exact and (self.shell.stops.there or len(self.session.view("breaks")) > 1):
            self.told_of_breakpoints = True
            self.note("`run` passes by breakpoints: `go` stops at them, and after `set run-breaks on` so does `run`")

    def do_go(self, words: Words) -> None:
        """Steps up to a breakpoint, by one worker or by several."""
        verbose, left = options_of(words)
        count = count_in(left[-1:], 0, GREATEST_LIMIT)
        workers = count_in(left[:-1], 0, 1)
        if count is None or workers is None or not 1 <= workers <= self.session.workers:
            self.shell.send(" ".join(["go", *left]))
            return
        self.shell.last_step = " ".join(["go", *words])
        self.stopping(f"go {workers}", count, verbose)

    def stopping(self, prefix: str, count: int, verbose: bool) -> None:
        """Steps up to a breakpoint of the program, or to one of the shell's own, for which each step is looked at."""
        stops = self.shell.stops
        if not stops.there:
            self.walk(prefix, count, verbose=verbose)
            return
        stops.refresh(self.session)
        met: list[str] = []

        def at_stop(steps: Steps) -> str | None:
            met[:] = [text for line in steps for text in stops.met(line, self.session)]
            return "break" if met else None
        self.walk(prefix, count, at_stop, 1, verbose)
        for text in met:
            self.note(f"breakpoint {text}")

    def do_finish(self, words: Words) -> None:
        """A task up to its end."""
        task = words[0] if words else self.shell.focus
        if len(words) > 1:
            self.wrong("finish")
            return
        while not self.interrupted and self.one_step(task):
            if self.session.positions.position.get(task) is None:
                return

    def do_until(self, words: Words) -> None:
        """Runs until a step is executed."""
        task, _, number = words[0].partition("#") if len(words) == 1 else ("", "", "")
        if len(words) == 1 and is_digits(words[0]):
            self.fail(f"until wants a step, as 0.2#4; `break line {words[0]}` and `go` stop at a line")
            return
        if not is_digits(number) or number.startswith("0") or self.session.view(f"task {task}")[0].startswith("error"):
            self.wrong("until")
            return
        wanted = words[0]
        if wanted in self.session.history:
            self.refuse(f"{wanted} is in the history already; `roll {wanted}` takes it back")
            return
        self.walk("run", GREATEST_LIMIT, lambda steps: "limit" if any(line.split(" ")[0] == wanted for line in steps) else None, 1)
        if wanted not in self.session.history and not self.interrupted:
            self.refuse(f"{wanted} was never reached")

    def do_random(self, words: Words) -> None:
        """Steps of any task, chosen by a seed."""
        count = count_in(words, 1, GREATEST_LIMIT)
        if not words or not is_digits(words[0]) or count is None:
            self.wrong("random")
            return
        choice = random.Random(int(words[0]))
        self.choose(count, choice.choice)

    def do_last(self, words: Words) -> None:
        """Steps of the task with the greatest name."""
        count = count_in(words, 0, 1)
        if count is None:
            self.wrong("last")
            return
        self.shell.last_step = " ".join(["last", *words])
        self.choose(count, lambda ready: ready[-1])

    def choose(self, count: int, pick: Callable[[Sequence[str]], str]) -> None:
        """Up to `count` steps, each of a task that is picked of those that can step."""
        for _ in range(count):
            ready = self.ready()
            if not ready:
                self.note("no task can step")
                return
            if self.interrupted or not self.one_step(pick(ready)):
                return
