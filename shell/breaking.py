"""The commands of breakpoints, watched values and expressions, and of what the shell is set to."""

from __future__ import annotations

import re

from shell import help_texts
from shell.console import counted
from shell.expressions import Unknown, Unreadable, parsed
from shell.group import Group, Host, Words
from shell.protocol import is_digits
from shell.stops import Breakpoint, Stop, Where, program_stops
from shell.values import Values

TASK = re.compile(r"0(\.[1-9][0-9]*)*")
# A line of a C file, as `sum.c:12`.
LINE_OF_C = re.compile(r"[^\s:]+:[0-9]+")
SETTINGS = ("run-breaks", "pager")


class Breaking(Group):
    """Breakpoints, watched values, expressions and settings."""

    def __init__(self, shell: Host) -> None:
        super().__init__(shell)
        self.run_breaks = False
        self.displays: dict[int, tuple[str, str]] = {}

    # Breakpoints

    def do_break(self, words: Words) -> None:
        """A breakpoint of the program, or one at a line or with a condition."""
        at = words.index("if") if "if" in words else len(words)
        where, condition = list(words[:at]), " ".join(words[at + 1:])
        if at < len(words) and not condition:
            self.wrong("break")
        elif where[:1] == ["line"] and len(where) == 2 and is_digits(where[1]):
            self.break_line(int(where[1]), condition)
        elif where[:1] == ["line"] and len(where) == 2 and LINE_OF_C.fullmatch(where[1]):
            self.break_line_of_c(where[1], condition)
        elif condition:
            self.break_where(where, condition)
        else:
            self.shell.send(" ".join(["break", *words]))

    def break_line(self, number: int, condition: str) -> None:
        """A breakpoint at a line; on the line of a body it is one of the body."""
        source = self.session.source
        line = source.line(number)
        if line.startswith("body "):
            self.do_break(["body", line.split(" ")[1]] + (["if", condition] if condition else []))
        elif source.is_step(number):
            self.add(Where("line", str(number)), condition, f"go stops after each step at {number}: {line}")
        else:
            self.refuse(f"no step is executed at line {number}")

    def break_line_of_c(self, name: str, condition: str) -> None:
        """A breakpoint at a line of the C file of a recorded run."""
        numbers = self.session.source.steps_at(name)
        if numbers:
            self.add(Where("line", name), condition, f"go stops after each step at {counted(len(numbers), 'line')} of the session")
        else:
            self.refuse(f"no step is executed at {name}")

    def break_where(self, where: Words, condition: str) -> None:
        """A breakpoint with a condition: the program has none, so it isn't asked whether there can be one."""
        kind, what = where[0] if where else "", where[1] if len(where) == 2 else ""
        source = self.session.source
        if len(where) != (1 if kind in ("print", "fault") else 2) or kind not in ("print", "fault", "task", "cell", "body"):
            found = help_texts.break_meant(["break", *where, "if", condition], list(source.bodies))
            if found:
                self.fail(f"did you mean `{found}`?")
            else:
                self.wrong("break")
        elif kind == "task" and not TASK.fullmatch(what):
            self.fail("a task is written 0.1")
        elif kind == "cell" and not (is_digits(what) and int(what) < source.cells):
            self.refuse(f"the program has no cell {what}")
        elif kind == "body" and what not in source.bodies:
            self.refuse(f"no body of the program is named {what}")
        else:
            self.add(Where(kind, what), condition, "go stops after such a step where the condition holds")

    def add(self, where: Where, condition: str, words: str) -> None:
        """One of the shell's own."""
        try:
            name = self.shell.stops.add_breakpoint(where, condition)
        except Unreadable as fault:
            self.fail(str(fault))
            return
        self.say(f"break {name} {where}" + (f" if {condition}" if condition else ""))
        self.note(words)

    def do_watch(self, words: Words) -> None:
        """A number that stops a `go` where it changes."""
        if not words:
            self.wrong("watch")
            return
        if "if" in words:
            self.fail("a watch has no condition: `break cell 0 if value > 1` has one, and so has `break line 12 if r0 > 3`")
            return
        try:
            name, number = self.shell.stops.add_watch(" ".join(words), self.shell.focus, self.session)
        except Unreadable as fault:
            self.fail(str(fault))
            return
        self.say(f"watch {name} {' '.join(words)}" + (f" = {number}" if number is not None else ""))
        if number is None:
            self.note("it isn't there yet")

    def do_clear(self, words: Words) -> None:
        """Takes a breakpoint away."""
        stops = self.shell.stops
        if len(words) == 2 and words[0] == "line" and (is_digits(words[1]) or LINE_OF_C.fullmatch(words[1])):
            self.clear_line(words[1])
        elif len(words) == 1 and words[0].startswith("s") and is_digits(words[0][1:]):
            wanted = int(words[0][1:])
            if stops.clear(lambda number, stop: number == wanted):
                self.say(f"cleared {words[0]}")
            else:
                self.refuse(f"no breakpoint {words[0]}; `breaks` shows them")
        else:
            self.shell.send(" ".join(["clear", *words]))

    def clear_line(self, name: str) -> None:
        """Takes the breakpoints at a line away; on the line of a body those of the body, also the program's own."""
        line = self.session.source.line(int(name)) if is_digits(name) else ""
        where = Where("body", line.split(" ")[1]) if line.startswith("body ") else Where("line", name)

        def is_there(number: int, stop: Stop) -> bool:
            return isinstance(stop, Breakpoint) and stop.where == where

        gone = self.shell.stops.clear(is_there)
        own = [number for number, other in program_stops(self.session.view("breaks")[1:]) if other == where]
        for number in own:
            self.shell.send(f"clear {number}")
        if gone:
            self.say(f"cleared line {name}")
        elif not own:
            self.refuse(f"no breakpoint is at line {name}")

    def do_breaks(self, words: Words) -> None:
        """The breakpoints of the program, and the shell's own."""
        self.shell.send(" ".join(["breaks", *words]))
        for number, stop in self.shell.stops.there.items():
            line = int(stop.where.what) if isinstance(stop, Breakpoint) and stop.where.kind == "line" and is_digits(stop.where.what) else None
            self.console.reply(f"s{number} {stop}", line, f"{line}: {self.session.source.shown(line)}" if line else "")

    def report_met(self, name: str | None) -> None:
        """Which of the program's breakpoints the newest step meets."""
        if name is None:
            return
        line = self.session.line_of(name)
        for number, where in program_stops(self.session.view("breaks")[1:]):
            if where.meets(line, self.session.positions):
                self.note(f"breakpoint {number}: {where}")

    # Expressions

    def value_of(self, text: str, task: str) -> int | None:
        """The number of an expression; where there is none, says why."""
        try:
            return parsed(text).evaluate(Values(self.session), task)
        except Unreadable as fault:
            self.fail(str(fault))
        except Unknown as unknown:
            self.refuse(str(unknown))
        return None

    def do_print(self, words: Words) -> None:
        """The number of an expression."""
        if not words:
            self.wrong("print")
            return
        text = " ".join(words)
        number = self.value_of(text, self.shell.focus)
        if number is not None:
            self.say(f"{self.shown(text, self.shell.focus)} = {number}")

    @staticmethod
    def shown(text: str, task: str) -> str:
        """An expression with the task whose registers it means."""
        if parsed(text).reads("") == parsed(text).reads(task):
            return text
        return f"{text} of {task}" if " " not in text else f"({text}) of {task}"

    def do_display(self, words: Words) -> None:
        """An expression that is shown after each command that steps; alone, all of them."""
        if words:
            text = " ".join(words)
            try:
                parsed(text)
            except Unreadable as fault:
                self.fail(str(fault))
                return
            number = max(self.displays, default=0) + 1
            self.displays[number] = (text, self.shell.focus)
            self.show_display(number)
        elif not self.displays:
            self.say("no expression is displayed")
        else:
            self.show_displays()

    def show_displays(self) -> None:
        """All expressions that are displayed."""
        for number in self.displays:
            self.show_display(number)

    def show_display(self, number: int) -> None:
        """One of them: its task is the one that stepped last where it was asked for."""
        text, task = self.displays[number]
        try:
            value = str(parsed(text).evaluate(Values(self.session), task))
        except Unknown as unknown:
            value = f"none: {unknown}"
        self.say(f"{number}: {self.shown(text, task)} = {value}")

    def do_undisplay(self, words: Words) -> None:
        """An expression is shown no more."""
        if len(words) != 1 or not is_digits(words[0]):
            self.wrong("undisplay")
        elif self.displays.pop(int(words[0]), None) is None:
            self.refuse(f"no expression {words[0]} is displayed")

    # Settings

    def do_set(self, words: Words) -> None:
        """What the shell is set to."""
        now = {"run-breaks": self.run_breaks, "pager": self.console.pages}
        if not words:
            for name, value in now.items():
                self.say(f"{name} {'on' if value else 'off'}")
        elif len(words) > 2 or words[0] in ("var", "variable"):
            self.fail("registers and cells can't be set: what a step computes follows from the steps before it; `flip`, or `roll` and another order, give others")
        elif len(words) != 2 or words[0] not in SETTINGS or words[1] not in ("on", "off"):
            self.wrong("set")
        elif words[0] == "run-breaks":
            self.run_breaks = words[1] == "on"
            self.say(f"run {'stops' if self.run_breaks else 'does not stop'} at breakpoints")
        else:
            self.console.pages = words[1] == "on"
            self.say(f"long replies {'stop at each full screen' if self.console.pages else 'are shown at once'}")
