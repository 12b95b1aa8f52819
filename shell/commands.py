"""The shell: takes lines, finds the command of each, and carries it out. The commands are methods of groups."""

from __future__ import annotations

import cmd
import re
import sys
from collections.abc import Iterator, Sequence

from shell import help_texts, texts
from shell.backwards import Backwards
from shell.breaking import Breaking
from shell.comparing import Comparing
from shell.completing import Completing
from shell.console import Console, Outcome, PageEnded
from shell.drawing import Drawing
from shell.filing import Filing
from shell.group import Command, Words
from shell.helping import Helping
from shell.past import Looking
from shell.protocol import Cut, Ended, Program, is_too_long, whole, words_of
from shell.session import GREATEST_LIMIT, Session
from shell.stops import Stops
from shell.viewing import Viewing
from shell.walking import Walking

STEP = re.compile(r"(?<![\w.#])[0-9][0-9.]*#[0-9]+")
# A task of which no name was typed, in what may have been meant: it is the one that stepped last.
TASK = re.compile(r"(?<= )T(?=[ `])")
# What asks for much in small pieces: Ctrl-C ends it after one. Any other command's reply is cut.
PIECEWISE = ("step", "run", "go", "finish", "until", "random", "last", "back", "rs", "rc", "source", "graph", "lanes", "slide", "page", "serve", "compare", "flip")
# After these the expressions of `display` are shown.
STEPS = ("step", "run", "go", "finish", "until", "random", "last", "back", "rs", "rc", "undo", "roll", "rolltask", "rollcell", "rollprint",
         "redo", "keep", "at", "restart")
# What can't be done while a past state is looked at: what takes steps, takes them back, or starts anew.
OF_THE_PRESENT = tuple(name for name in STEPS if name != "at") + ("break", "watch", "clear", "save", "source", "trim", "limit", "page", "serve", "flip", "compare")


class Shell(cmd.Cmd):
    """Commands as they are typed. `passes` hands lines to the program as they are, but for the shell's own commands."""

    def __init__(self, session: Session, console: Console, passes: bool = False, queue: Sequence[str] = ()) -> None:
        super().__init__(stdout=console.out)
        self.present = session
        self.past: Session | None = None
        self.console = console
        self.passes = passes
        self.queue = list(queue)
        self.stops = Stops()
        self.last_step: str | None = None
        self.focus = "0"
        self.busy = self.interrupted = self.in_pieces = False
        self.outcome = Outcome.DONE
        self.status = 0
        self.breaking = Breaking(self)
        self.walking = Walking(self)
        groups = (self.walking, Backwards(self), self.breaking, Viewing(self), Looking(self), Comparing(self), Drawing(self), Filing(self), Helping(self))
        self.methods: dict[str, Command] = {name: method for group in groups for name, method in group.commands().items()}
        self.completing = Completing(self)
        self.prompt = self.prompt_now()

    def prompt_now(self) -> str:
        """The prompt: it says at which step the past is looked at."""
        if not self.console.typed:
            return ""
        return "(taskback) " if self.past is None else f"(taskback @{len(self.past.history)}) "

    @property
    def session(self) -> Session:
        """The session that is looked at."""
        return self.present if self.past is None else self.past

    # What is shown

    def show(self, lines: Sequence[str]) -> None:
        """Lines of a reply, each that shows steps with their source lines."""
        for line in self.up_to_interrupt(lines):
            self.show_line(line)
        self.console.flush()

    def show_line(self, line: str) -> None:
        """One line of a reply."""
        parts, first = [], None
        for step in STEP.findall(line):
            number = self.session.positions.line_of(step)
            first = first or number
            if number:
                parts.append(f"{number}: {self.session.source.shown(number)}")
        self.console.reply(line, first, "  |  ".join(parts))

    def up_to_interrupt(self, lines: Sequence[str]) -> Iterator[str]:
        """The lines of a reply; Ctrl-C ends them where the reply isn't one of many."""
        for at, line in enumerate(lines):
            if self.interrupted and not self.in_pieces:
                self.console.note(f"stopped by {self.console.stopper}; {len(lines) - at} more lines")
                return
            yield line

    def send(self, command: str) -> list[str]:
        """One command of the program, its reply and what it means."""
        reply = self.session.do(command)
        self.show(reply)
        if reply:
            self.explain(command, reply[-1] if reply[-1].startswith("ran ") else reply[0])
        return reply

    def explain(self, command: str, line: str) -> None:
        """Says in words what a refusal, an error or a full journal means."""
        parts = line.split(" ")
        if parts[0] == "error":
            self.outcome = max(self.outcome, Outcome.ERROR)
            if parts == ["error", "word"] and words_of(command)[0] in ("races", "causes", "edges"):
                self.console.note("this build has no such view")
            else:
                text = texts.error_words(command, parts[-1], self.session.workers, list(self.session.source.bodies))
                self.console.note(TASK.sub(self.focus, text) if text.startswith("did you mean") else text)
        elif parts[0] == "refused":
            self.outcome = max(self.outcome, Outcome.REFUSED)
            text = texts.refusal_words(command, line, self.session)
            if parts[2] in ("Waiting", "Excluded"):
                text += self.clauses(words_of(command)[1], parts[3])
            self.console.note(text)
        elif parts[0] == "ran" and parts[-1] == "full":
            self.console.note(texts.full_words(self.session))

    def items_of(self, task: str) -> list[str]:
        """The items of a task's clauses."""
        reply = self.session.view(f"task {task}")
        return reply[next(at for at, line in enumerate(reply) if line.startswith("items ")) + 1:]

    def clauses(self, task: str, other: str) -> str:
        """The clauses for which one task waits for another, and the lines that generated the two."""
        pair = texts.matching_items(self.items_of(task), self.items_of(other))
        if pair is None:
            return ""
        new, old = (f"depend {item}" for item in pair)
        text = f": {new}" if new == old else f": {new} comes after {old}"
        lines = [line for name in (other, task) if (line := self.session.positions.spawned.get(name)) is not None]
        if len(lines) < 2:
            return text
        if new == old:
            lines.sort()
        return text + (f" on line {lines[0]}" if lines[0] == lines[1] else f" on lines {lines[0]} and {lines[1]}")

    # One line

    def onecmd(self, line: str) -> bool:
        """Carries out one line; true ends the shell."""
        if line == "EOF":
            # The standard library's word for the end of what is typed.
            if self.prompt:
                self.console.say("")
            return True
        return self.take(line)

    def take(self, line: str) -> bool:
        """Carries out a line that was read; true ends the shell."""
        self.interrupted = False
        self.busy = True
        self.outcome = Outcome.DONE
        try:
            return self.carry_out(whole(line))
        except Cut:
            return self.resume() if self.session.program.is_cut else self.stopped_in_another()
        except Ended as ended:
            return self.end(ended)
        finally:
            self.console.flush()
            self.busy = False
            self.prompt = self.prompt_now()

    def end(self, ended: Ended) -> bool:
        """The program ended, and so does the shell."""
        self.console.say(f"the program has ended: {ended}")
        self.status = ended.status or 3
        return True

    def interrupt(self) -> None:
        """Ctrl-C while a command is under way: a single reply is cut, and so is any at the second time."""
        if self.interrupted or not self.in_pieces:
            Program.cut()
        self.interrupted = True

    def stopped_in_another(self) -> bool:
        """After a reply of a second program was cut the session is as it was."""
        self.console.end_progress()
        self.console.note(f"stopped by {self.console.stopper}; the session is as it was")
        return False

    def resume(self) -> bool:
        """After a cut reply the program starts anew and does what was done; true where it can't."""
        self.console.end_progress()
        text = f"stopped by {self.console.stopper} in a reply; the program starts anew and does the session so far again"
        if self.console.exact:
            print(text, file=sys.stderr)
        else:
            self.console.note(text)
        self.console.flush()
        try:
            self.session.resume()
        except Ended as ended:
            return self.end(ended)
        return False

    def carry_out(self, line: str) -> bool:
        """One line that was typed or played."""
        words = words_of(line)
        if not words:
            if self.passes or not self.console.typed:
                self.show(self.session.do(line))
                return False
            return self.emptyline() if not line.strip() else False
        fitting = help_texts.expanded(words[0])
        name = fitting[0] if len(fitting) == 1 else words[0]
        self.in_pieces = name in PIECEWISE
        self.console.begin(line, paged=not self.in_pieces)
        try:
            if "\0" in "".join(words):
                # No file has such a name; the program says what is wrong.
                self.send(line)
                return False
            ends = self.pass_line(line, words) if self.passes else self.command(name, line, words)
            if not self.passes and name in STEPS and self.outcome is not Outcome.ERROR:
                self.breaking.show_displays()
        except PageEnded:
            ends = False
        finally:
            self.console.end_progress()
            self.console.finish(self.outcome)
        return ends

    def command(self, name: str, line: str, words: Words) -> bool:
        """A command of the shell's own, or one of the program."""
        if self.past is not None and name in OF_THE_PRESENT:
            self.outcome = max(self.outcome, Outcome.REFUSED)
            self.console.say(f"a past state is looked at, after {len(self.past.history)} steps; `at now` comes back, and then `{name}` can be done")
            return False
        method = self.methods.get(name)
        if method:
            return bool(method(words[1:]))
        self.send(" ".join([name, *words[1:]]) if name != words[0] else line)
        return False

    def pass_line(self, line: str, words: Words) -> bool:
        """Passes a line as it is; a long run goes in pieces, with the same lines."""
        if words[0] in self.methods and words[0] not in help_texts.OF_THE_PROGRAM:
            return bool(self.methods[words[0]](words[1:]))
        count = words[-1] if re.fullmatch(r"[0-9]{1,7}", words[-1]) and not is_too_long(line) else ""
        team = len(words) == 3 and words[0] == "go" and re.fullmatch(r"[0-9]{1,7}", words[1])
        if count and int(count) <= GREATEST_LIMIT and (words[:-1] == ["run"] or team and 1 <= int(words[1]) <= self.session.workers):
            self.walking.walk(" ".join(words[:-1]), int(count), verbose=True)
        else:
            self.send(line)
        return False

    def emptyline(self) -> bool:
        """Enter alone: the last step again."""
        return self.carry_out(self.last_step) if self.last_step else False

    def default(self, line: str) -> None:
        """Unused: each line is carried out by `carry_out`."""
        self.send(line)

    # Completion, as the standard library asks for it

    def completenames(self, text: str, *ignored: object) -> list[str]:
        """Commands that begin so."""
        return [name + " " for name in help_texts.HELP if name.startswith(text)]

    def complete_help(self, *args: str) -> list[str]:
        """The commands that have a help."""
        return [name for name in help_texts.HELP if name.startswith(args[0])]

    def completedefault(self, *ignored: object) -> list[str]:
        """What can follow a command."""
        text, line, begin = str(ignored[0]), str(ignored[1]), int(str(ignored[2]))
        # Ctrl-C would leave half of a reply unread.
        self.busy = True
        try:
            with Program.uncut():
                return self.completing.words(text, line[:begin])
        except Ended:
            return []
        finally:
            self.busy = False
