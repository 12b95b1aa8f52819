"""What is debugged: the session with the shell's commands over it, its tasks as threads, and the recorded order of its steps."""

from __future__ import annotations

import io
from collections.abc import Callable, Sequence

from shell.commands import Shell
from shell.console import Console
from shell.dap.lines import Lines
from shell.protocol import Ended, Refused
from shell.session import GREATEST_LIMIT, Session, is_step
from shell.source import Source, read_text, split_session

# Of more tasks those that have ended are left out.
MOST_THREADS = 200


class Failed(Exception):
    """A request that can't be carried out, and why; the client shows it."""


class Announcing(Console):
    """Keeps what a command says, and hands on at once what one that holds on says."""

    def __init__(self, out: io.StringIO, announced: Callable[[str], None]) -> None:
        super().__init__(out)
        self.stopper = "a pause"
        self.kept = out
        self.announced = announced

    def announce(self) -> None:
        self.announced(self.kept.getvalue())


class Debuggee:
    """A session that an editor steps. `order` has the steps of a recorded run, which `go_on` follows."""

    def __init__(self, program: str, path: str, folders: list[str], announced: Callable[[str], None]) -> None:
        try:
            text, commands = split_session(read_text(path))
            source = Source(text, path)
            self.session = Session(program, source, GREATEST_LIMIT)
        except OSError as fault:
            raise Failed(f"can't read {path}: {fault.strerror}") from None
        except Refused as refused:
            raise Failed(f"the program is refused at line {refused.line}: {refused.kind}") from None
        except Ended as ended:
            raise Failed(str(ended)) from None
        self.lines = Lines(source, folders)
        self._out = io.StringIO()
        self.shell = Shell(self.session, Announcing(self._out, announced))
        self.order = self.order_of(commands or [])
        self._next = 0
        self._ids: dict[str, int] = {}
        self._names: dict[int, str] = {}

    def order_of(self, commands: list[str]) -> list[str]:
        """The history that a session's commands leave, as names of steps."""
        if not commands:
            return []
        second = self.session.another()
        try:
            for command in commands:
                second.do(command)
            return list(second.history)
        finally:
            second.close()

    def close(self) -> None:
        """Ends the program."""
        if self.shell.past is not None:
            self.shell.past.close()
        self.session.close()

    # Threads

    def id_of(self, task: str) -> int:
        """The number by which a client knows a task."""
        if task not in self._ids:
            self._ids[task] = len(self._ids) + 1
            self._names[self._ids[task]] = task
        return self._ids[task]

    def task_of(self, number: object) -> str:
        """The task of a client's number."""
        if not isinstance(number, int) or number not in self._names:
            raise Failed(f"there is no thread {number}")
        return self._names[number]

    def threads(self) -> list[dict[str, object]]:
        """The tasks as threads; where there are many, those alone that haven't ended."""
        rows = [line.split(" ") for line in self.shell.session.view("tasks")[1:]]
        if len(rows) > MOST_THREADS:
            rows = [words for words in rows if words[2] in ("pending", "running")][:MOST_THREADS] or rows[:1]
        return [{"id": self.id_of(name), "name": f"{name} {body}" + ("" if state in ("pending", "running") else f" ({state})")}
                for name, body, state, *_ in rows]

    # Steps

    def ready(self) -> list[str]:
        """The tasks that can step."""
        return self.session.view("ready")[1:]

    def recorded_next(self) -> str | None:
        """The task whose step comes next in the recorded order; None where it is at its end, or was left."""
        while self._next < len(self.order) and self.order[self._next] in self.session.history:
            self._next += 1
        return self.order[self._next].split("#")[0] if self._next < len(self.order) else None

    def step(self, task: str) -> str:
        """One step of a task: its line, or a refusal's."""
        line = self.session.do(f"step {task}")[0]
        if is_step(line):
            self.shell.focus = task
        return line

    def go_on(self, skipped: Sequence[str] = ()) -> str | None:
        """The next step in the recorded order, or else of the least task that can; None where none can."""
        recorded = self.recorded_next()
        if recorded is not None and recorded not in skipped:
            line = self.step(recorded)
            if is_step(line):
                return line
        if not skipped:
            return next(iter(self.run_on(1)), None)
        ready = [task for task in self.ready() if task not in skipped]
        if not ready:
            return None
        line = self.step(ready[0])
        return line if is_step(line) else None

    def run_on(self, count: int) -> list[str]:
        """The next steps, each of the least task that can; none where none can."""
        lines = [line for line in self.session.do(f"run {count}") if is_step(line)]
        if lines:
            self.shell.focus = lines[-1].split("#")[0]
        return lines

    def took_back(self) -> None:
        """Steps were taken back: the recorded order is looked through from its beginning."""
        self._next = 0

    def ask(self, command: str) -> list[str]:
        """What the shell says to a command."""
        self._out.seek(0)
        self._out.truncate()
        self.shell.take(command)
        self.took_back()
        return self._out.getvalue().split("\n")[:-1]
