"""Steps, forwards and backwards, as jobs that stop at breakpoints and may be paused between any two steps."""

from __future__ import annotations

from collections.abc import Callable, Iterator
from dataclasses import dataclass, field

from shell.dap.breakpoints import Breakpoints
from shell.dap.debuggee import Debuggee, Failed
from shell.session import Session, is_step
from shell.stops import Where, program_stops
from shell.texts import refusal_words

# So many steps are executed between two looks for a request.
PIECE = 50
# Of those at which nothing stops so many are executed.
MANY = 500


@dataclass
class Stopped:
    """Why all threads are stopped, and at which of them the client looks."""

    reason: str
    task: str
    text: str = ""
    hit: list[int] = field(default_factory=list)


# A job yields between pieces of its work, and returns how it ended.
Job = Iterator[None]


class Runner:
    """Carries out one job at a time; `stopped` is called with how it ended."""

    def __init__(self, debuggee: Debuggee, breakpoints: Breakpoints, stopped: Callable[[Stopped], None]) -> None:
        self.debuggee = debuggee
        self.breakpoints = breakpoints
        self.stopped = stopped
        self.job: Job | None = None
        self.pausing = False
        # The program's own breakpoints, which a command of the console has set.
        self.own: list[Where] = []

    @property
    def session(self) -> Session:
        """The session that is stepped."""
        return self.debuggee.session

    def begin(self, job: Job) -> None:
        """Begins a job; there is none so far, and no past state is looked at."""
        if self.job is not None:
            raise Failed("the tasks are running; pause them first")
        if self.debuggee.shell.past is not None:
            raise Failed("a past state is looked at; `at now` in the console comes back")
        self.pausing = False
        self.debuggee.shell.stops.refresh(self.session)
        self.own = [where for _, where in program_stops(self.session.view("breaks")[1:])]
        self.job = job

    def work(self) -> None:
        """A piece of the job."""
        if self.job is not None:
            try:
                next(self.job)
            except StopIteration:
                self.job = None

    # What ends a job

    def met(self, said: list[str], line: str) -> Stopped | None:
        """How breakpoints end a job at a step, from what is said of those that are met, and by those of the program."""
        task = line.split("#")[0]
        if not said:
            own = [str(where) for where in self.own if where.meets(line, self.session.positions)]
            return Stopped("breakpoint", task, "; ".join(own)) if own else None
        found = [(int(number[1:]), text) for number, text in (line.split(": ", 1) for line in said)]
        reason = self.breakpoints.reasons.get(found[0][0], "breakpoint")
        shown = [self.breakpoints.as_shown(number, text) for number, text in found]
        return Stopped(reason, task, "; ".join(dict.fromkeys(text for _, text in shown)), sorted({number for number, _ in shown}))

    def over(self, task: str) -> Stopped:
        """How a job ends where no task can step."""
        return Stopped("end", task, f"the run is over: no task can step, {len(self.session.history)} steps are executed")

    def pause(self) -> None:
        """Ends the job that is under way between two steps."""
        self.pausing = True

    # Forwards

    def forwards(self, ends: Callable[[str], bool]) -> Job:
        """Steps in the recorded order, or of the least task, up to one that `ends` says, or a breakpoint."""
        count = 0
        while True:
            line = self.debuggee.go_on()
            if line is None:
                self.stopped(self.over(self.debuggee.shell.focus))
                return
            task = line.split("#")[0]
            stop = self.met(self.debuggee.shell.stops.met(line, self.session), line)
            if stop or ends(line):
                self.stopped(stop or Stopped("step", task))
                return
            count += 1
            if self.pausing:
                self.stopped(Stopped("pause", task))
                return
            if count % PIECE == 0:
                yield

    def go(self) -> Job:
        """Steps up to a breakpoint."""
        return self.forwards(lambda line: False) if self.may_stop() else self.freely()

    def may_stop(self) -> bool:
        """Whether each step has to be looked at: for a breakpoint, or for the recorded order."""
        return bool(self.debuggee.shell.stops.there or self.own) or self.debuggee.recorded_next() is not None

    def freely(self) -> Job:
        """Steps where nothing can stop them, many at once."""
        while lines := self.debuggee.run_on(MANY):
            if self.pausing:
                self.stopped(Stopped("pause", lines[-1].split("#")[0]))
                return
            yield
            if self.may_stop():
                # A breakpoint was set on the way.
                yield from self.forwards(lambda line: False)
                return
        self.stopped(self.over(self.debuggee.shell.focus))

    def next(self, task: str) -> Job:
        """The task's next step; where it has to wait, others run until it can."""
        while True:
            line = self.debuggee.step(task)
            if is_step(line):
                stop = self.met(self.debuggee.shell.stops.met(line, self.session), line)
                self.stopped(stop or Stopped("step", task))
                return
            if line.split(" ")[2] == "Ended" or not (other := self.debuggee.go_on((task,))):
                self.stopped(self.over(task))
                return
            stop = self.met(self.debuggee.shell.stops.met(other, self.session), other)
            if stop or self.pausing:
                self.stopped(stop or Stopped("pause", task))
                return
            yield

    def into(self, task: str) -> Job:
        """The task's next step alone; where it generates a task, the client looks at that one."""
        line = self.debuggee.step(task)
        if not is_step(line):
            raise Failed(refusal_words(f"step {task}", line, self.session))
        did = line.split(" ")
        where = did[2] if did[1] == "spawn" else task
        stop = self.met(self.debuggee.shell.stops.met(line, self.session), line)
        self.stopped(stop or Stopped("step", where))
        yield from ()

    def out(self, task: str) -> Job:
        """Up to the task's end."""
        if self.session.positions.position.get(task) is None:
            raise Failed(f"{task} has ended")
        return self.forwards(lambda line: self.session.positions.position.get(task) is None)

    # Backwards

    def back(self, task: str) -> Job:
        """The task's newest step back, with all that need it."""
        newest = next((name for name in reversed(self.session.history) if name.split("#")[0] == task), None)
        if newest is None:
            raise Failed(f"{task} has executed no step")
        self.roll(f"roll {newest}", task)
        yield from ()

    def roll(self, command: str, task: str) -> None:
        """A rollback, and what it took."""
        reply = self.session.do(command)
        if not reply[0].startswith("rolled "):
            raise Failed(refusal_words(command, reply[0], self.session))
        self.debuggee.took_back()
        gone = [line.split(" ")[0] for line in reply[1:]]
        there = task if task in self.session.positions.position else "0"
        self.debuggee.shell.focus = there
        others = f", and {len(gone) - 1} that need it" if len(gone) > 1 else ""
        self.stopped(Stopped("step", there, f"taken back: {gone[0]}{others}"))

    def backwards(self) -> Job:
        """The newest steps back, up to a breakpoint before."""
        count, shell = 0, self.debuggee.shell
        while (newest := self.session.newest) is not None:
            line = self.session.line_of(newest)
            if not self.session.do(f"undo {newest}")[0].startswith("undone"):
                raise Failed("the journal is full")
            self.debuggee.took_back()
            count += 1
            now = self.session.newest
            there = self.session.line_of(now) if now else ""
            task = (there or line).split("#")[0]
            shell.focus = task
            said = shell.stops.changed(line, self.session) + (shell.stops.at_step(there, self.session) if there else [])
            stop = self.met(said, there or line) if there or said else None
            if stop or self.pausing:
                self.session.merge_taken_back(count)
                self.stopped(stop or Stopped("pause", task))
                return
            if count % PIECE == 0:
                yield
        self.session.merge_taken_back(count)
        self.stopped(Stopped("entry", "0", "the run is at its beginning"))
