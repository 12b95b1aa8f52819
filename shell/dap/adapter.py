"""The requests of the protocol: each method `on_NAME` answers the request NAME with the body of its response."""

from __future__ import annotations

import os
import time
from collections.abc import Callable
from typing import Any

from shell import help_texts
from shell.dap.breakpoints import EXCEPTIONS, Breakpoints
from shell.dap.debuggee import Debuggee, Failed
from shell.dap.inspecting import Inspecting
from shell.dap.running import Job, Runner, Stopped
from shell.facts import race_of
from shell.race_advice import kinds_of
from shell.session import is_step

Body = dict[str, Any]
Send = Callable[[str, Body], None]

CAPABILITIES: Body = {
    "supportsConfigurationDoneRequest": True, "supportsFunctionBreakpoints": True, "supportsConditionalBreakpoints": True,
    "supportsDataBreakpoints": True, "supportsStepBack": True, "supportsRestartFrame": True, "supportsEvaluateForHovers": True,
    "supportsCompletionsRequest": True, "completionTriggerCharacters": [" "], "supportsTerminateRequest": True, "supportsRestartRequest": True,
    "supportsExceptionInfoRequest": True, "supportsCancelRequest": True, "supportsGotoTargetsRequest": False, "supportsSetVariable": False,
    "exceptionBreakpointFilters": [{"filter": name, "label": label, "default": name == "fault"} for name, label in EXCEPTIONS.items()],
}
# Of longer histories races aren't looked for at each stop: `races` in the console does.
MOST_STEPS = 20000


class Adapter:
    """One client's session. `send` sends an event after the response that is being made, `send_at_once` in front of it."""

    def __init__(self, program: str, send: Send, send_at_once: Send) -> None:
        self.program = program
        self.send = send
        self.send_at_once = send_at_once
        self.done = False
        # Whether a command of the console runs that was reported as `continued`, and whether one was ended by a request.
        self._runs = self._interrupted = False
        self._debuggee: Debuggee | None = None
        self._breakpoints: Breakpoints | None = None
        self._runner: Runner | None = None
        self._raced: set[str] = set()
        self._stops_at_entry = True
        self._first = 1

    # What is there once a program was launched

    @property
    def debuggee(self) -> Debuggee:
        """What is debugged."""
        if self._debuggee is None:
            raise Failed("nothing was launched")
        return self._debuggee

    @property
    def breakpoints(self) -> Breakpoints:
        """Its breakpoints."""
        if self._breakpoints is None:
            raise Failed("nothing was launched")
        return self._breakpoints

    @property
    def runner(self) -> Runner:
        """What steps it."""
        if self._runner is None:
            raise Failed("nothing was launched")
        return self._runner

    @property
    def inspecting(self) -> Inspecting:
        """What looks at it."""
        return Inspecting(self.debuggee)

    @property
    def job(self) -> Job | None:
        """What runs."""
        return None if self._runner is None else self._runner.job

    @job.setter
    def job(self, job: Job | None) -> None:
        if self._runner is not None:
            self._runner.job = job

    def handle(self, command: str, arguments: Body) -> Body:
        """The body of the response to a request; raises Failed."""
        method = getattr(self, f"on_{command}", None)
        if method is None:
            raise Failed(f"the request {command} isn't supported")
        body: Body = method(arguments) or {}
        return body

    def interrupt(self) -> None:
        """Ends the command of the console that is under way; called by another thread, as Ctrl-C would."""
        debuggee = self._debuggee
        while debuggee is not None and self._runs and not debuggee.shell.busy:
            # It begins, or ends, just now.
            time.sleep(0.001)
        if debuggee is not None and debuggee.shell.busy:
            self._interrupted = True
            debuggee.shell.interrupt()

    def close(self) -> None:
        """Ends what is debugged."""
        if self._debuggee is not None:
            self._debuggee.close()
            self._debuggee = None

    # The beginning and the end

    def on_initialize(self, arguments: Body) -> Body:
        self._first = 1 if arguments.get("linesStartAt1", True) else 0
        return CAPABILITIES

    def on_launch(self, arguments: Body) -> None:
        if self._debuggee is not None:
            raise Failed("a program was launched already")
        path = arguments.get("program")
        if not isinstance(path, str):
            raise Failed("launch wants `program`: the path of a .task or .session file")
        folders = arguments.get("sourceFolders") or []
        folder = arguments.get("cwd") or os.getcwd()
        self._debuggee = Debuggee(str(arguments.get("taskback") or self.program), os.path.join(folder, path), [str(name) for name in folders], self.announce)
        self._breakpoints = Breakpoints(self._debuggee)
        self._runner = Runner(self._debuggee, self._breakpoints, self.stopped)
        self._stops_at_entry = bool(arguments.get("stopOnEntry", True))
        self.send("initialized", {})

    def on_attach(self, arguments: Body) -> None:
        raise Failed("there is nothing to attach to: launch a program or a session")

    def on_configurationDone(self, arguments: Body) -> None:
        if self._stops_at_entry:
            self.stopped(Stopped("entry", "0"))
        else:
            self.runner.begin(self.runner.go())

    def on_restart(self, arguments: Body) -> None:
        debuggee = self.debuggee
        self.runner.job = None
        debuggee.session.restart()
        debuggee.took_back()
        debuggee.shell.focus = "0"
        self.stopped(Stopped("entry", "0"))

    def on_disconnect(self, arguments: Body) -> None:
        self.done = True
        self.close()

    def on_terminate(self, arguments: Body) -> None:
        self.close()
        self.send("terminated", {})

    # Breakpoints

    def on_setBreakpoints(self, arguments: Body) -> Body:
        path = str(arguments.get("source", {}).get("path", ""))
        wanted = [{**given, "line": int(given.get("line", 0)) + 1 - self._first} for given in arguments.get("breakpoints") or []]
        made = self.breakpoints.at_lines(path, wanted)
        return {"breakpoints": [{**one, "line": one["line"] - 1 + self._first} for one in made]}

    def on_setFunctionBreakpoints(self, arguments: Body) -> Body:
        return {"breakpoints": self.breakpoints.at_bodies(arguments.get("breakpoints") or [])}

    def on_dataBreakpointInfo(self, arguments: Body) -> Body:
        reference = arguments.get("variablesReference")
        task = self.debuggee.shell.focus if not reference else self.debuggee.task_of(int(reference) // 5)
        return self.breakpoints.data_of(str(arguments.get("name", "")), task)

    def on_setDataBreakpoints(self, arguments: Body) -> Body:
        return {"breakpoints": self.breakpoints.at_data(arguments.get("breakpoints") or [])}

    def on_setExceptionBreakpoints(self, arguments: Body) -> Body:
        return {"breakpoints": self.breakpoints.at_kinds([str(name) for name in arguments.get("filters") or []])}

    def on_exceptionInfo(self, arguments: Body) -> Body:
        newest = self.debuggee.session.newest
        did = self.debuggee.session.history[newest] if newest else ""
        return {"exceptionId": did.split(" ")[0], "description": f"{newest} {did}", "breakMode": "always"}

    # Looking

    def on_threads(self, arguments: Body) -> Body:
        return {"threads": self.debuggee.threads()}

    def on_stackTrace(self, arguments: Body) -> Body:
        frames = self.inspecting.frames(self.debuggee.task_of(arguments.get("threadId")))
        for frame in frames:
            frame["line"] += self._first - 1
        first, count = int(arguments.get("startFrame") or 0), int(arguments.get("levels") or len(frames))
        return {"stackFrames": frames[first:first + count], "totalFrames": len(frames)}

    def on_scopes(self, arguments: Body) -> Body:
        return {"scopes": self.inspecting.scopes(arguments.get("frameId"))}

    def on_variables(self, arguments: Body) -> Body:
        return {"variables": self.inspecting.variables(arguments.get("variablesReference"))}

    def on_evaluate(self, arguments: Body) -> Body:
        shell, text = self.debuggee.shell, str(arguments.get("expression", ""))
        in_console = arguments.get("context") == "repl"
        if in_console and self.runner.job is not None:
            raise Failed("the tasks are running; pause them first")
        frame, before = arguments.get("frameId"), self.state()
        task = self.inspecting.task_looked_at(frame)
        runs = self._runs = in_console and self.inspecting.runs(text)
        if runs:
            self.send_at_once("continued", {"threadId": self.debuggee.id_of(task), "allThreadsContinued": True})
        try:
            result, was_command = self.inspecting.evaluate(text, task, in_console)
        finally:
            self._runs = False
        if runs or (was_command and before != self.state()):
            there = shell.focus if shell.focus in shell.session.positions.position else "0"
            self.stopped(Stopped("step", there, f"after `{text.strip()}`"))
        return {"result": result, "variablesReference": 0}

    def state(self) -> tuple[int, bool, int]:
        """What is another one after a command that changed something."""
        shell = self.debuggee.shell
        return self.debuggee.session.entries, shell.past is None, len(shell.session.history)

    def announce(self, text: str) -> None:
        """What a command that holds on says before its end."""
        self.send_at_once("output", {"category": "console", "output": text})

    def on_completions(self, arguments: Body) -> Body:
        text = str(arguments.get("text", ""))[:max(0, int(arguments.get("column", 1)) - self._first)]
        before, _, word = text.rpartition(" ")
        found = self.debuggee.shell.completing.words(word, before) if before else [name for name in help_texts.HELP if name.startswith(word)]
        return {"targets": [{"label": name, "start": len(before) + 1 if before else 0, "length": len(word)} for name in found[:100]]}

    def on_source(self, arguments: Body) -> Body:
        raise Failed("sources are files, which the editor reads itself")

    # Stepping

    def begin(self, arguments: Body, make: Callable[[str], Job]) -> None:
        """Begins a job for a thread."""
        self.runner.begin(make(self.debuggee.task_of(arguments.get("threadId"))))

    def on_continue(self, arguments: Body) -> Body:
        self.runner.begin(self.runner.go())
        return {"allThreadsContinued": True}

    def on_next(self, arguments: Body) -> None:
        self.begin(arguments, self.runner.next)

    def on_stepIn(self, arguments: Body) -> None:
        self.begin(arguments, self.runner.into)

    def on_stepOut(self, arguments: Body) -> None:
        self.begin(arguments, self.runner.out)

    def on_stepBack(self, arguments: Body) -> None:
        self.begin(arguments, self.runner.back)

    def on_reverseContinue(self, arguments: Body) -> None:
        self.runner.begin(self.runner.backwards())

    def on_pause(self, arguments: Body) -> None:
        if self.runner.job is not None:
            self.runner.pause()
        elif not self._interrupted:
            raise Failed("no task is running")
        self._interrupted = False

    def on_cancel(self, arguments: Body) -> None:
        self._interrupted = False

    def on_restartFrame(self, arguments: Body) -> None:
        task = self.inspecting.task_of_frame(arguments.get("frameId"))

        def again() -> Job:
            self.runner.roll(f"rolltask {task}", task)
            yield from ()
        self.runner.begin(again())

    # Events

    def stopped(self, how: Stopped) -> None:
        """Tells the client that all threads are stopped, and of races that weren't there before."""
        body: Body = {"reason": how.reason, "threadId": self.debuggee.id_of(how.task), "allThreadsStopped": True}
        if how.text:
            body.update({"description": how.text, "text": how.text})
            self.output(how.text)
        if how.hit:
            body["hitBreakpointIds"] = how.hit
        self.report_races()
        self.send("stopped", body)

    def output(self, text: str, category: str = "console") -> None:
        """A line in the client's console."""
        self.send("output", {"category": category, "output": text + "\n"})

    def report_races(self) -> None:
        """A custom event with the races so far, where they changed, and the new kinds of them in the console."""
        session = self.debuggee.session
        if len(session.history) > MOST_STEPS:
            return
        races = [race_of(line) for line in session.view("races")[1:] if is_step(line)]
        names = {f"{race.first} {race.second}" for race in races}
        if names == self._raced:
            return
        kinds = kinds_of(session, races)
        event = [{"first": kind.example.first, "second": kind.example.second, "over": kind.example.over, "apart": kind.example.apart,
                  "count": kind.count, "lines": [self.debuggee.lines.shown(line)._asdict() for line in kind.lines], "advice": kind.advice()}
                 for kind in kinds]
        for kind in kinds:
            if f"{kind.example.first} {kind.example.second}" not in self._raced:
                self.output(f"{kind.example.first} and {kind.example.second} race over {kind.example.over}; {kind.in_words()}", "important")
        self._raced = names
        self.send("taskback.races", {"races": event})
