"""A session: the program with all that was asked of it, so that it can be saved and played again."""

from collections.abc import Callable, Iterator, Sequence
from typing import NamedTuple

from shell.protocol import Cut, Program, is_digits, words_of
from shell.source import SHELL_MARK, Positions, Source

PIECE = 1000
TOGETHER = 100
# As many workers as the program has where `--workers` isn't given, and as many entries of the journal.
WORKERS = 4
LIMIT = 100000
GREATEST_LIMIT = 1000000
TAKES_BACK = {"undo": "undone", "roll": "rolled", "rolltask": "rolled", "rollcell": "rolled", "rollprint": "rolled"}
CHANGES = {**TAKES_BACK, "break": "break", "clear": "cleared"}

Steps = Sequence[str]


def is_step(line: str) -> bool:
    """Whether a line of a reply shows a step."""
    return "#" in line.split(" ")[0]


def is_of_several(words: Sequence[str]) -> bool:
    """Whether these are the words of a `go` by several workers."""
    return len(words) == 3 and words[0] == "go" and is_digits(words[1]) and int(words[1]) > 1


class Done(NamedTuple):
    """A command that was carried out, and the commands that do the same again (none for a view).

    What several workers do may differ each time, so the steps that they executed are done again, each by `step`; `ended`
    is the last line that they gave, and None for all other commands.
    """

    command: str
    again: tuple[str, ...] = ()
    ended: str | None = None

    def texts(self) -> list[str]:
        """Lines of a session that leave the same."""
        if self.ended is None:
            return [self.command]
        return [f"# {self.command}: {self.ended}" + ", by these steps" * bool(self.again), *self.again]


class Walked(NamedTuple):
    """What a long run did: how many steps it executed, why it ended, and whether who asked for it stopped it."""

    executed: int
    why: str
    stopped: bool


def gone(prefix: str, count: int, ended: str, steps: Steps | None) -> Done:
    """A `run` or a `go` that gave this last line; where it was one of several workers, in front of it these steps."""
    if steps is None:
        return Done(f"{prefix} {count}", (f"{prefix} {ended.split(' ')[1]}",))
    return Done(f"{prefix} {count}", tuple(f"step {line.split('#')[0]}" for line in steps), ended)


class Session:
    """The program, the commands it was given, the steps that are in its history, and where its tasks are.

    `history` has what each step of it did by its name, the oldest first. `taken_back` has what each undo
    or rollback took, the newest last, each as lines in the order of the history.
    """

    def __init__(self, path: str, source: Source, limit: int | None = None, options: Sequence[str] = ()) -> None:
        self.path = path
        self.source = source
        self.limit = limit
        self.options = list(options)
        self.positions = Positions(source)
        self.history: dict[str, str] = {}
        self.taken_back: list[list[str]] = []
        self.log: list[Done] = []
        self.entries = 1
        self.program = self.started()

    def started(self) -> Program:
        """A program with nothing done."""
        options = list(self.options)
        if self.limit is not None:
            options += ["--limit", str(self.limit)]
        return Program(self.path, self.source.text, options)

    def start(self) -> None:
        """Starts the program anew, with nothing done."""
        program = self.started()
        self.program.close()
        self.program = program
        self.log = []
        self.history = {}
        self.taken_back = []
        self.entries = 1
        self.positions.forget()

    def another(self) -> "Session":
        """Another session of the same program, with nothing done, and with the greatest limit."""
        return Session(self.path, self.source, GREATEST_LIMIT, self.options)

    @property
    def workers(self) -> int:
        """The most workers that a `go` may have."""
        given = [int(word) for before, word in zip(self.options, self.options[1:]) if before == "--workers"]
        return given[-1] if given else WORKERS

    @property
    def newest(self) -> str | None:
        """The newest step of the history; None where there is none."""
        return next(reversed(self.history), None)

    @property
    def capacity(self) -> int:
        """How many entries the journal has slots for still; its first entry is the opening."""
        return (LIMIT if self.limit is None else self.limit) - self.entries

    def line_of(self, name: str) -> str:
        """The line of a step of the history."""
        return f"{name} {self.history[name]}"

    def close(self) -> None:
        """Ends the program."""
        self.program.close()

    def view(self, command: str) -> list[str]:
        """The reply to a view that the user didn't ask for; it isn't saved."""
        return self.program.ask(command)

    def views(self, commands: Sequence[str]) -> Iterator[list[str]]:
        """The replies to many views."""
        for at in range(0, len(commands), TOGETHER):
            yield from self.program.ask_all(commands[at:at + TOGETHER])

    def do(self, command: str) -> list[str]:
        """Carries out one command, notes it, and returns its reply."""
        reply = self.program.ask(command)
        if reply:
            self.log.append(self.learn(command, reply))
        return reply

    def note_steps(self, lines: Steps) -> None:
        """Notes steps that were just executed."""
        self.entries += len(lines)
        for line in lines:
            name, _, did = line.partition(" ")
            self.history[name] = did
            self.positions.note(line)

    def lost(self, lines: Steps) -> None:
        """Notes steps that were just taken back, as lines in the order of the history."""
        self.entries += 1
        for line in reversed(lines):
            del self.history[line.split(" ")[0]]
            self.positions.took_back(line)
        self.taken_back.append(list(lines))

    def learn(self, command: str, reply: list[str]) -> Done:
        """Takes from a reply what is in the history now; returns what was done."""
        words = words_of(command)
        word = words[0] if words else ""
        if word == "step" and is_step(reply[0]):
            self.note_steps(reply)
            return Done(command, (command,))
        if word in ("run", "go") and reply[-1].startswith("ran "):
            self.note_steps(reply[:-1])
            several = is_of_several(words)
            done = gone(" ".join(words[:-1]), int(words[-1]), reply[-1], reply[:-1] if several else None)
            return done if several else done._replace(command=command)
        if reply[0].split(" ")[0] == CHANGES.get(word):
            if word == "undo":
                self.lost([self.line_of(reply[0].split(" ")[1])])
            elif word in TAKES_BACK:
                self.lost(reply[1:])
            return Done(command, (command,))
        return Done(command)

    def merge_taken_back(self, count: int) -> None:
        """Makes one of the newest of what was taken back: a command took all of it."""
        if count > 1:
            merged = [line for lines in reversed(self.taken_back[-count:]) for line in lines]
            self.taken_back[-count:] = [merged]

    def still_taken_back(self) -> list[list[str]]:
        """What was taken back, without the steps that are in the history again as they were."""
        groups = [[line for line in lines if self.history.get(line.split(" ")[0]) != line.partition(" ")[2]] for lines in self.taken_back]
        self.taken_back = [lines for lines in groups if lines]
        return self.taken_back

    def run(self, prefix: str, count: int, show: Callable[[Steps], None], stop: Callable[[Steps], bool],
            piece: int = PIECE) -> Walked:
        """Many steps, asked for in pieces, and noted as one command.

        Several workers first note the whole journal, so their pieces get longer with what was executed. `show` is given
        the steps of each piece; `stop`, asked with them, ends the run early.
        """
        executed = 0
        steps: list[str] | None = [] if is_of_several(words_of(f"{prefix} {count}")) else None
        while True:
            most = piece if steps is None or piece == 1 else piece * max(1, executed // (4 * piece))
            try:
                reply = self.program.ask(f"{prefix} {min(count - executed, most)}")
            except Cut:
                self.log.append(gone(prefix, executed, f"ran {executed} limit", steps))
                raise
            why = reply.pop().split(" ")[2]
            self.note_steps(reply)
            show(reply)
            executed += len(reply)
            if steps is not None:
                steps += reply
            # Asked of each step, also of the last one: a breakpoint may be there.
            stopped = bool(reply) and stop(reply) and executed < count and why == "limit"
            if stopped or why != "limit" or executed >= count:
                break
        self.log.append(gone(prefix, executed if stopped else count, f"ran {executed} {why}", steps))
        return Walked(executed, why, stopped)

    def repeat(self, done: Done) -> list[str]:
        """Does again what was done, with the same steps, and notes it; returns the reply that it gave."""
        if done.ended is None:
            return self.do(done.command)
        lines = self.again(done)
        self.log.append(done)
        return lines + [done.ended]

    def again(self, done: Done) -> list[str]:
        """Does again what was done, with the same steps; returns the replies' first lines."""
        lines = []
        for command, reply in zip(done.again, self.views(done.again)):
            self.learn(command, reply)
            lines.append(reply[0])
        return lines

    def do_again(self, log: Sequence[Done]) -> None:
        """Starts the program anew, and does what was done: the same steps, of which no reply is shown."""
        with Program.uncut():
            self.start()
            for done in log:
                if done.again:
                    self.again(done)
                    self.log.append(done if done.ended else done._replace(command=done.again[0]))

    def resume(self) -> None:
        """Goes on after the program was cut, with all that was done before."""
        log, taken_back = self.log, self.taken_back
        self.do_again(log)
        self.log, self.taken_back = log, taken_back

    def replay(self, limit: int) -> bool:
        """Starts with another limit and does again what was done; returns whether the journal had slots for all."""
        before, wanted = (self.limit, self.log, self.taken_back), dict(self.history)
        self.limit = limit
        self.do_again(before[1])
        fits = self.history == wanted
        if not fits:
            self.limit = before[0]
            self.do_again(before[1])
        self.taken_back = before[2]
        return fits

    def retake(self, lines: Steps) -> int:
        """Executes these steps in this order, each by `step`, up to one that isn't as its line says; how many it executed."""
        for at in range(0, len(lines), TOGETHER):
            part = lines[at:at + TOGETHER]
            commands = [f"step {line.split('#')[0]}" for line in part]
            for place, (command, line, reply) in enumerate(zip(commands, part, self.program.ask_all(commands))):
                self.log.append(self.learn(command, reply))
                if reply != [line]:
                    return at + place
        return len(lines)

    def restart(self) -> int:
        """Starts anew with the program's breakpoints that there are; returns how many these are."""
        there = self.view("breaks")[1:]
        with Program.uncut():
            self.start()
            for line in there:
                self.do("break " + line.split(" ", 1)[1])
        return len(there)

    def text(self, own: Sequence[str] = ()) -> str:
        """The session so far as a text: it leaves the same, and gives the same replies but for those of several workers.

        The commands of the shell's own come last, as comments.
        """
        options = self.options + ([] if self.limit is None else ["--limit", str(self.limit)])
        head = f"# run it with {' '.join(options)}\n" if options else ""
        body = self.source.text
        if body and not body.endswith("\n"):
            body += "\n"
        lines = [line for done in self.log for line in done.texts()] + [SHELL_MARK + command for command in own]
        return body + "---\n" + head + "".join(line + "\n" for line in lines)
