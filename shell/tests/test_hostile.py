"""Random requests, commands and lines: each is answered, nothing ends the session, and what is asked again is as it was."""

import io
import json
import os
import random
import subprocess
import sys
import unittest
from typing import Any

from programs import random_program
from support import EXAMPLES, LOOP, MAIN, PROGRAM, needs_program, write_file
from shell.commands import Shell
from shell.console import Console
from shell.dap.adapter import Adapter
from shell.dap.server import Server
from shell.dap.wire import Broken, read_message
from shell.help_texts import HELP
from shell.protocol import is_too_long, words_of
from shell.serving import ALLOWED, Live
from shell.session import Session
from shell.source import Source
from tools.compare_sessions import MALFORMED, Program, pick_command, spell, steps_of

REQUESTS = [name[3:] for name in dir(Adapter) if name.startswith("on_")]
KEYS = ("threadId", "frameId", "variablesReference", "expression", "context", "source", "breakpoints", "filters", "name", "line", "condition", "dataId",
        "accessType", "text", "column", "startFrame", "levels", "program", "cwd", "sourceFolders", "linesStartAt1", "stopOnEntry", "path")
WORDS = ("", "x", "0", "0.1", "0#1", "0.1#2", "c[0]", "r0", "r0 of 0.1", "c[99999999999999999999]", "\ud800", "\0", "a\nb", "\u00b2", "9" * 5000, "(" * 3000,
         "not " * 2000, "1 + " * 3000 + "1", "r16", "value", "-" * 5000 + "1", "/", "print", "fault", "repl", "watch", "hover", "write", "-f", "-v", "now", "10")
NUMBERS = (None, True, False, -1, 0, 1, 2, 3, 5, 7, 1000, 1001, 2000, 10 ** 30, -10 ** 30, 2.5, 1e300)
# What a console is asked for: nothing that writes files, or that waits for a page.
ASKED = [name for name in HELP if name not in ("save", "page", "graph", "lanes", "slide", "serve", "source", "compare")]


def value(choice: random.Random, deep: int = 0) -> Any:
    """Some value that JSON has."""
    kind = choice.randrange(8 if deep < 3 else 6)
    if kind == 6:
        return [value(choice, deep + 1) for _ in range(choice.randrange(4))]
    if kind == 7:
        return {choice.choice(KEYS): value(choice, deep + 1) for _ in range(choice.randrange(5))}
    return choice.choice(WORDS if kind < 3 else NUMBERS)


def command(choice: random.Random, names: Any) -> str:
    """Some command, mostly with wrong words."""
    return " ".join([choice.choice(names), *(choice.choice(WORDS) for _ in range(choice.randrange(3)))])


class Sink:
    """Keeps what a server says; each message is JSON, as other languages read it too."""

    def __init__(self) -> None:
        self.said: list[Any] = []

    def write(self, data: bytes) -> None:
        self.said.append(json.loads(data.split(b"\r\n\r\n", 1)[1], parse_constant=self.refuse))

    @staticmethod
    def refuse(text: str) -> None:
        """Fails for what isn't JSON, though Python reads it."""
        raise AssertionError(text)

    def flush(self) -> None:
        """Nothing is held back."""


@needs_program
class Asked(unittest.TestCase):
    def setUp(self) -> None:
        self.paths = [write_file(self, random_program(seed)) for seed in range(4)] + [write_file(self, LOOP), os.path.join(EXAMPLES, "race.session")]

    def arguments(self, choice: random.Random, request: str) -> Any:
        """Arguments of a request, of which some are what it wants."""
        if choice.random() < 0.1:
            return value(choice)
        found = {choice.choice(KEYS): value(choice) for _ in range(choice.randrange(4))}
        if choice.random() < 0.7:
            found.update({"threadId": choice.randrange(1, 5), "frameId": choice.randrange(1, 5) * 1000, "variablesReference": choice.randrange(5, 30)})
        if request == "launch":
            found["program"] = choice.choice(self.paths)
        if request == "evaluate":
            found.update({"context": choice.choice(("repl", "watch")), "expression": command(choice, ASKED)})
        if request == "setBreakpoints":
            found.update({"source": {"path": self.paths[0]}, "breakpoints": [{"line": choice.choice((*NUMBERS, 4, 6)), "condition": choice.choice(("", "1 +", "r0"))}]})
        return found

    def request(self, choice: random.Random) -> bytes:
        """A message with some request."""
        name = choice.choice([name for name in REQUESTS if name not in ("disconnect", "terminate")])
        told = {"type": "request", "seq": choice.choice((7, value(choice))), "command": name, "arguments": self.arguments(choice, name)}
        text = json.dumps(told).replace("1e+300", "1e999").encode()
        return b"Content-Length: %d\r\n\r\n" % len(text) + text

    def test_random_requests_are_answered(self) -> None:
        for seed in range(40):
            choice, sink = random.Random(seed), Sink()
            server = Server(PROGRAM, io.BytesIO(), sink)  # type: ignore[arg-type]
            self.addCleanup(server.adapter.close)
            server.answer({"type": "request", "command": "launch", "arguments": {"program": choice.choice(self.paths), "stopOnEntry": True}})
            for _ in range(40):
                before = sum(message["type"] == "response" for message in sink.said)
                try:
                    message = read_message(io.BytesIO(self.request(choice)))
                except Broken:
                    # A number of thousands of digits isn't read.
                    continue
                server.answer(message or {})
                self.assertEqual(sum(message["type"] == "response" for message in sink.said), before + 1, (seed, message))
                if server.is_running():
                    server.answer({"type": "request", "command": "pause"})
                while server.is_running():
                    server.work()
            self.assertFalse([message for message in sink.said if message.get("event") == "terminated"], seed)

    def test_random_commands_of_a_page(self) -> None:
        for seed in range(12):
            choice = random.Random(seed)
            session = Session(PROGRAM, Source(random_program(seed), "x.task"), choice.choice((None, 5, 30)))
            self.addCleanup(session.close)
            live = Live(session)
            for _ in range(30):
                live.do(command(choice, ALLOWED))
            self.assertEqual(session.view("hist")[1:], [session.line_of(name) for name in session.history], seed)
            there = [step[0] for step in live.data()["steps"] if step[4] is None]  # type: ignore[attr-defined]
            self.assertEqual(there, list(session.history), seed)


@needs_program
class Typed(unittest.TestCase):
    def session(self, seed: int) -> tuple[str, list[str]]:
        """A random program, and lines of commands with malformed ones among them."""
        choice = random.Random(seed)
        text = "".join(" ".join(words) + "\n" for words in Program(choice).lines)
        lines = [f"run {choice.choice((3, 8, 20, 80))}"]
        for _ in range(3):
            steps = steps_of([PROGRAM], (text + "---\n" + "\n".join(lines) + "\n").encode("latin-1"), 100000)
            lines += [spell(choice, [pick_command(choice, steps, steps[-10:], True, 0.2, 1)], 0.2) for _ in range(10)]
        return text, lines + MALFORMED + ["run 1 #" + "y" * 1100, "go 1 1" + " " * 1100, "#" + "y" * 1100, " " * 1100, " " * 1100 + "hist"]

    def test_plain_lines_are_those_of_the_program(self) -> None:
        for seed in range(12):
            text, lines = self.session(seed)
            typed = "\n".join(lines).encode("latin-1") + b"\n"
            wanted = subprocess.run([PROGRAM], input=text.encode() + b"---\n" + typed, capture_output=True, timeout=60, check=False)
            found = subprocess.run([sys.executable, MAIN, "--program", PROGRAM, "--plain", write_file(self, text)], input=typed,
                                   capture_output=True, timeout=60, check=False)
            self.assertEqual((found.stdout, found.stderr, found.returncode), (wanted.stdout, wanted.stderr, wanted.returncode), seed)

    def test_what_the_shell_saves_gives_the_same_history(self) -> None:
        """Of commands of the shell's own too, by several workers, and after a restart or another limit."""
        for seed in range(12):
            choice = random.Random(seed)
            session = Session(PROGRAM, Source(random_program(seed), "x.task"), choice.choice((None, None, 40)))
            self.addCleanup(session.close)
            shell = Shell(session, Console(io.StringIO()))
            for _ in range(40):
                line = choice.choice((command(choice, ASKED), "step", "run 5", "go 4 9", "random 3 4", "back 2", "rs -f 0", "redo", "keep 0#2", "rolltask 0.1", "trim"))
                if words_of(line)[:1] != ["quit"]:
                    self.assertFalse(shell.take(line), (seed, line[:80]))
            shell.take("at now")
            self.assertEqual(session.view("hist")[1:], [session.line_of(name) for name in session.history], seed)
            lines = [line for line in session.text().split("\n---\n", 1)[1].split("\n") if words_of(line) and not is_too_long(line)]
            again = Session(PROGRAM, session.source, session.limit, session.options)
            self.addCleanup(again.close)
            for line in lines:
                again.do(line)
            self.assertEqual(again.history, session.history, seed)
            self.assertEqual(list(again.history), list(session.history), seed)


if __name__ == "__main__":
    unittest.main()
