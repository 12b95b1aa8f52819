"""A session as a live page: served on this machine alone, to whoever has the token of its address."""

from __future__ import annotations

import hmac
import io
import json
import secrets
import sys
import threading
from collections.abc import Callable
from functools import partial
from http.server import BaseHTTPRequestHandler, ThreadingHTTPServer
from typing import Any

from shell.commands import Shell
from shell.console import Console
from shell.page import filled, part
from shell.protocol import Ended, is_digits, words_of
from shell.session import Session
from shell.story import Story

HOST = "127.0.0.1"
LONGEST = 4096
# What a page may ask for: nothing that reads or writes files.
ALLOWED = ("step", "run", "go", "finish", "until", "back", "undo", "roll", "rolltask", "rollcell", "rollprint", "redo", "keep", "restart", "rc", "rs")
# A run that is asked for without a number, or with a greater one, takes so many steps.
MOST_STEPS = 1000
# So often a server looks whether it should end, in seconds.
LOOK = 0.2
JSON = "application/json"


class Live:
    """A session that pages look at and step; one request at a time."""

    def __init__(self, session: Session) -> None:
        self.session = session
        self.out = io.StringIO()
        self.console = Collected(self.out)
        self.shell = Shell(session, self.console)

    def data(self) -> dict[str, object]:
        """What the page shows."""
        return Story(self.session).data()

    def page(self) -> str:
        """The page at this moment."""
        return filled(self.data(), part("live.html"), "; connect-src 'self'", ("live.js",))

    def do(self, command: str) -> dict[str, object]:
        """Carries out a command; returns what it said and what there is now; raises ValueError where it may not be asked for."""
        words = words_of(command)
        if not words or words[0] not in ALLOWED:
            raise ValueError("a page may ask for " + ", ".join(ALLOWED))
        if words[0] in ("run", "go"):
            words = [*words[:-1], str(min(int(words[-1]), MOST_STEPS))] if is_digits(words[-1]) else [*words, str(MOST_STEPS)]
        self.console.lines, self.console.words = [], []
        self.shell.take(" ".join(words))
        return {"lines": self.console.lines, "words": self.console.words, "outcome": self.shell.outcome.name.lower(), "data": self.data()}


class Collected(Console):
    """Keeps lines and words apart."""

    def __init__(self, out: io.StringIO) -> None:
        super().__init__(out)
        self.lines: list[str] = []
        self.words: list[str] = []

    def write(self, text: str) -> None:
        self.lines.append(text)

    def reply(self, line: str, line_number: int | None = None, words: str = "") -> None:
        self.lines.append(line)

    def note(self, text: str) -> None:
        self.words.append(text)


class LiveServer(ThreadingHTTPServer):
    """Serves one session under an address that nobody can guess.

    Each connection has a thread, since browsers open some on which they ask for nothing; the session is for one at a time.
    """

    timeout = LOOK
    daemon_threads = True

    def __init__(self, live: Live, port: int) -> None:
        super().__init__((HOST, port), Handler)
        self.live = live
        self.token = secrets.token_urlsafe(16)
        self._turn = threading.Lock()
        self._over = False

    @property
    def address(self) -> str:
        """Where the page is."""
        return f"http://{HOST}:{self.server_port}/{self.token}/"

    def serve_until(self, ends: Callable[[], bool]) -> None:
        """Answers requests until it should end; then the session is nobody's but the caller's."""
        while not ends():
            self.handle_request()
        with self._turn:
            self._over = True

    def answer_of(self, ask: Callable[[Live], object]) -> bytes:
        """What a request is answered, as bytes of a page or as JSON; raises Ended where the program has ended, or the serving."""
        with self._turn:
            if self._over:
                raise Ended(0, "the page is served no more")
            found = ask(self.live)
        return (found if isinstance(found, str) else json.dumps(found)).encode("utf-8", "replace")

    def handle_error(self, request: object, client_address: object) -> None:
        """A client that left is no fault."""
        if not isinstance(sys.exc_info()[1], ConnectionError):
            super().handle_error(request, client_address)  # type: ignore[arg-type]


class Handler(BaseHTTPRequestHandler):
    """One request: from this machine, for this server's name, from no other page, and with the token."""

    server: LiveServer
    timeout = 10
    server_version = "Taskback"
    sys_version = ""

    def allowed(self) -> str | None:
        """The path after the token; answers, and returns None, where the request isn't allowed."""
        hosts = {f"{name}:{self.server.server_port}" for name in (HOST, "localhost")}
        origin = self.headers.get("Origin")
        if self.headers.get("Host") not in hosts or (origin is not None and origin not in {f"http://{host}" for host in hosts}):
            self.answer(403, "text/plain", b"only this machine's own page may ask")
            return None
        parts = self.path.split("/", 2)
        if len(parts) < 3 or not hmac.compare_digest(parts[1].encode(), self.server.token.encode()):
            self.answer(404, "text/plain", b"no such page")
            return None
        return parts[2]

    def do_GET(self) -> None:
        """The page, or its data."""
        path = self.allowed()
        if path == "":
            self.look("text/html; charset=utf-8", lambda live: live.page())
        elif path == "state":
            self.look(JSON, lambda live: live.data())
        elif path is not None:
            self.answer(404, "text/plain", b"no such page")

    def look(self, kind: str, ask: Callable[[Live], object]) -> None:
        """Answers with what the session is asked for, or says why it can't be."""
        try:
            body = self.server.answer_of(ask)
        except ValueError as fault:
            self.answer(403, "text/plain", str(fault).encode())
        except Ended as ended:
            self.answer(503, "text/plain", str(ended).encode())
        else:
            self.answer(200, kind, body)

    def do_POST(self) -> None:
        """A command."""
        path = self.allowed()
        if path is None:
            return
        command = self.command_in_body()
        if path != "do" or command is None:
            self.answer(404 if path != "do" else 400, "text/plain", b"a command is asked for as {\"command\": \"step 0\"}")
            return
        self.look(JSON, partial(Live.do, command=command))

    def command_in_body(self) -> str | None:
        """The command that a request asks for; None where there is none."""
        length = self.headers.get("Content-Length", "")
        if not is_digits(length) or int(length) > LONGEST or self.headers.get("Content-Type") != JSON:
            return None
        try:
            given: Any = json.loads(self.rfile.read(int(length)))
        except (ValueError, RecursionError):
            return None
        command = given.get("command") if isinstance(given, dict) else None
        return command if isinstance(command, str) and "\n" not in command else None

    def answer(self, status: int, kind: str, body: bytes) -> None:
        """Sends an answer that no other page may read or show."""
        self.send_response(status)
        for name, value in (("Content-Type", kind), ("Content-Length", str(len(body))), ("Cache-Control", "no-store"), ("X-Content-Type-Options", "nosniff"),
                            ("X-Frame-Options", "DENY"), ("Referrer-Policy", "no-referrer"), ("Cross-Origin-Resource-Policy", "same-origin")):
            self.send_header(name, value)
        self.end_headers()
        self.wfile.write(body)

    def log_message(self, format: str, *args: object) -> None:
        """Nothing: the address has the token."""
