"""The server: reads requests while the tasks run, and sends responses and events, over standard streams or a port."""

from __future__ import annotations

import queue
import socket
import sys
import threading
from typing import BinaryIO

from shell.dap.adapter import Adapter
from shell.dap.debuggee import Failed
from shell.dap.wire import Broken, Message, read_message, write_message
from shell.protocol import Ended

# What the reader says in the place of a message.
ENDED = "ended"
# These requests end a command of the console that is under way, which would answer none.
INTERRUPTING = ("pause", "cancel", "terminate", "disconnect")


class Server:
    """Serves one client; only the thread that calls `serve` touches the session."""

    def __init__(self, program: str, source: BinaryIO, sink: BinaryIO) -> None:
        self.source = source
        self.sink = sink
        self.inbox: queue.Queue[Message | Broken | str] = queue.Queue()
        self.adapter = Adapter(program, self.send_event, self.send_at_once)
        self._sequence = 0
        # Events that belong after the response to the request that is being answered.
        self._held: list[Message] | None = None

    def read(self) -> None:
        """Puts each message into the inbox, up to the end of the stream."""
        try:
            while (message := read_message(self.source)) is not None:
                if message.get("command") in INTERRUPTING:
                    self.adapter.interrupt()
                self.inbox.put(message)
            self.inbox.put(ENDED)
        except Broken as broken:
            self.inbox.put(broken)
        except (OSError, ValueError):
            self.inbox.put(ENDED)

    def serve(self) -> int:
        """Answers requests until the client leaves; returns the status."""
        threading.Thread(target=self.read, daemon=True).start()
        try:
            while not self.adapter.done:
                message = self.next_message()
                if isinstance(message, Broken):
                    print(f"taskback-dap: {message}", file=sys.stderr)
                    return 1
                if message is ENDED:
                    return 0
                if isinstance(message, dict):
                    self.answer(message)
                else:
                    self.work()
        except BrokenPipeError:
            return 0
        finally:
            self.adapter.close()
        return 0

    def next_message(self) -> Message | Broken | str | None:
        """The next message; None where there is none and tasks run."""
        try:
            return self.inbox.get(block=not self.is_running())
        except queue.Empty:
            return None

    def is_running(self) -> bool:
        """Whether tasks run."""
        return self.adapter.job is not None

    def work(self) -> None:
        """A piece of what runs."""
        try:
            self.adapter.runner.work()
        except Failed as failed:
            self.adapter.job = None
            self.adapter.output(str(failed), "stderr")
        except Ended as ended:
            self.program_ended(ended)

    def program_ended(self, ended: Ended) -> None:
        """The program below has ended, and so does the session."""
        self.adapter.output(f"the program has ended: {ended}", "stderr")
        self.adapter.close()
        self.send_event("terminated", {})

    def answer(self, message: Message) -> None:
        """Answers one request; events that it causes at once are sent after the response."""
        if message.get("type") != "request":
            return
        command, arguments = str(message.get("command")), message.get("arguments")
        self._held = []
        before = self.adapter.job
        try:
            body = self.adapter.handle(command, arguments if isinstance(arguments, dict) else {})
            response: Message = {"success": True, "body": body}
            if self.is_running() and self.adapter.job is not before:
                # The first piece may already fail, as a step of a task that waits.
                self.adapter.runner.work()
        except Failed as failed:
            self.adapter.job = before
            response = {"success": False, "message": str(failed), "body": {"error": {"id": 1, "format": str(failed), "showUser": True}}}
        except Ended as ended:
            self.program_ended(ended)
            response = {"success": False, "message": str(ended)}
        except (TypeError, ValueError, AttributeError, LookupError, ArithmeticError, RecursionError) as fault:
            response = {"success": False, "message": f"the arguments of {command} are wrong: {fault}"}
        held, self._held = self._held, None
        number = message.get("seq")
        self.send({"type": "response", "request_seq": number if type(number) is int else 0, "command": command, **response})
        for event in held:
            self.send(event)

    def send(self, message: Message) -> None:
        """Sends a message with the next number."""
        self._sequence += 1
        write_message(self.sink, {"seq": self._sequence, **message})

    def send_event(self, event: str, body: Message) -> None:
        """Sends an event, after the response that is being made."""
        if self._held is None:
            self.send_at_once(event, body)
        else:
            self._held.append({"type": "event", "event": event, "body": body})

    def send_at_once(self, event: str, body: Message) -> None:
        """Sends an event while a request is being answered."""
        self.send({"type": "event", "event": event, "body": body})


def serve_port(program: str, port: int) -> int:
    """Serves one client on a port of this machine alone; says which port it is. Returns the status."""
    try:
        listening = socket.create_server(("127.0.0.1", port))
    except (OSError, OverflowError) as fault:
        print(f"taskback-dap: can't listen on port {port}: {getattr(fault, 'strerror', None) or 'a port is 0 to 65535'}", file=sys.stderr)
        return 2
    with listening:
        print(f"taskback-dap: listening on 127.0.0.1:{listening.getsockname()[1]}", file=sys.stderr, flush=True)
        connection, _ = listening.accept()
    with connection, connection.makefile("rb") as source, connection.makefile("wb") as sink:
        status = Server(program, source, sink).serve()
        try:
            # The reader, which may wait for more, lets go of the stream.
            connection.shutdown(socket.SHUT_RDWR)
        except OSError:
            pass
        return status
