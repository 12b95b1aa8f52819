"""A client of the Debug Adapter Protocol for tests: sends requests, and keeps the events that come between."""

import json
import os
import subprocess
import threading
import unittest
from typing import Any

from support import PROGRAM, SECONDS, TOP

ADAPTER = os.path.join(TOP, "taskback-dap")


class Client:
    """One server as a child, over its standard streams or over others that are given."""

    def __init__(self, test: unittest.TestCase, streams: Any = None) -> None:
        self.test = test
        self.events: list[Any] = []
        self.messages: list[Any] = []
        self.sequence = 0
        self.child = None
        self.said = ""
        if streams is None:
            self.child = subprocess.Popen([ADAPTER], stdin=subprocess.PIPE, stdout=subprocess.PIPE, stderr=subprocess.PIPE,
                                          env={**os.environ, "TASKBACK_PROGRAM": PROGRAM})
            streams = self.child.stdout, self.child.stdin
            # A server that says nothing ends its test.
            watch = threading.Timer(SECONDS, self.child.kill)
            watch.start()
            test.addCleanup(watch.cancel)
            test.addCleanup(self.close)
        self.source, self.sink = streams

    def close(self) -> Any:
        """Ends the server where it hasn't ended; returns its status and what it said."""
        if not self.child.stdout.closed:
            self.child.stdin.close()
            self.said = self.child.stderr.read().decode()
            self.child.wait(timeout=SECONDS)
            self.child.stdout.close()
            self.child.stderr.close()
        return self.child.returncode, self.said

    def receive(self) -> Any:
        """The next message."""
        length = None
        while (line := self.source.readline().strip()):
            name, _, value = line.decode().partition(":")
            if name == "Content-Length":
                length = int(value)
        self.test.assertIsNotNone(length, "the server ended")
        message = json.loads(self.source.read(length))
        self.test.assertEqual(message["seq"], self.sequence_of_server() + 1)
        self._seen = message["seq"]
        self.messages.append(message)
        return message

    def sequence_of_server(self) -> int:
        """The number of the newest message of the server."""
        return getattr(self, "_seen", 0)

    def send(self, command: str, **arguments: Any) -> Any:
        """Sends a request; returns its number."""
        self.sequence += 1
        data = json.dumps({"seq": self.sequence, "type": "request", "command": command, "arguments": arguments}).encode()
        self.sink.write(b"Content-Length: %d\r\n\r\n%s" % (len(data), data))
        self.sink.flush()
        return self.sequence

    def ask(self, command: str, **arguments: Any) -> Any:
        """The response to a request."""
        number = self.send(command, **arguments)
        while True:
            message = self.receive()
            if message["type"] == "response" and message["request_seq"] == number:
                self.test.assertEqual(message["command"], command)
                return message
            self.events.append(message)

    def do(self, command: str, **arguments: Any) -> Any:
        """The body of the response to a request, which succeeds."""
        response = self.ask(command, **arguments)
        self.test.assertTrue(response["success"], response)
        return response["body"]

    def refused(self, command: str, **arguments: Any) -> str:
        """Why a request fails."""
        response = self.ask(command, **arguments)
        self.test.assertFalse(response["success"], response)
        return str(response["message"])

    def event(self, name: str) -> Any:
        """The body of the next event of this name."""
        while True:
            found = next((at for at, message in enumerate(self.events) if message.get("event") == name), None)
            if found is not None:
                return self.events.pop(found)["body"]
            self.events.append(self.receive())

    def stopped(self, command: str, **arguments: Any) -> Any:
        """The body of the `stopped` event after a request."""
        self.events = [message for message in self.events if message.get("event") != "stopped"]
        self.do(command, **arguments)
        return self.event("stopped")

    def launch(self, path: str, **more: Any) -> "Client":
        """Launches a program and stops at its entry, with no breakpoints."""
        self.do("initialize", adapterID="taskback", linesStartAt1=True)
        self.do("launch", program=path, **more)
        self.event("initialized")
        return self

    def begin(self) -> Any:
        """Says that all breakpoints are set."""
        self.do("configurationDone")
        return self.event("stopped")

    def threads(self) -> Any:
        """The threads by their tasks' names."""
        return {thread["name"].split(" ")[0]: thread["id"] for thread in self.do("threads")["threads"]}

    def frame(self, task: str) -> Any:
        """The first frame of a task."""
        return self.do("stackTrace", threadId=self.threads()[task])["stackFrames"][0]

    def variables(self, task: str, scope: str) -> Any:
        """The variables of a scope by their names."""
        scopes = {told["name"]: told["variablesReference"] for told in self.do("scopes", frameId=self.frame(task)["id"])["scopes"]}
        return {told["name"]: told["value"] for told in self.do("variables", variablesReference=scopes[scope])["variables"]}
