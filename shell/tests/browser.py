"""One Chromium for all tests of a process: it is told over a pipe, by its DevTools protocol, what to show."""

import atexit
import fcntl
import functools
import json
import os
import select
import shutil
import signal
import subprocess
import tempfile
import time
import unittest
from typing import Any

from support import SECONDS

CHROMIUM = shutil.which("chromium") or shutil.which("chromium-browser") or shutil.which("google-chrome")
FLAGS = ("--headless", "--no-sandbox", "--disable-gpu", "--disable-dev-shm-usage", "--remote-debugging-pipe")
SHOWN = "document.documentElement.outerHTML"


class Browser:
    """A running Chromium. Its pipes are its descriptors 3 and 4, and a message ends with a zero byte."""

    def __init__(self) -> None:
        self.home = tempfile.mkdtemp()
        theirs, self.sink = os.pipe()
        self.source, answers = os.pipe()
        given = [fcntl.fcntl(number, fcntl.F_DUPFD, 20) for number in (theirs, answers)]
        self.child = subprocess.Popen(["bash", "-c", f'exec "$0" "$@" 3<&{given[0]} 4>&{given[1]} {given[0]}<&- {given[1]}>&-', CHROMIUM, *FLAGS,
                                       f"--user-data-dir={self.home}", "about:blank"], pass_fds=given, start_new_session=True,
                                      stdin=subprocess.DEVNULL, stdout=subprocess.DEVNULL, stderr=subprocess.DEVNULL)
        for number in (theirs, answers, *given):
            os.close(number)
        self.number = 0
        self.seen = b""
        self.messages: list[Any] = []
        atexit.register(self.close)

    def close(self) -> None:
        """Ends it with all its processes, which are a group of their own."""
        os.killpg(self.child.pid, signal.SIGKILL)
        self.child.wait()
        shutil.rmtree(self.home, ignore_errors=True)

    def receive(self) -> Any:
        """The next message."""
        limit = time.monotonic() + SECONDS
        while b"\0" not in self.seen:
            if not select.select([self.source], [], [], max(0, limit - time.monotonic()))[0]:
                raise OSError("Chromium says nothing")
            part = os.read(self.source, 1 << 20)
            if not part:
                raise OSError("Chromium has ended")
            self.seen += part
        message, self.seen = self.seen.split(b"\0", 1)
        return json.loads(message)

    def ask(self, method: str, session: str | None = None, **words: Any) -> Any:
        """What it answers to a message."""
        self.number += 1
        data = json.dumps({"id": self.number, "method": method, "params": words, **({"sessionId": session} if session else {})}).encode() + b"\0"
        while data:
            data = data[os.write(self.sink, data):]
        while True:
            message = self.receive()
            if message.get("id") == self.number:
                if "error" in message:
                    raise OSError(f"{method}: {message['error']}")
                return message["result"]
            self.messages.append(message)

    def await_event(self, method: str) -> None:
        """Waits for an event that comes after what was asked for."""
        while not any(message.get("method") == method for message in self.messages):
            self.messages.append(self.receive())

    def shown(self, address: str, size: str = "1400,4000", dark: bool = False, until: str = "true") -> str:
        """The document of a page once it was loaded and its scripts have run, and what `until` says holds."""
        target = self.ask("Target.createTarget", url="about:blank")["targetId"]
        page = self.ask("Target.attachToTarget", targetId=target, flatten=True)["sessionId"]
        wide, high = map(int, size.split(","))
        self.ask("Emulation.setDeviceMetricsOverride", page, width=wide, height=high, deviceScaleFactor=1, mobile=False)
        self.ask("Emulation.setEmulatedMedia", page, features=[{"name": "prefers-color-scheme", "value": "dark" if dark else "light"}])
        self.ask("Page.enable", page)
        self.messages.clear()
        self.ask("Page.navigate", page, url=address)
        self.await_event("Page.loadEventFired")
        limit = time.monotonic() + SECONDS
        while not self.value(page, until) and time.monotonic() < limit:
            time.sleep(0.02)
        found = self.value(page, SHOWN)
        self.ask("Target.closeTarget", targetId=target)
        return str(found)

    def value(self, page: str, expression: str) -> Any:
        """What an expression is on a page."""
        return self.ask("Runtime.evaluate", page, expression=expression, returnByValue=True)["result"].get("value")


running: list[Browser] = []


def browser() -> Browser:
    """The one that runs; it is started where none does."""
    if not running:
        running.append(Browser())
    return running[0]


@functools.cache
def why_none() -> str:
    """Why there are no tests in a browser, or nothing."""
    if not CHROMIUM:
        return "left out: no Chromium is here"
    try:
        return "" if "tried" in browser().shown("data:text/html,<p>tried</p>") else "left out: Chromium shows nothing here"
    except OSError as fault:
        return f"left out: Chromium does not start here ({fault})"


class InBrowser(unittest.TestCase):
    """Tests that are left out where no browser is; whether there is one is found out when the first of them begins."""

    def setUp(self) -> None:
        why = why_none()
        if why:
            self.skipTest(why)
