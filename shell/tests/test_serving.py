"""The live page: who may ask for what, what a click does, and its ends; in a real browser too."""

import contextlib
import http.client
import io
import json
import os
import re
import signal
import socket
import struct
import subprocess
import threading
import time
import unittest
from typing import Any

from browser import InBrowser, browser
from support import EXAMPLES, MAIN, PROGRAM, TOP, Terminal, example, needs_program, write_file
from shell.protocol import Ended
from shell.serving import ALLOWED, LONGEST, Handler, Live, LiveServer
from shell.session import Session
from shell.source import Source

# What a hand would do at the page, a click after the other; then the page shows what it saw.
CLICKS = """<script>(async () => {
  const told = [], text = () => find("live-told").textContent;
  const settled = async (act) => { const before = text(); act(); for (let k = 0; k < 400 && (text() === before || text().endsWith("…")); k++) await new Promise((go) => setTimeout(go, 25)); told.push(text()); };
  const chips = () => [...document.querySelectorAll("#live-ready button")].map((made) => made.textContent);
  told.push(chips());
  for (let k = 0; k < 3; k++) await settled(() => document.querySelector("#live-ready button").click());
  told.push(chips());
  await settled(() => document.querySelector('#graph [data-task="0.2"]').dispatchEvent(new MouseEvent("click", { bubbles: true })));
  await settled(() => document.querySelector('#graph [data-task="0"]').dispatchEvent(new MouseEvent("click", { bubbles: true })));
  await settled(() => find("live-run").click());
  document.querySelector('.step[data-step="0.1#4"]').dispatchEvent(new MouseEvent("click", { bubbles: true }));
  told.push(find("live-chosen").textContent);
  await settled(() => document.querySelector("#live-chosen button").click());
  await settled(() => find("live-redo").click());
  await settled(() => find("live-back").click());
  const newest = [...document.querySelectorAll(".step")].pop();
  newest.dispatchEvent(new MouseEvent("click", { bubbles: true }));
  told.push(document.querySelector("#live-chosen button").textContent);
  find("at").value = 3; find("at").dispatchEvent(new Event("input"));
  told.push(find("live-ready").textContent, find("live-run").disabled);
  await settled(() => ask("save /tmp/x"));
  document.body.replaceChildren(); document.body.textContent = JSON.stringify(told);
})();</script></body>"""


class Clicked(Live):
    """A session whose page has a hand at it."""

    def page(self) -> Any:
        return super().page().replace("</body>", CLICKS)


def served(test: unittest.TestCase, kind: type[Live] = Live) -> LiveServer:
    """A server of a program, for the time of the test."""
    session = Session(PROGRAM, Source(example("race.task"), "race.task"))
    server = LiveServer(kind(session), 0)
    ended = threading.Event()
    thread = threading.Thread(target=server.serve_until, args=(ended.is_set,))
    thread.start()

    def end() -> None:
        ended.set()
        thread.join()
        server.server_close()
        session.close()
    test.addCleanup(end)
    return server


@needs_program
class Served(unittest.TestCase):

    def ask(self, server: LiveServer, method: str, path: str, body: str | None = None, **headers: Any) -> tuple[int, str]:
        """The status and the body of an answer."""
        connection = http.client.HTTPConnection("127.0.0.1", server.server_port, timeout=30)
        self.addCleanup(connection.close)
        if body is not None:
            headers.setdefault("Content-Type", "application/json")
        connection.request(method, path, body, headers)
        answer = connection.getresponse()
        self.assertEqual((answer.getheader("X-Frame-Options"), answer.getheader("Cache-Control")), ("DENY", "no-store"))
        self.assertIsNone(answer.getheader("Access-Control-Allow-Origin"))
        return answer.status, answer.read().decode()

    def do(self, server: LiveServer, command: str) -> Any:
        """What a command says."""
        status, body = self.ask(server, "POST", f"/{server.token}/do", json.dumps({"command": command}))
        self.assertEqual(status, 200, body)
        return json.loads(body)

    def test_commands(self) -> None:
        server = served(self)
        self.assertRegex(server.address, r"^http://127\.0\.0\.1:\d+/[\w-]{20,}/$")
        status, page = self.ask(server, "GET", f"/{server.token}/")
        self.assertEqual(status, 200)
        self.assertIn("connect-src 'self'", page)
        told = self.do(server, "run 3")
        self.assertEqual((told["lines"][-1], told["outcome"], len(told["data"]["steps"])), ("ran 3 limit", "done", 3))
        told = self.do(server, "step 0")
        self.assertEqual((told["outcome"], told["words"]), ("refused", ["0 is at a taskwait, and its child 0.1 hasn't ended"]))
        self.do(server, "run")
        self.assertEqual(self.do(server, "roll 0.1#4")["lines"][0], "rolled 10")
        self.assertEqual(self.do(server, "redo")["lines"][-1], "redone 10")
        self.assertEqual(json.loads(self.ask(server, "GET", f"/{server.token}/state")[1])["moments"], 28)

    def test_who_may_not_ask(self) -> None:
        server = served(self)
        port, token = server.server_port, server.token
        wrong: tuple[tuple[str, str, dict[str, str], int], ...] = (
            ("GET", "/", {}, 404), ("GET", "/x/", {}, 404), ("GET", f"/{token[:-1]}/", {}, 404), ("GET", f"/{token}", {}, 404), ("GET", f"/{token}/../", {}, 404),
            ("GET", f"/{token}/", {"Host": "evil.example"}, 403), ("GET", f"/{token}/", {"Host": f"evil.example:{port}"}, 403),
            ("GET", f"/{token}/", {"Origin": "http://evil.example"}, 403), ("GET", f"/{token}/", {"Origin": "null"}, 403),
            ("GET", f"/{token}/", {"Host": f"localhost:{port}"}, 200), ("GET", f"/{token}/", {"Origin": f"http://127.0.0.1:{port}"}, 200),
            ("GET", f"/{token}/do", {}, 404), ("DELETE", f"/{token}/", {}, 501))
        for method, path, headers, wanted in wrong:
            if wanted == 501:
                connection = http.client.HTTPConnection("127.0.0.1", port, timeout=30)
                self.addCleanup(connection.close)
                connection.request(method, path)
                self.assertEqual(connection.getresponse().status, 501)
                continue
            self.assertEqual(self.ask(server, method, path, **headers)[0], wanted, (path, headers))

    def test_what_may_not_be_asked_for(self) -> None:
        server = served(self)
        path = f"/{server.token}/do"
        wrong: tuple[tuple[str, dict[str, str], int], ...] = (
            ('{"command": "save /tmp/x"}', {}, 403), ('{"command": "source /etc/passwd"}', {}, 403), ('{"command": "page x"}', {}, 403), ('{"command": ""}', {}, 403),
            ('{"command": "quit"}', {}, 403), ('{"command": "step 0\\nsave x"}', {}, 400), ('{"command": 3}', {}, 400), ("[]", {}, 400), ("{", {}, 400),
            ("[" * 4000, {}, 400), (" " * (LONGEST + 1), {}, 400), ('{"command": "step 0"}', {"Content-Type": "text/plain"}, 400),
            ("{}", {"Content-Length": "\u00b2"}, 400), ("{}", {"Content-Length": "9" * 5000}, 400), ("{}", {"Content-Length": "-2"}, 400))
        for body, headers, wanted in wrong:
            self.assertEqual(self.ask(server, "POST", path, body, **headers)[0], wanted, body[:60])
        self.assertEqual(self.ask(server, "POST", f"/{server.token}/x", '{"command": "step 0"}')[0], 404)
        self.assertEqual(json.loads(self.ask(server, "GET", f"/{server.token}/state")[1])["moments"], 0)
        self.assertFalse({"save", "source", "page", "graph", "lanes", "compare", "quit", "serve"} & set(ALLOWED))

    def test_halves_of_characters(self) -> None:
        """JSON has them, and they have no bytes."""
        server = served(self)
        for command in ("step \ud800", "rs \udfff", "rollcell \udc80"):
            self.assertNotEqual(self.do(server, command)["outcome"], "done", command)
        self.assertEqual(self.do(server, "step 0")["lines"], ["0#1 start"])

    def test_connections_on_which_nothing_is_asked_keep_nobody(self) -> None:
        server = served(self)
        with socket.create_connection(("127.0.0.1", server.server_port)), socket.create_connection(("127.0.0.1", server.server_port)):
            began = time.monotonic()
            self.assertEqual(self.ask(server, "GET", f"/{server.token}/state")[0], 200)
            self.assertLess(time.monotonic() - began, Handler.timeout)

    def test_requests_beside_each_other_come_one_after_another(self) -> None:
        server = served(self)
        told: list[str] = []

        def step() -> None:
            told.append(json.loads(self.ask(server, "POST", f"/{server.token}/do", '{"command": "step 0"}')[1])["lines"][0])
        threads = [threading.Thread(target=step) for _ in range(3)]
        for thread in threads:
            thread.start()
        for thread in threads:
            thread.join()
        self.assertEqual(sorted(told), ["0#1 start", "0#2 spawn 0.1 add 1", "0#3 spawn 0.2 add 2"])

    def test_a_client_that_leaves_is_no_fault(self) -> None:
        server, said = served(self), io.StringIO()
        with contextlib.redirect_stderr(said):
            for _ in range(3):
                with socket.create_connection(("127.0.0.1", server.server_port)) as client:
                    client.setsockopt(socket.SOL_SOCKET, socket.SO_LINGER, struct.pack("ii", 1, 0))
                    client.sendall(f"GET /{server.token}/ HTTP/1.1\r\nHost: 127.0.0.1:{server.server_port}\r\n\r\n".encode())
            self.assertEqual(self.ask(server, "GET", f"/{server.token}/state")[0], 200)
        self.assertEqual(said.getvalue(), "")

    def test_after_its_end_nothing_is_asked_of_the_session(self) -> None:
        live = Live(Session(PROGRAM, Source(example("race.task"), "race.task")))
        self.addCleanup(live.session.close)
        with LiveServer(live, 0) as server:
            server.serve_until(lambda: True)
            self.assertRaises(Ended, server.answer_of, lambda live: live.data())

    def test_a_run_without_an_end_is_short(self) -> None:
        session = Session(PROGRAM, Source("cells 1\nbody main 0\n  while 0 == 0\n    store 0 1\n  end\nend\n", "loop.task"))
        self.addCleanup(session.close)
        for command in ("run", "run 999999", "run -v", "go", "go 1 " + "9" * 1000):
            told: dict[str, Any] = Live(session).do(command)
            self.assertEqual(told["lines"][-1], "ran 1000 limit", command)
        for command in ("run x", "run \u00b2", "go x y"):
            self.assertEqual(Live(session).do(command)["outcome"], "error", command)


@needs_program
class ClickedTest(InBrowser):
    def test_clicks(self) -> None:
        server = served(self, Clicked)
        page = browser().shown(server.address, "1400,2000", until="document.body.textContent.startsWith('[')")
        told = json.loads(re.search(r"<body>(.*)</body>", page, re.S)[1].replace("&gt;", ">").replace("&lt;", "<").replace("&amp;", "&"))
        self.assertEqual(told[:4], [["step 0"], "step 0: 0#1 start", "step 0: 0#2 spawn 0.1 add 1", "step 0: 0#3 spawn 0.2 add 2"])
        self.assertEqual(told[4:7], [["step 0.1", "step 0.2"], "step 0.2: 0.2#1 start", "0 Children 0.1"])
        self.assertTrue(told[7].startswith("run 1000: 0#6 print 3  |  0#7 end  |  ran 13 done"), told[7])
        self.assertTrue(told[8].startswith("roll 0.1#4 takes 10 steps: 0.1#4, 0.1#5, 0.2#2,"), told[8])
        self.assertTrue(told[9].startswith("roll 0.1#4: "), told[9])
        self.assertIn("redone 10", told[10])
        self.assertEqual(told[11:13], ["back: undone 0#7", "undo 0#6"])
        self.assertEqual(told[13:15], ["This is the past: the last moment of the slider is the present.", True])
        self.assertTrue(told[15].startswith("a page may ask for step, run"), told[15])


@needs_program
class Commands(unittest.TestCase):
    def test_a_file_is_served_until_it_is_ended(self) -> None:
        for ending in (signal.SIGINT, signal.SIGTERM):
            child = subprocess.Popen([os.path.join(TOP, "run"), "--serve", os.path.join(EXAMPLES, "race.session")], stdout=subprocess.PIPE, text=True,
                                     env={**os.environ, "TASKBACK_PROGRAM": PROGRAM})
            self.addCleanup(child.stdout.close)
            self.addCleanup(child.kill)
            address = re.search(r"race\.session is at (http://127\.0\.0\.1:(\d+)(/[\w-]+/)) ; Ctrl-C ends it", child.stdout.readline())
            connection = http.client.HTTPConnection("127.0.0.1", int(address[2]), timeout=30)
            connection.request("GET", address[3] + "state")
            self.assertEqual(json.loads(connection.getresponse().read())["moments"], 28)
            connection.close()
            child.send_signal(ending)
            self.assertEqual(child.wait(timeout=30), 0)

    def test_a_script_that_serves_says_where_at_once(self) -> None:
        script = write_file(self, "run 3\nserve\nout\n", "a.script")
        child = subprocess.Popen([os.path.join(TOP, "run"), "--json", "-x", script, os.path.join(EXAMPLES, "race.task")], stdout=subprocess.PIPE, text=True,
                                 env={**os.environ, "TASKBACK_PROGRAM": PROGRAM})
        self.addCleanup(child.stdout.close)
        self.addCleanup(child.kill)
        told = [json.loads(child.stdout.readline()) for _ in range(2)]
        self.assertEqual([record["command"] for record in told], ["run 3", "serve"])
        self.assertRegex(told[1]["lines"][0], r"the page is at http://127\.0\.0\.1:\d+/[\w-]+/ ; Ctrl-C ends it")
        child.send_signal(signal.SIGINT)
        self.assertEqual((child.wait(timeout=30), child.stdout.read()), (130, ""))

    def test_wrong_words(self) -> None:
        race = os.path.join(EXAMPLES, "race.task")
        wrong: tuple[tuple[list[str], str | None], ...] = (
            ([], "--serve FILE [PORT]"), (["/no/file"], "can't read /no/file"), ([race, "x"], "--serve FILE [PORT]"), ([race, "1"], None))
        for words, wanted in wrong:
            if wanted is None and os.geteuid() == 0:
                continue
            done = subprocess.run([MAIN, "--serve", *words], capture_output=True, text=True, timeout=60, check=False,
                                  env={**os.environ, "TASKBACK_PROGRAM": PROGRAM})
            self.assertEqual(done.returncode, 2)
            self.assertIn(wanted or "can't serve", done.stderr)

    def test_in_the_shell(self) -> None:
        shell = Terminal(self, [os.path.join(EXAMPLES, "race.task")], NO_COLOR="1")
        shell.read_until("(taskback) ")
        shell.ask("run 3")
        shell.send("serve\n")
        address = re.search(r"http://127\.0\.0\.1:(\d+)(/[\w-]+/)", shell.read_until("; Ctrl-C ends it"))
        connection = http.client.HTTPConnection("127.0.0.1", int(address[1]), timeout=30)
        connection.request("POST", address[2] + "do", '{"command": "step 0.2"}', {"Content-Type": "application/json"})
        self.assertEqual(json.loads(connection.getresponse().read())["lines"], ["0.2#1 start"])
        connection.close()
        time.sleep(0.1)
        shell.send("\x03")
        shell.read_until("(taskback) ")
        self.assertEqual(shell.ask("hist")[-1].split("   ")[0], "0.2#1 start")
        self.assertEqual(shell.ask("serve x"), ["serve [PORT], for example: serve"])


if __name__ == "__main__":
    unittest.main()
