"""Each message of the server against the protocol's own schema, as Debian's `python3-pydevd` has it (`python3-debugpy` brings it)."""

import importlib
import inspect
import os
import sys
import unittest
from typing import Any

from dap_client import Client
from support import EXAMPLES, needs_program

PACKAGES = "/usr/lib/python3/dist-packages"
SUM = os.path.join(EXAMPLES, "right_sum.task")
KINDS: dict[str, Any] = {"string": str, "integer": int, "boolean": bool, "array": list, "object": dict, "number": (int, float), "null": type(None)}


def schema_of_the_protocol() -> Any:
    """The module that was made from the schema; None where there is none."""
    sys.path.append(PACKAGES)
    try:
        return importlib.import_module("_pydevd_bundle._debug_adapter.pydevd_schema")
    except ImportError:
        return None
    finally:
        sys.path.remove(PACKAGES)


SCHEMA = schema_of_the_protocol()


def named(reference: str) -> Any:
    """The class that a reference names."""
    return getattr(SCHEMA, reference.rpartition("/")[2])


def required(kind: Any) -> Any:
    """What an object of a class has to have."""
    parameters = list(inspect.signature(kind.__init__).parameters.values())[1:]
    return [one.name for one in parameters if one.default is inspect.Parameter.empty and one.kind is not inspect.Parameter.VAR_KEYWORD and one.name != "seq"]


def faults(value: Any, told: Any, where: str) -> list[str]:
    """What is wrong with a value by its part of the schema."""
    reference = told.get("$ref") or told.get("type")
    if isinstance(reference, str) and reference not in KINDS:
        kind = named(reference)
        if getattr(kind, "__props__", None) is None:
            return []
        return faults_of_object(value, kind, where) if isinstance(value, dict) else ([] if isinstance(value, str) else [f"{where}: no object"])
    kinds = told.get("type", [])
    kinds = [kinds] if isinstance(kinds, str) else kinds
    if kinds and not any(isinstance(value, KINDS[kind]) and (kind == "boolean") == isinstance(value, bool) for kind in kinds):
        return [f"{where}: {value!r} is no {kinds}"]
    if "enum" in told and value not in told["enum"]:
        return [f"{where}: {value!r} is none of {told['enum']}"]
    if isinstance(value, list) and "items" in told:
        return [fault for at, part in enumerate(value) for fault in faults(part, told["items"], f"{where}[{at}]")]
    return []


def faults_of_object(value: Any, kind: Any, where: str) -> list[str]:
    """What is wrong with an object of a class."""
    found = [f"{where}: {name} lacks" for name in required(kind) if name not in value]
    found += [f"{where}: the schema has no {name}" for name in value if name not in kind.__props__]
    return found + [fault for name, part in value.items() if name in kind.__props__ for fault in faults(part, kind.__props__[name], f"{where}.{name}")]


def class_of(message: Any) -> Any:
    """The class of a message."""
    base = sys.modules["_pydevd_bundle._debug_adapter.pydevd_base_schema"]
    if message["type"] == "event":
        return base._event_to_types.get(message["event"])
    return base._responses_to_types.get(message["command"])


@needs_program
@unittest.skipUnless(SCHEMA, "left out: no python3-pydevd is here, which has the protocol's schema")
class EachMessage(unittest.TestCase):
    def session(self) -> Any:
        """A session with each request, and what fails; the messages of the server."""
        client = Client(self).launch(SUM)
        client.do("setBreakpoints", source={"path": SUM}, breakpoints=[{"line": 13}, {"line": 99}])
        client.do("setFunctionBreakpoints", breakpoints=[{"name": "add"}, {"name": "zebra"}])
        client.do("setExceptionBreakpoints", filters=["fault", "print"])
        client.do("dataBreakpointInfo", name="c[0]")
        client.do("dataBreakpointInfo", name="zebra")
        client.do("setDataBreakpoints", breakpoints=[{"dataId": "c[0]", "accessType": "readWrite"}])
        client.begin()
        for _ in range(5):
            client.stopped("continue", threadId=1)
        client.do("exceptionInfo", threadId=1)
        for scope in ("Registers", "Cells", "Items", "Groups", "Waits"):
            client.variables("0.1", scope)
        client.do("evaluate", expression="r0 + 1", context="watch")
        client.do("evaluate", expression="tasks", context="repl")
        client.do("completions", text="step ", column=6)
        client.stopped("reverseContinue", threadId=1)
        client.stopped("stepBack", threadId=client.threads()["0.1"])
        client.stopped("next", threadId=1)
        client.refused("goto", threadId=1, targetId=1)
        client.stopped("restartFrame", frameId=client.frame("0.1")["id"])
        client.stopped("restart")
        client.do("terminate")
        client.do("disconnect")
        return client.messages

    def test_each_message_is_as_the_schema_says(self) -> None:
        seen = set()
        for message in self.session():
            kind = class_of(message)
            name = message.get("event") or message["command"]
            if name == "taskback.races":
                continue
            self.assertIsNotNone(kind, name)
            if message["type"] == "response" and not message["success"]:
                kind = SCHEMA.Response
            self.assertEqual(faults_of_object(message, kind, name), [], message)
            body = getattr(SCHEMA, kind.__name__ + "Body", None)
            if body is not None and "body" in message:
                self.assertEqual(faults_of_object(message["body"], body, name), [], message)
            seen.add(name)
        self.assertGreaterEqual(seen, {"initialize", "launch", "initialized", "stopped", "output", "threads", "stackTrace", "scopes", "variables", "evaluate", "terminated"})
        self.assertGreater(len(seen), 25)

    def test_the_check_finds_what_is_wrong(self) -> None:
        right: dict[str, Any] = {"reason": "step", "threadId": 1}
        self.assertEqual(faults_of_object(right, SCHEMA.StoppedEventBody, "x"), [])
        for wrong in ({"threadId": 1}, {**right, "threadId": "1"}, {**right, "thread": 1}, {**right, "hitBreakpointIds": ["a"]}):
            self.assertNotEqual(faults_of_object(wrong, SCHEMA.StoppedEventBody, "x"), [], wrong)


if __name__ == "__main__":
    unittest.main()
