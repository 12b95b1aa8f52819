"""Scripts: piped commands, `-x`, `--check` with its statuses, and `--json` by its schema."""

import json
import os
import subprocess
import unittest
from typing import Any

from support import EXAMPLES, LOOP, TOP, example, needs_program, write_file

RUN = os.path.join(TOP, "run")
RACE = os.path.join(EXAMPLES, "race.task")
TYPES = {"integer": int, "string": str, "array": list, "object": dict, "null": type(None)}


def ran(*words: str, typed: str | None = None) -> tuple[str, str, int]:
    """What ./run writes, and its status; `typed` is piped in."""
    given: dict[str, Any] = {"input": typed} if typed is not None else {"stdin": subprocess.DEVNULL}
    done = subprocess.run([RUN, *words], capture_output=True, text=True, timeout=120, check=False, **given)
    return done.stdout, done.stderr, done.returncode


def fits(value: Any, schema: Any) -> bool:
    """Whether a value is as a schema says, by the words that ours uses."""
    kinds = schema.get("type", [])
    kinds = [kinds] if isinstance(kinds, str) else kinds
    if not any(isinstance(value, TYPES[kind]) and not isinstance(value, bool) for kind in kinds):
        return False
    if "enum" in schema and value not in schema["enum"]:
        return False
    if isinstance(value, list):
        return all(fits(part, schema["items"]) for part in value)
    if isinstance(value, dict):
        known = schema["properties"]
        return set(schema["required"]) <= set(value) <= set(known) and all(fits(part, known[name]) for name, part in value.items())
    return True


@needs_program
class Piped(unittest.TestCase):
    def test_commands_are_played_with_the_shells_own(self) -> None:
        out, told, status = ran(RACE, typed="r 3\nbreak line 13\nfinish 0.1\n\n# a comment\nstep 0\n")
        self.assertEqual((told, status), ("", 0))
        self.assertEqual(out.split("\n")[3:], ["ran 3 limit", "break s1 line 13", "0.1#1 start", "0.1#2 load r1 0 0", "0.1#3 let r1 1",
                                               "0.1#4 store 0 1", "0.1#5 end", "refused 5 Children 0.2", ""])

    def test_the_standard_librarys_word_for_the_end_is_a_command_like_others(self) -> None:
        self.assertEqual(ran(RACE, typed="step 0\nEOF\nstep 0\n"), ("0#1 start\nerror word\n0#2 spawn 0.1 add 1\n", "", 0))

    def test_a_session_is_played_as_it_is(self) -> None:
        path = os.path.join(EXAMPLES, "race.session")
        self.assertEqual(ran(path, typed="tasks\n"), (example("race.out"), "", 0))

    def test_a_program_without_anything_piped_says_nothing(self) -> None:
        self.assertEqual(ran(RACE), ("", "", 0))

    def test_a_file_may_be_read_in_its_place(self) -> None:
        path = write_file(self, "step 0\n", "script")
        with open(path, encoding="utf-8") as file:
            done = subprocess.run([RUN, RACE], stdin=file, capture_output=True, text=True, timeout=120, check=False)
        self.assertEqual((done.stdout, done.returncode), ("0#1 start\n", 0))

    def test_each_line_is_answered_as_it_comes(self) -> None:
        child = subprocess.Popen([RUN, "--json", RACE], stdin=subprocess.PIPE, stdout=subprocess.PIPE, text=True, bufsize=1)
        self.addCleanup(child.stdout.close)
        self.addCleanup(child.kill)
        for typed, wanted in (("step 0", ["0#1 start"]), ("run 2", ["0#2 spawn 0.1 add 1", "0#3 spawn 0.2 add 2", "ran 2 limit"]), ("step 0", ["refused 5 Children 0.1"])):
            child.stdin.write(f"\n# a comment\n{typed}\n")
            self.assertEqual(json.loads(child.stdout.readline())["lines"], wanted)
        child.stdin.close()
        self.assertEqual(child.wait(timeout=60), 0)

    def test_a_session_may_be_piped_in(self) -> None:
        for text in (example("race.session"), "\ufeff\n# a comment\n" + example("race.session")):
            self.assertEqual(ran(RACE, typed=text), (example("race.out"), "", 0))
        self.assertEqual(ran("--check", RACE, typed="\n\nstep 0\nstep 0.1")[0].split("\n")[-2], "-:4: step 0.1: task 0.1 hasn't been generated")

    def test_a_pipe_that_is_left_open_is_told(self) -> None:
        child = subprocess.Popen([RUN, RACE], stdin=subprocess.PIPE, stdout=subprocess.PIPE, stderr=subprocess.PIPE, text=True)
        for stream in (child.stdin, child.stdout, child.stderr):
            self.addCleanup(stream.close)
        self.addCleanup(child.kill)
        self.assertEqual(child.stderr.readline(), "run: commands are awaited from standard input; with `< /dev/null` there are none\n")
        child.stdin.close()
        self.assertEqual((child.wait(timeout=60), child.stdout.read()), (0, ""))

    def test_a_byte_order_mark_is_passed_over(self) -> None:
        text = "\ufeff" + example("race.task")
        path = write_file(self, text, "marked.task")
        self.assertEqual(ran(path, typed="step 0\n"), ("0#1 start\n", "", 0))
        session = write_file(self, text + "---\nstep 0\n", "marked.session")
        self.assertEqual(ran(session), ("0#1 start\n", "", 0))
        self.assertEqual(ran("-i", path, typed="step 0\n"), ("0#1 start\n", "", 0))
        self.assertEqual(ran("-x", write_file(self, "\ufeffstep 0\n", "script"), path), ("0#1 start\n", "", 0))


@needs_program
class Checked(unittest.TestCase):
    def script(self, text: str) -> str:
        return write_file(self, text, "a.script")

    def test_all_taken_is_0(self) -> None:
        out, told, status = ran("--check", "-x", self.script("run 99\nraces\n"), RACE)
        self.assertEqual((out.split("\n")[-4:], told, status), (["races 2", "0.1#4 0.2#2 cell 0", "0.1#4 0.2#4 cell 0", ""], "", 0))

    def test_a_refused_step_is_1_with_its_line_and_reason(self) -> None:
        out, told, status = ran("--check", "-x", self.script("# first\nrun 3\nstep 0\nrun 99\n"), RACE)
        self.assertEqual((out.split("\n")[4:], told, status), (
            ["refused 5 Children 0.1", "a.script:3: step 0: 0 is at a taskwait, and its child 0.1 hasn't ended", ""][-len(out.split("\n")[4:]):], "", 1))

    def test_a_refused_command_of_the_session_itself_has_its_line(self) -> None:
        session = write_file(self, "cells 1\nbody main 0\nend\n---\nstep 0\n# a comment\nstep 0.1\n", "own.session")
        for more in ((), ("-x", self.script("step 0\n"))):
            out, told, status = ran("--check", *more, session)
            self.assertEqual((out.split("\n")[-2], told, status), ("own.session:7: step 0.1: task 0.1 hasn't been generated", "", 1))

    def test_what_the_shell_refuses_is_1_and_no_command_is_2(self) -> None:
        for line, status, reason in (("until 0.9#1", 1, "0.9#1 was never reached"), ("fly", 2, "no such command; `help` lists them"),
                                     ("finish 0 0", 2, "finish [T], for example: finish 0.1"), ("redo", 1, "nothing was taken back")):
            out, _, found = ran("--check", "-x", self.script(line + "\nstep 0\n"), RACE)
            self.assertEqual(found, status, line)
            self.assertTrue(out.split("\n")[-2].startswith(f"a.script:1: {line}: {reason}"), out)

    def test_without_check_it_goes_on(self) -> None:
        out, _, status = ran("-x", self.script("step 0.7\nstep 0\n"), RACE)
        self.assertEqual((out, status), ("refused 1 NoSuchTask\n0#1 start\n", 0))

    def test_a_session_plays_its_commands_first(self) -> None:
        out, _, status = ran("--check", "-x", self.script("hist\n"), os.path.join(EXAMPLES, "right_sum.session"))
        self.assertEqual(status, 0)
        self.assertTrue(out.startswith(example("right_sum.out")))
        self.assertRegex(out, r"\nhist \d+\n")

    def test_a_saved_session_is_a_script(self) -> None:
        self.assertEqual(ran("-x", os.path.join(EXAMPLES, "race.session"), RACE)[0], example("race.out"))

    def test_lines_of_a_session_are_counted_from_its_first(self) -> None:
        path = self.script("# --- a comment\n" + example("race.task") + "---  # now\nstep 0\n# shell: break line 13\nstep 0.7\n")
        out, _, status = ran("--check", "-x", path, RACE)
        self.assertEqual(status, 1)
        last = 3 + len(("# --- a comment\n" + example("race.task") + "---").split("\n"))
        self.assertEqual(out.split("\n")[-4:-1], ["break s1 line 13", "refused 1 NoSuchTask", f"a.script:{last}: step 0.7: task 0.7 hasn't been generated"])

    def test_usage_and_files(self) -> None:
        for words in (["-x"], ["-x", "/no/script", RACE], ["-x", self.script("step 0\n")], ["-x", self.script(""), "/no/file"]):
            out, told, status = ran(*words)
            self.assertEqual((out, told.count("\n"), status), ("", 1, 2), words)
        bad = write_file(self, "cells 1\nbody main 1\nend\n", "bad.task")
        out, told, status = ran("--check", "-x", self.script("step 0\n"), bad)
        self.assertEqual((out, status), ("", 1))
        self.assertIn("main takes no parameters", told)

    def test_a_full_disk_is_no_crash(self) -> None:
        with open("/dev/full", "wb") as full:
            done = subprocess.run([RUN, "-x", self.script("run 99\n"), RACE], stdin=subprocess.DEVNULL, stdout=full, stderr=subprocess.PIPE,
                                  text=True, timeout=120, check=False)
        self.assertEqual((done.stderr, done.returncode), ("taskback: write\n", 3))


@needs_program
class Json(unittest.TestCase):
    def test_each_reply_is_a_line_by_the_schema(self) -> None:
        with open(os.path.join(TOP, "docs", "replies.schema.json"), encoding="utf-8") as file:
            schema = json.load(file)
        commands = "run 3\nstep 0\nfly\nraces\ncells\nprint r0\nsource /no/file\nback\n"
        out, told, status = ran("--json", RACE, typed=commands)
        self.assertEqual((told, status), ("", 0))
        records = [json.loads(line) for line in out.split("\n")[:-1]]
        for record in records:
            self.assertTrue(fits(record, schema), record)
        self.assertEqual([record["command"] for record in records], commands.split("\n")[:-1])
        self.assertEqual([record["number"] for record in records], list(range(1, 9)))
        self.assertEqual([record["outcome"] for record in records], ["done", "refused", "error", "done", "done", "done", "refused", "done"])
        self.assertEqual(records[0]["steps"][1], {"step": "0#2", "task": "0", "number": 2, "did": "spawn 0.1 add 1", "line": 4})
        self.assertEqual(records[1]["refusal"], {"number": 5, "name": "Children", "by": "0.1"})
        self.assertEqual(records[5]["lines"], ["r0 of 0 = 0"])
        self.assertFalse(fits({**records[0], "version": 2}, schema))

    def test_the_lines_are_the_exact_ones(self) -> None:
        path = os.path.join(EXAMPLES, "race.session")
        out = ran("--json", "-x", path, RACE)[0]
        self.assertEqual("".join(text + "\n" for line in out.split("\n")[:-1] for text in json.loads(line)["lines"]), example("race.out"))

    def test_no_line_of_a_reply_is_left_out(self) -> None:
        races = "cells 1\nbody main 0\n  while r0 < 3\n    task f\n    let r0 r0 + 1\n  end\nend\nbody f 0\n  store 0 1\nend\n"
        for text, commands in ((races, "run\nraces\ncauses 0.2#2\nwhy 0.2#2\n"), (LOOP, "run 900\nhist\ngo 1 900\nrandom 1 3\n")):
            path = write_file(self, text)
            records = [json.loads(line) for line in ran("--json", path, typed=commands)[0].split("\n")[:-1]]
            self.assertEqual([line for record in records for line in record["lines"]], ran(path, typed=commands)[0].split("\n")[:-1])
        self.assertEqual(len(records[0]["steps"]), 900)

    def test_a_line_of_races_is_no_step(self) -> None:
        told = json.loads(ran("--json", RACE, typed="run\nraces\n")[0].split("\n")[1])
        self.assertEqual((told["lines"][1], told["steps"], len(told["words"])), ("0.1#4 0.2#2 cell 0", [], 2))

    def test_a_played_file_has_a_record_for_each_command(self) -> None:
        path = write_file(self, "run 2\nstep 0.7\n", "played")
        records = [json.loads(line) for line in ran("--json", RACE, typed=f"source {path}\n")[0].split("\n")[:-1]]
        self.assertEqual([(record["command"], record["outcome"]) for record in records],
                         [("run 2", "done"), ("step 0.7", "refused"), (f"source {path}", "refused")])

    def test_a_check_ends_with_a_record(self) -> None:
        out, _, status = ran("--json", "--check", RACE, typed="step 0.7\nstep 0\n")
        records = [json.loads(line) for line in out.split("\n")[:-1]]
        self.assertEqual((status, len(records), records[1]["lines"]), (1, 2, ["-:1: step 0.7: task 0.7 hasn't been generated"]))


if __name__ == "__main__":
    unittest.main()
