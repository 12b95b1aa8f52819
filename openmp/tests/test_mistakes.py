"""Wrong words, files that aren't there, and outputs that can't be written: one line each, and its status."""

import os
import subprocess
import unittest
import unittest.mock

import support
from taskrun import building

NO_FILE = "No such file or directory"
ONE_TASK = "int main(void) {\n#pragma omp parallel\n#pragma omp task\n;\nreturn 0;\n}\n"


def called(name, *words, **how):
    """(status, standard output, standard error) of one of the commands."""
    done = subprocess.run([os.path.join(support.FOLDER, name), *words], capture_output=True, text=True, check=False, **how)
    return done.returncode, done.stdout, done.stderr


class Mistakes(unittest.TestCase):
    def test_wrong_words(self):
        for name in ("record", "session", "check", "stress"):
            for words in ([], ["--wrong"], ["a", "b", "c", "d"]) if name != "stress" else (["--wrong"], ["--seeds", "2..1"]):
                status, out, told = called(name, *words)
                self.assertEqual((status, out), (64, ""), (name, words))
                self.assertIn(f"openmp/{name} ", told)

    def test_no_trace(self):
        if building.has_runtime():
            building.judge()    # its first compilation is told
            self.assertEqual(called("check", "/no/file"), (3, "", f"check: can't read /no/file: {NO_FILE}\n"))
            self.assertEqual(called("check", __file__), (3, "", f"check: {__file__} is no whole trace\n"))
        self.assertEqual(called("session", "/no/file"), (3, "", f"session: can't read /no/file: {NO_FILE}\n"))
        self.assertEqual(called("session", __file__), (3, "", f"session: {__file__} is no whole trace\n"))

    def test_no_program_to_run(self):
        self.assertEqual(called("record", "run", "-o", "/no/trace", "true"), (64, "", f"record: can't write /no/trace: {NO_FILE}\n"))

    def test_where_nobody_may_write_the_parts_are_kept_elsewhere(self):
        with unittest.mock.patch.object(building.os, "access", lambda *_: False):
            with unittest.mock.patch.dict(os.environ, XDG_CACHE_HOME="/some/where"):
                self.assertEqual(building.cache_folder(), "/some/where/taskback")


@support.needs_clang
class Outputs(support.Recorded):
    def test_session(self):
        trace, _ = self.record(self.compile_text(ONE_TASK), 1)
        self.assertEqual(called("session", trace, "-o", "/no/file"), (3, "", f"session: can't write /no/file: {NO_FILE}\n"))
        with open("/dev/full", "w", encoding="utf-8") as full:
            done = subprocess.run([os.path.join(support.FOLDER, "session"), trace], stdout=full, stderr=subprocess.PIPE, text=True, check=False)
        self.assertEqual((done.returncode, done.stderr), (3, "session: can't write the session: No space left on device\n"))

    def test_closed_pipe(self):
        trace, _ = self.record(self.compile_text(ONE_TASK), 1)
        for name in ("session", "check"):
            reader, writer = os.pipe()
            os.close(reader)
            with os.fdopen(writer, "w") as closed:
                done = subprocess.run([os.path.join(support.FOLDER, name), trace], stdout=closed, stderr=subprocess.PIPE, text=True, check=False)
            self.assertEqual((done.returncode, done.stderr), (0, ""), name)

    def test_left_no_trace(self):
        status, _, told = called("record", "run", "-o", self.path("trace"), "true")
        self.assertEqual((status, told.startswith("record: true left no trace (status 0): ")), (64, True))
        status, _, told = called("record", "run", "-o", self.path("trace"), "/no/file")
        self.assertEqual((status, told), (64, f"record: can't run /no/file: {NO_FILE}\n"))


if __name__ == "__main__":
    unittest.main()
