"""Runs that don't end well: what was seen until then is judged, and never is nothing said to be wrong."""

import contextlib
import os
import resource
import signal
import subprocess
import time
import unittest

import support

ENDS = {"null": "*(volatile int *)0 = 1;", "abort": "abort();", "_exit": "_exit(0);", "quick_exit": "quick_exit(0);",
        "kill": "kill(getpid(), SIGKILL);", "exit": "exit(0);", "overflow": "deep(1);"}
STATUSES = {"null": 128 + signal.SIGSEGV, "abort": 128 + signal.SIGABRT, "kill": 128 + signal.SIGKILL,
            "overflow": 128 + signal.SIGSEGV}
PROGRAM = """#include <signal.h>
#include <stdlib.h>
#include <unistd.h>
static int x;
#pragma clang diagnostic ignored "-Winfinite-recursion"
static int deep(int n) { volatile char room[4096]; room[0] = (char)n; return deep(n + 1) + room[0]; }
int main(void) {
#pragma omp parallel
#pragma omp single
    {
#pragma omp task
        x = 1;
#pragma omp task
        x = 2;
#pragma omp taskwait
#pragma omp task
        { %s }
#pragma omp taskwait
    }
    return x == 9 ? deep(1) : 0;
}
"""
ENDLESS = """int main(void) {
    static int x;
#pragma omp parallel
#pragma omp single
    {
#pragma omp task
        x = 1;
#pragma omp task
        x = 2;
#pragma omp taskwait
        for (volatile int i = 0;; i++)
            ;
    }
}
"""
UNENDED = "the run didn't end by itself"


def end_group(leader):
    """Ends what is left of a process group, where a test failed."""
    with contextlib.suppress(ProcessLookupError):
        os.killpg(leader, signal.SIGKILL)


@support.needs_clang
class Ends(support.Recorded):
    def run_to_its_end(self, program, threads, **changes):
        """(the run's status, check's status, its lines)."""
        trace = self.path("trace")
        done = subprocess.run([os.path.join(support.FOLDER, "record"), "run", "-o", trace, program], check=False,
                              capture_output=True, timeout=support.SECONDS,
                              env={**os.environ, "OMP_NUM_THREADS": str(threads), **changes})
        return done.returncode, *support.answer.answer(support.judge_trace(trace))

    def test_each_end(self):
        for name, words in ENDS.items():
            racy, ordered = self.with_race(words, name), self.without_race(words, name)
            for threads in (1, 2):
                with self.subTest(end=name, threads=threads):
                    ran, status, lines = self.run_to_its_end(racy, threads)
                    self.assertEqual((ran, status), (STATUSES.get(name, 0), 2), lines)
                    self.assertIn("writes x", "\n".join(lines))
                    self.assertIn(UNENDED, lines[-1])
                    ran, status, lines = self.run_to_its_end(ordered, threads)
                    self.assertEqual((ran, status), (STATUSES.get(name, 0), 3), lines)
                    self.assertIn(UNENDED, lines[-1])

    def with_race(self, words, name):
        return self.compile_text(PROGRAM % words, name)

    def without_race(self, words, name):
        return self.compile_text((PROGRAM % words).replace("x = 2;", ";"), name + "_none")

    def test_interrupt(self):
        program, trace = self.compile_text(ENDLESS), self.path("trace")
        child = subprocess.Popen([os.path.join(support.FOLDER, "record"), "run", "-o", trace, program],
                                 start_new_session=True, env={**os.environ, "OMP_NUM_THREADS": "2"},
                                 # A shell's command in the background, which these tests may be, ignores Ctrl-C.
                                 preexec_fn=lambda: signal.signal(signal.SIGINT, signal.SIG_DFL))
        self.addCleanup(end_group, child.pid)
        time.sleep(2)
        os.killpg(child.pid, signal.SIGINT)
        self.assertEqual(child.wait(timeout=support.SECONDS), 128 + signal.SIGINT)
        status, lines = support.answer.answer(support.judge_trace(trace))
        self.assertEqual(status, 2, lines)
        self.assertIn(UNENDED, lines[-1])

    def test_no_room(self):
        """What there was room for is judged, and nothing is told twice or out of its order."""
        program = self.compile_text("int x;\nint main(void) {\n#pragma omp parallel\n#pragma omp single\n"
                                    "for (int i = 0; i < 20000; i++) {\n#pragma omp task\n{\n#pragma omp atomic\nx++;\n}\n}\n"
                                    "return 0;\n}\n")
        trace = self.path("trace")
        for room in (200000, 400000):
            with self.subTest(room=room):
                subprocess.run([program], check=True, restore_signals=False,
                               env={**os.environ, "OMP_NUM_THREADS": "2", "TASKBACK_TRACE": trace},
                               preexec_fn=lambda room=room: resource.setrlimit(resource.RLIMIT_FSIZE, (room, room)))
                status, lines = support.answer.answer(support.judge_trace(trace))
                self.assertEqual(status, 3, lines)
                self.assertIn("no room for its trace", lines[-1])

    def test_tool_is_disabled(self):
        program = self.compile_text("int x;\nint main(void) {\n#pragma omp parallel\n#pragma omp single\n#pragma omp task\n"
                                    "x = 1;\nreturn 0;\n}\n")
        ran, status, lines = self.run_to_its_end(program, 2, OMP_TOOL="disabled")
        self.assertEqual((ran, status), (0, 0), lines)      # `record run` turns it on again
        trace = self.path("by_hand")
        subprocess.run([program], check=True, env={**os.environ, "OMP_TOOL": "disabled", "TASKBACK_TRACE": trace})
        status, lines = support.answer.answer(support.judge_trace(trace))
        self.assertEqual(status, 3, lines)
        self.assertIn("OMP_TOOL=disabled", lines[-1])

    def test_nothing_parallel(self):
        status, lines = self.check_text("int main(void) { return 0; }\n")
        self.assertEqual((status, lines), (0, ["the run had no task and no parallel region: it has one schedule"]))
        status, lines = self.check_text("int x[9];\nint main(void) {\n#pragma omp parallel for\n"
                                        "for (int i = 0; i < 9; i++)\nx[i] = i;\nreturn 0;\n}\n", 2)
        self.assertEqual(status, 0)
        self.assertIn("without a task", lines[-1])

    def test_fork(self):
        status, lines = self.check_text("#include <sys/wait.h>\n#include <unistd.h>\nint x;\nint main(void) {\n"
                                        "#pragma omp parallel\n#pragma omp single\n#pragma omp task\nx = 1;\n"
                                        "if (fork() == 0) { x = 2; _exit(0); }\nwait(0);\nreturn 0;\n}\n", 2)
        self.assertEqual(status, 0, lines)
        self.assertIn("forked", lines[0])
        self.assertNotIn("every schedule", lines[-1])


if __name__ == "__main__":
    unittest.main()
