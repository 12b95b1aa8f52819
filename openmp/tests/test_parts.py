"""What goes on from an answer: the page, a part of a run as a session, and what is told of programs and limits."""

import json
import os
import shutil
import subprocess
import unittest
import unittest.mock

import support
from taskrun import finding, stressing
from taskrun.random_programs import Statement

CHAIN = """#include <stdio.h>
static int x[64], sum;
int main(void) {
#pragma omp parallel
#pragma omp single
    {
        for (int i = 0; i < 64; i++)
#pragma omp task depend(out: x[i])
            x[i] = i;
        for (int i = 1; i < 64; i++)
#pragma omp task depend(inout: x[i]) depend(in: x[i - 1])
            x[i] += x[i - 1];
#pragma omp task
        sum = x[5];
    }
    return sum < 0;
}
"""


def called(name, *words, **changes):
    done = subprocess.run([os.path.join(support.FOLDER, name), *words], capture_output=True, text=True, check=False,
                          env={**os.environ, **changes})
    return done.returncode, done.stdout, done.stderr


@support.needs_clang
class Parts(support.Recorded):
    def recorded(self):
        return self.run_alone(self.compile_text(CHAIN), 2)

    def test_the_page(self):
        trace, page = self.recorded(), self.path("page.html")
        status, told, _ = called("check", "--html", page, trace)
        with open(page, encoding="utf-8") as file:
            text = file.read()
        self.assertEqual(status, 2)
        self.assertIn("program.c:12 writes x[i]", told)
        self.assertIn(text.count('<span class="step">'), (2, 4))     # what wrote it first may be told too
        self.assertIn('<span class="step">   14          sum = x[5];</span>', text)
        self.assertIn('<span class="directive">   13  #pragma omp task</span>', text)
        self.assertIn("program.c:11</text>", text)
        self.assertIn("<svg", text)
        self.assertEqual(called("check", "--html", "/no/page", trace)[0], 3)

    def test_tasks_and_what_they_need(self):
        trace = self.recorded()
        status, text, told = called("session", trace, "--tasks", "0.66..0.67")
        self.assertEqual((status, told), (0, ""))
        # 0.66 adds to the third number what 0.65 has added to the second one: five of the first kind and three of these.
        self.assertIn("# a part of the run: 7 of 128 tasks: 0.66 to 0.67, and what these need", text)
        self.assertEqual(called("session", trace, "--tasks", "0.70..0.999")[0], 3)

    def test_around_a_line(self):
        trace = self.recorded()
        status, text, _ = called("session", trace, "--around", "program.c:14")
        self.assertEqual(status, 0)
        self.assertIn("those at program.c:14, and what these need", text)
        status, _, told = called("session", trace, "--around", "program.c:99")
        self.assertEqual((status, told), (3, "session: the run has no step at program.c:99\n"))
        self.assertEqual(called("session", trace, "--around", "program.c:14", "--tasks", "0.1..0.2")[0], 64)

    @support.needs_program
    def test_a_part_can_be_played(self):
        trace = self.recorded()
        for words in (("--tasks", "0.66..0.70"), ("--around", "program.c:14")):
            _, text, _ = called("session", trace, *words)
            steps = text.count("\nstep ")
            self.assertIsNone(support.play.play(text, steps).refused(), words)

    def test_a_run_that_is_too_large(self):
        trace = self.recorded()
        with unittest.mock.patch("taskrun.part.MOST_EVENTS", 10):
            with self.assertRaisesRegex(support.TooLarge, r"room for 999,999 steps: --around program.c:\d+ keeps the tasks of a race"):
                support.session_of(trace)

    def test_limits_are_told_before_the_work(self):
        trace = self.recorded()
        self.assertIsNone(finding.foretell(trace))
        with unittest.mock.patch("taskrun.finding.MANY_EVENTS", 10):
            self.assertRegex(finding.foretell(trace), r"^[\d,]+ events: this takes some 0 s and 0\.\d GB")
        with unittest.mock.patch("taskrun.finding.MOST_EVENTS", 10):
            self.assertRaises(finding.CannotJudge, finding.foretell, trace)

    def test_why_places_have_no_lines(self):
        program = self.compile_text(CHAIN)
        trace = self.run_alone(program, 1)
        shutil.move(program, program + ".moved")
        status, told, _ = called("check", trace)
        self.assertEqual((status, told.splitlines()[0]), (2, f"places have no lines: {program} isn't there any more"))
        shutil.move(program + ".moved", program)
        subprocess.run(["strip", program], check=True)
        status, told, _ = called("check", trace)
        self.assertEqual(status, 2)
        self.assertRegex(told.splitlines()[0], "places have no lines: .* was stripped, or is another program")


@support.needs_clang
class Stress(support.Recorded):
    def test_a_few_seeds(self):
        status, told, _ = called("stress", "--seeds", "0..5", "--threads", "1,2")
        self.assertIn("50 runs of 5 programs, with 1, 2 threads: ", told)
        self.assertIn(status, (0, 1))
        self.assertEqual(called("stress", "--library", "/no/libomp.so")[0], 3)

    def test_what_is_refused_is_made_smaller(self):
        """A runtime that ends by a fault wherever a task depends on the third number."""
        bad = Statement("#pragma omp task", ("if(0)", "depend(in: x[3])"), (Statement("x[0] = x[1] + 1;"),))
        whole = (Statement("x[2] = x[1] + 1;"), Statement("#pragma omp taskgroup", (), (Statement("#pragma omp taskwait"), bad)))

        class Fake(stressing.Stress):
            def __init__(self):
                self.made = {}

            def compile(self, programs, name):
                self.made = programs

            def refused(self, made, number, threads, turn=0):
                is_bad = "depend(in: x[3])" in json.dumps(self.made[number])
                return stressing.Refused("trace", "Waiting", ["told"]) if is_bad else None

        with stressing.ThreadPoolExecutor(2) as pool:
            left, found = Fake().shrink(whole, 2, stressing.Refused("trace", "Waiting", ["told"]), pool)
        self.assertEqual(left, (Statement("#pragma omp task", ("depend(in: x[3])",), ()),))
        self.assertEqual(found.rule, "Waiting")


if __name__ == "__main__":
    unittest.main()
