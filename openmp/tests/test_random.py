"""Runs of random programs on the runtime are legal, and whether there is a race doesn't depend on the threads."""

import os
import subprocess
import unittest

import support
from taskrun import random_programs, stressing
from taskrun import trace as t

COUNT = int(os.environ.get("TASKBACK_OPENMP_RANDOM", "200"))
AT_ONCE = 20
EXCLUDES = 4    # the type of an item of `mutexinoutset`
TRIES = 3       # runs of a program, the last of which has to be legal


def is_task_lost(trace):
    """Whether a task that excludes others was never started: libomp 14 loses such a one at times, at the end of a region."""
    excluding = {event.task for event in trace.events if event.kind == t.ITEM and event.mark == EXCLUDES}
    return bool(excluding - {event.task for event in trace.events if event.kind == t.START})


@support.needs_clang
class RandomPrograms(support.Recorded):
    @classmethod
    def setUpClass(cls):
        cls.has_new = stressing.takes_new_types(support.building.need_clang())

    def test_runs_are_legal(self):
        for first in range(0, COUNT, AT_ONCE):
            seeds = range(first, min(first + AT_ONCE, COUNT))
            program = self.compile_text(random_programs.source({seed: random_programs.program(seed, self.has_new) for seed in seeds}))
            for seed in seeds:
                with self.subTest(seed=seed):
                    self.check_seed(program, seed)

    def text_of(self, seed):
        return random_programs.function("program", random_programs.program(seed, self.has_new))

    def judged(self, program, threads, seed):
        """A run's trace and answer: of the first one in which libomp 14 doesn't start two together that exclude each other."""
        for _ in range(TRIES):
            path, _ = self.record(program, threads, [str(seed)])
            status, lines = support.answer.answer(support.judge_trace(path))
            if status != 1 or "both are mutexinoutset on one place" not in lines[0]:
                break
        return path, status, lines

    def check_seed(self, program, seed):
        answers = {}
        for threads in support.THREADS:
            try:
                path, status, lines = self.judged(program, threads, seed)
            except subprocess.TimeoutExpired:
                # A wait for a task that is lost never ends; nothing else may keep a run from its end.
                self.assertTrue(is_task_lost(support.Trace(self.path("trace"))), self.text_of(seed))
                continue
            if is_task_lost(support.Trace(path)):
                # So the run isn't legal, and that is told.
                self.assertEqual((status, lines[0].split(":")[0]), (1, "fault of the run"), lines)
            else:
                answers[threads] = status, lines
        for threads, (status, lines) in answers.items():
            self.assertIn(status, (0, 2), f"{threads} threads: {lines}\n{self.text_of(seed)}")
        self.assertLessEqual(len({status for status, _ in answers.values()}), 1, answers)


if __name__ == "__main__":
    unittest.main()
