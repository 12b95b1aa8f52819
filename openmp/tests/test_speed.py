"""What a run of 100,000 loads and stores costs, in time of the processor: to record it, and to check it."""

import os
import subprocess
import unittest

import support
from taskrun import building
from taskrun.actors import elements

SOURCE = """#include <stdio.h>
enum { BLOCKS = 8, SIZE = 16, STEPS = 20 };
static double field[2][BLOCKS][SIZE * SIZE];
static void smooth(const double *left, const double *middle, const double *right, double *to) {
    for (int i = 0; i < SIZE * SIZE; i++)
        to[i] = (left[i] + middle[i] + right[i]) / 3;
}
int main(void) {
    for (int b = 0; b < BLOCKS; b++)
        for (int i = 0; i < SIZE * SIZE; i++)
            field[0][b][i] = b * i;
#pragma omp parallel
#pragma omp single
    for (int t = 0; t < STEPS; t++)
        for (int b = 1; b < BLOCKS - 1; b++) {
            int from = t % 2, to = 1 - from;
#pragma omp task firstprivate(b, from, to) depend(in: field[from][b - 1], field[from][b], field[from][b + 1]) \\
    depend(out: field[to][b])
            smooth(field[from][b - 1], field[from][b], field[from][b + 1], field[to][b]);
        }
    printf("%f\\n", field[0][3][5]);
    return 0;
}
"""
LOOPS = """#include <stdlib.h>
static long sums[100];
int main(int count, char **words) {
    (void)count;
#pragma omp parallel
#pragma omp single
    for (long i = atol(words[1]); i > 0; i--) {
#pragma omp taskloop grainsize(1)
        for (long j = 0; j < 100; j++)
            sums[j] += i;
    }
    return 0;
}
"""
MOST_TIMES, MOST_SECONDS, MOST_GROWTH = 8, 5, 8
TRIES = 40


def processor_time(words, **changes):
    """(seconds of the processor, exit status) of one run."""
    environment = {**os.environ, "OMP_NUM_THREADS": "1", **changes}
    child = subprocess.Popen(words, stdout=subprocess.DEVNULL, stderr=subprocess.DEVNULL, env=environment)
    _, status, used = os.wait4(child.pid, 0)
    child.returncode = os.waitstatus_to_exitcode(status)
    return used.ru_utime + used.ru_stime, child.returncode


def least_time(words, **changes):
    """The least of some runs: what else the machine does only adds to it."""
    return min(processor_time(words, **changes)[0] for _ in range(TRIES))


@support.needs_clang
class Speed(support.Recorded):
    def test_recording_and_checking(self):
        recorded = self.compile_text(SOURCE)
        plain = self.path("plain")
        subprocess.run([building.clang(), "-g", "-fopenmp", recorded + ".c", "-o", plain], check=True)
        trace = self.path("trace")
        times = least_time([recorded], TASKBACK_TRACE=trace) / least_time([plain])
        events = sum(len(elements(event)) for event in support.Trace(trace).events)
        seconds, status = processor_time([os.path.join(support.FOLDER, "check"), trace])
        print(f"\n{events} events: recording takes {times:.1f} times the program's time, checking {seconds:.1f} s")
        self.assertGreater(events, 100000)
        self.assertIn(status, (0, 3))
        self.assertLessEqual(times, MOST_TIMES)
        self.assertLessEqual(seconds, MOST_SECONDS)

    def test_checking_grows_with_the_tasks(self):
        """Four times the tasks in loops one behind the other: a walk from each to the end would take sixteen times as long."""
        recorded = self.compile_text(LOOPS)
        seconds = []
        for count in (400, 1600):
            trace = self.path("loops.trace")
            subprocess.run([recorded, str(count)], check=True, env={**os.environ, "OMP_NUM_THREADS": "2", "TASKBACK_TRACE": trace})
            seconds.append(min(processor_time([building.judge(), trace])[0] for _ in range(5)))
        self.assertLessEqual(seconds[1], MOST_GROWTH * seconds[0], seconds)


if __name__ == "__main__":
    unittest.main()
