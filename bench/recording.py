#!/usr/bin/env python3
"""What a recorded run costs: processor time without the recorder, with it, and of the judge, and the judge's memory.

    bench/recording.py [--threads N] [--tries N] [--beside FOLDER] [PROGRAM ..]

The least of some runs counts. `loads` stores 10,000,000 times in an order in which no two elements are next to each other,
`far` so that each is an event of its own, `many` ten times that (the trace takes some 0.6 GB). `lanes` has the iterations of a
`simd` loop. `--beside` names another copy of the sources, whose recorder takes turns with this one's: its columns come
last. TASKBACK_CLANG names another clang.
"""

import argparse
import json
import os
import subprocess
import sys
import tempfile

TOP = os.path.dirname(os.path.dirname(os.path.abspath(__file__)))

MAIN = """#include <stdio.h>
#include <stdlib.h>
%s
int main(void) {
    %s
#pragma omp parallel
#pragma omp single
    %s
    return 0;
}
"""
FIB = """static int fib(int n) {
    int a, b;
    if (n < 2)
        return n;
#pragma omp task shared(a)
    a = fib(n - 1);
#pragma omp task shared(b)
    b = fib(n - 2);
#pragma omp taskwait
    return a + b;
}"""
STENCIL = """{
        for (int t = 0; t < 100; t++)
            for (int b = 1; b <= 200; b++) {
                int from = t % 2, to = 1 - from;
#pragma omp task depend(in: f[from][b - 1], f[from][b], f[from][b + 1]) depend(out: f[to][b]) firstprivate(b, from, to)
                for (int i = 0; i < 64; i++)
                    f[to][b][i] = (f[from][b - 1][i] + f[from][b][i] + f[from][b + 1][i]) / 3;
            }
    }"""
SCATTER = """{
        for (long t = 0; t < %d; t++) {
#pragma omp task firstprivate(t)
            for (long i = 0; i < 10000; i++)
                x[t %% 64][i * 7919 %% 10007] = t;
#pragma omp taskwait
        }
    }"""
FAR = """{
        for (long t = 0; t < %d; t++) {
#pragma omp task firstprivate(t)
            for (long i = 0; i < 10000; i++)
                x[i * 7919 %% 10007 * 64] = t;
#pragma omp taskwait
        }
    }"""
LIST = """for (struct node *p = head; p; p = p->next) {
#pragma omp task firstprivate(p)
        p->value = p->value * 2 + 1;
    }"""
MAKE_LIST = """struct node *head = 0;
    for (int i = 0; i < 100000; i++) {
        struct node *made = malloc(sizeof *made);
        *made = (struct node){i, head};
        head = made;
    }"""
CHAIN = """for (int i = 0; i < 100000; i++) {
#pragma omp task depend(inout: x) shared(x)
        x += i;
    }"""
LANES = """for (int t = 0; t < 100; t++)
#pragma omp simd
        for (int i = 0; i < 10000; i++)
            x[i] = x[i] * 3 + t;"""
PROGRAMS = {
    "fib": MAIN % (FIB, "", 'printf("%d\\n", fib(26));'),
    "chain": MAIN % ("", "int x = 0;", CHAIN),
    "stencil": MAIN % ("static double f[2][202][64];", "", STENCIL),
    "list": MAIN % ("struct node { int value; struct node *next; };", MAKE_LIST, LIST),
    "loads": MAIN % ("static long x[64][10007];", "", SCATTER % 1000),
    "far": MAIN % ("static long x[10007 * 64];", "", FAR % 1000),
    "lanes": "static long x[10000];\nint main(void) {\n    %s\n    return x[5] == 1;\n}\n" % LANES,
    "many": MAIN % ("static long x[10007 * 64];", "", FAR % 10000),
}


def used(words, **changes):
    """(seconds of the processor, the most memory in MB) of one run."""
    child = subprocess.Popen(words, stdout=subprocess.DEVNULL, stderr=subprocess.DEVNULL, env={**os.environ, **changes})
    _, _, told = os.wait4(child.pid, 0)
    return told.ru_utime + told.ru_stime, told.ru_maxrss / 1000


class Recorder:
    """The recorder of one copy of the sources, with the program that it has compiled."""

    def __init__(self, top, folder, source):
        self._record = os.path.join(top, "openmp", "record")
        self._program = os.path.join(folder, f"recorded-{abs(hash(top))}")
        self._trace = self._program + ".trace"
        told = subprocess.run([self._record, "which"], capture_output=True, text=True, check=True).stdout
        self.clang, _, self._judge = told.split("\n")[:3]
        subprocess.run([self._record, "cc", source, "-o", self._program], check=True)
        self.seconds = None

    def run(self, **changes):
        """One run more; each writes a new file."""
        if os.path.exists(self._trace):
            os.remove(self._trace)
        seconds = used([self._program], **changes, TASKBACK_TRACE=self._trace)[0]
        self.seconds = min(self.seconds or seconds, seconds)

    def judge(self, tries):
        """(events, MB of the trace, seconds, MB) of the last trace, which goes then."""
        judged = min(used([self._judge, self._trace]) for _ in range(tries))
        told = subprocess.run([self._judge, self._trace], capture_output=True, text=True, check=True).stdout
        events, size = json.loads(told)["events"], os.path.getsize(self._trace) / 1e6
        os.remove(self._trace)
        return (events, size, *judged)


def measure(name, folder, threads, tries, tops):
    """A row of the table."""
    source, plain = os.path.join(folder, name + ".c"), os.path.join(folder, name)
    with open(source, "w", encoding="utf-8") as file:
        file.write(PROGRAMS[name])
    recorders = [Recorder(top, folder, source) for top in tops]
    subprocess.run([recorders[0].clang, "-g", "-fopenmp", source, "-o", plain], check=True)
    count = {"OMP_NUM_THREADS": str(threads)}
    alone = float("inf")
    for _ in range(tries):
        alone = min(alone, used([plain], **count)[0])
        for recorder in recorders:
            recorder.run(**count)
    columns = []
    for recorder in recorders:
        events, size, seconds, memory = recorder.judge(max(1, tries // 3))
        columns += [f"{events:,}", f"{size:,.0f}", f"{alone:.3f}", f"{recorder.seconds:.3f}", f"{recorder.seconds / max(alone, 0.001):.1f}",
                    f"{seconds:.2f}", f"{memory / 1000:.2f}"]
    return f"| {name} | {threads} | {' | '.join(columns)} |"


def main():
    options = argparse.ArgumentParser(description=__doc__.splitlines()[0])
    options.add_argument("--threads", type=int, nargs="+", default=[2, 1])
    options.add_argument("--tries", type=int, default=9)
    options.add_argument("--beside", metavar="FOLDER")
    options.add_argument("programs", nargs="*", choices=[[], *PROGRAMS])
    given = options.parse_args()
    tops = [TOP, *([given.beside] if given.beside else [])]
    print("| program | threads |" + " events | trace, MB | alone, s | recorded, s | times | judged, s | memory of the judge, GB |" * len(tops))
    print("|---|---|" + "---|---|---|---|---|---|---|" * len(tops))
    with tempfile.TemporaryDirectory() as folder:
        for threads in given.threads:
            for name in given.programs or [name for name in PROGRAMS if name != "many"]:
                print(measure(name, folder, threads, given.tries, tops), flush=True)
    return 0


if __name__ == "__main__":
    sys.exit(main())
