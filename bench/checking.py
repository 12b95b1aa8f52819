#!/usr/bin/env python3
"""How the time of the recorder's judge grows with the tasks of a run.

    bench/checking.py [--tasks N] [--doublings N] [--threads N] [KIND ..]

Each kind of program is recorded with N tasks (or iterations, or regions), twice as many, and so on. Told are the events and
the processor's seconds of the judge, each the least of three, and by how much the last doubling has multiplied them: near
2 where the time goes by the events. TASKBACK_CLANG names another clang.
"""

import argparse
import os
import subprocess
import sys
import tempfile

TOP = os.path.dirname(os.path.dirname(os.path.abspath(__file__)))
RECORD = os.path.join(TOP, "openmp", "record")

SOURCE = """#include <stdio.h>
#include <stdlib.h>
#include <string.h>
#define IS(name) (!strcmp(kind, name))
struct node { struct node *left, *right; };
static long *v, x;
static double (*f)[2][4];
static int fib(int n) {
    int a, b;
    if (n < 2)
        return n;
#pragma omp task shared(a)
    a = fib(n - 1);
#pragma omp task shared(b)
    b = fib(n - 2);
#pragma omp taskwait
    return a + b;
}
static struct node *build(int depth) {
    struct node *made = calloc(1, sizeof *made);
    if (depth > 0) {
#pragma omp task
        made->left = build(depth - 1);
#pragma omp task
        made->right = build(depth - 1);
#pragma omp taskwait
    }
    return made;
}
static void step(int from, long i) {
    int to = 1 - from;
#pragma omp task depend(in: f[i - 1][from], f[i][from], f[i + 1][from]) depend(out: f[i][to])
    for (int k = 0; k < 4; k++)
        f[i][to][k] = f[i - 1][from][k] + f[i][from][k] + f[i + 1][from][k];
}
static void tasks(const char *kind, long n) {
    if (IS("fib")) {
        int depth = 1;
        for (long count = 2; count < n; count = count * 1618 / 1000 + 1)
            depth++;
        fib(depth);
    } else if (IS("tree")) {
        int depth = 1;
        while (2L << depth < n)
            depth++;
        build(depth);
    } else if (IS("wide") || IS("tall")) {
        long width = IS("wide") ? n / 100 : 100;
        for (long t = 0; t < n / width; t++)
            for (long i = 1; i <= width; i++)
                step(t % 2, i);
    } else if (IS("taskloops")) {
        for (long i = 0; i < n; i += 100) {
#pragma omp taskloop grainsize(1)
            for (long j = 0; j < 100; j++)
                v[j] += i;
        }
    } else if (IS("grid")) {
        long width = 1;
        while (width * width < n)
            width++;
        for (long i = 1; i < width; i++)
            for (long j = 1; j < width; j++) {
#pragma omp task depend(in: v[i * width + j - width], v[i * width + j - 1]) depend(out: v[i * width + j])
                v[i * width + j] = v[i * width + j - width] + v[i * width + j - 1];
            }
    } else {
        for (long i = 0; i < n; i++) {
            if (IS("chain")) {
#pragma omp task depend(inout: x)
                x += i;
            } else if (IS("exclusive")) {
#pragma omp task depend(mutexinoutset: x)
                x += i;
            } else if (IS("readers") && i % 10) {
#pragma omp task depend(in: x)
                v[i] = x;
            } else if (IS("readers")) {
#pragma omp task depend(out: x)
                x++;
            } else if (IS("locks")) {
#pragma omp task
                {
#pragma omp critical
                    x += i;
                }
            } else if (IS("races")) {
#pragma omp task
                v[i / 2] += i;
            } else if (IS("waits")) {
#pragma omp task
                v[i % 8] += i;
                if (i % 8 == 7) {
#pragma omp taskwait
                }
            } else if (IS("groups")) {
#pragma omp taskgroup
                {
#pragma omp task
                    v[i % 8] += i;
                }
            }
        }
    }
}
int main(int count, char **words) {
    const char *kind = words[count - 2];
    long n = atol(words[count - 1]);
    v = calloc((size_t)n * 2 + 64, sizeof *v);
    f = calloc((size_t)n + 3, sizeof *f);
    if (IS("regions")) {
        for (long i = 0; i < n; i++) {
#pragma omp parallel for
            for (int j = 0; j < 4; j++)
                v[j] += i;
        }
    } else if (IS("iterations")) {
#pragma omp parallel for schedule(dynamic)
        for (long i = 0; i < n; i++)
            v[i] += i;
    } else {
#pragma omp parallel
#pragma omp single
        tasks(kind, n);
    }
    return 0;
}
"""
KINDS = ("fib", "tree", "chain", "wide", "tall", "grid", "readers", "exclusive", "waits", "groups", "taskloops", "locks",
         "races", "regions", "iterations")


def judged(program: str, judge: str, kind: str, count: int, threads: int) -> tuple[int, float]:
    """The events, and the judge's seconds, of a run of this size."""
    trace = program + ".trace"
    subprocess.run([program, kind, str(count)], check=True, stdout=subprocess.DEVNULL,
                   env={**os.environ, "OMP_NUM_THREADS": str(threads), "TASKBACK_TRACE": trace})
    seconds: list[float] = []
    for _ in range(3):
        child = subprocess.Popen([judge, trace], stdout=subprocess.DEVNULL)
        _, status, used = os.wait4(child.pid, 0)
        child.returncode = os.waitstatus_to_exitcode(status)
        if child.returncode:
            sys.exit(f"checking.py: the judge ended with status {child.returncode}")
        seconds.append(used.ru_utime + used.ru_stime)
    events = os.path.getsize(trace) // 32
    os.remove(trace)
    return events, min(seconds)


def main() -> int:
    options = argparse.ArgumentParser(description=(__doc__ or "").splitlines()[0])
    options.add_argument("--tasks", type=int, default=50000)
    options.add_argument("--doublings", type=int, default=3)
    options.add_argument("--threads", type=int, default=2)
    options.add_argument("kinds", nargs="*", choices=[[], *KINDS])
    given = options.parse_args()
    judge = subprocess.run([RECORD, "which"], capture_output=True, text=True, check=True).stdout.split("\n")[2]
    sizes = [given.tasks << turn for turn in range(given.doublings + 1)]
    print("| kind | " + " | ".join(f"{size:,}: events | s" for size in sizes) + " | events, times | s, times |")
    print("|---|" + "---|---|" * len(sizes) + "---|---|")
    with tempfile.TemporaryDirectory() as folder:
        program = os.path.join(folder, "program")
        with open(program + ".c", "w", encoding="utf-8") as file:
            file.write(SOURCE)
        subprocess.run([RECORD, "cc", program + ".c", "-o", program], check=True)
        for kind in given.kinds or KINDS:
            found = [judged(program, judge, kind, size, given.threads) for size in sizes]
            columns = " | ".join(f"{events:,} | {seconds:.2f}" for events, seconds in found)
            growths = [found[-1][at] / max(found[-2][at], 0.01) for at in (0, 1)]
            print(f"| {kind} | {columns} | {growths[0]:.1f} | {growths[1]:.1f} |", flush=True)
    return 0


if __name__ == "__main__":
    sys.exit(main())
