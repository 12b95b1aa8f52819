#!/usr/bin/env python3
"""The recorder beside Archer on the recorder's examples: races found and missed, false ones, and the time.

    bench/archer.py [--threads N ..] [--runs N] [--each] [EXAMPLE ..]

Each example is compiled twice, by `openmp/record cc` and by clang with `-fsanitize=thread` for Archer (libarcher.so, which
Debian's libomp-14-dev has), and run some times. A race is found in a run whose answer reports one, and false where the
example has none. The time is the processor's for all runs, the recorder's with its check. `--each` also names the examples
that a tool has answered wrongly in some run. TASKBACK_CLANG names another clang.
"""

import argparse
import os
import re
import signal
import subprocess
import sys
import tempfile

TOP = os.path.dirname(os.path.dirname(os.path.abspath(__file__)))
CXX_ENDINGS = (".cc", ".cpp", ".cxx")
EXAMPLES = os.path.join(TOP, "openmp", "examples")
RECORD = os.path.join(TOP, "openmp", "record")
CHECK = os.path.join(TOP, "openmp", "check")
SECONDS = 60
RACES = ("race", "hidden")      # what an example's first comment expects


def compilers():
    """The recorder's compilers, of C and of C++."""
    return subprocess.run([RECORD, "which"], capture_output=True, text=True, check=True).stdout.split("\n")[:2]


def archer_library(compiler):
    """Archer's tool, which lies beside the runtime."""
    told = subprocess.run([compiler, "-print-file-name=libarcher.so"], capture_output=True, text=True, check=True).stdout.strip()
    beside = os.path.join(os.path.dirname(os.path.dirname(os.path.realpath(compiler))), "lib", "libarcher.so")
    found = [path for path in (told, beside) if os.path.exists(path)]
    if not found:
        sys.exit(f"archer.py: {compiler} has no libarcher.so (apt-get install libomp-14-dev)")
    return found[0]


def has_race(name):
    """Whether the example is one with a race."""
    with open(os.path.join(EXAMPLES, name), encoding="utf-8") as file:
        return re.search(r"expect: (\w+)", file.read())[1] in RACES


def run(words, **changes):
    """(exit status, what it wrote to its standard error, seconds of the processor) of one run; it's ended where it takes long."""
    with tempfile.TemporaryFile("w+", errors="replace") as told:
        child = subprocess.Popen(words, stdin=subprocess.DEVNULL, stdout=subprocess.DEVNULL, stderr=told,
                                 env={**os.environ, **changes}, preexec_fn=lambda: signal.alarm(SECONDS))
        _, status, used = os.wait4(child.pid, 0)
        child.returncode = os.waitstatus_to_exitcode(status)
        told.seek(0)
        return child.returncode, told.read(), used.ru_utime + used.ru_stime


class Recorder:
    """record and check."""

    name = "recorder"

    def compile(self, source, program):
        return subprocess.run([RECORD, "cc", source, "-o", program, "-lm"], check=False, capture_output=True).returncode == 0

    def finds(self, program, threads):
        """(whether it reports a race, seconds)."""
        trace = program + ".trace"
        _, _, recorded = run([program], OMP_NUM_THREADS=str(threads), TASKBACK_TRACE=trace, OMP_TOOL="enabled")
        status, _, judged = run([CHECK, trace])
        return status == 2, recorded + judged


class Archer:
    """The thread sanitizer with Archer."""

    name = "Archer"

    def __init__(self, compiler, cxx):
        self._compilers = compiler, cxx
        self._library = archer_library(compiler)

    def compile(self, source, program):
        return subprocess.run([self._compilers[source.endswith(CXX_ENDINGS)], "-g", "-fopenmp", "-fsanitize=thread", source,
                               "-o", program, "-lm"], check=False, capture_output=True).returncode == 0

    def finds(self, program, threads):
        """(whether it reports a race, seconds)."""
        _, told, seconds = run([program], OMP_NUM_THREADS=str(threads), OMP_TOOL_LIBRARIES=self._library, OMP_TOOL="enabled",
                               TSAN_OPTIONS="ignore_noninstrumented_modules=1 exitcode=0")
        return "WARNING: ThreadSanitizer: data race" in told, seconds


class Counts:
    """The runs of one tool, by whether there is a race and whether it reports one."""

    def __init__(self):
        self.runs = {(has, finds): 0 for has in (True, False) for finds in (True, False)}
        self.wrong = {True: set(), False: set()}
        self.seconds = 0.0

    def add(self, name, has, finds, seconds):
        self.runs[has, finds] += 1
        self.seconds += seconds
        if has != finds:
            self.wrong[has].add(name)

    def row(self, tool):
        of = {has: self.runs[has, True] + self.runs[has, False] for has in (True, False)}
        return (f"| {tool} | {self.runs[True, True]} | {self.runs[True, False]} of {of[True]} | {self.runs[False, True]} of "
                f"{of[False]} | {len(self.wrong[True])} | {len(self.wrong[False])} | {self.seconds:.1f} |")


def measure(tool, names, threads, runs, folder):
    """Counts for each number of threads."""
    counts = {count: Counts() for count in threads}
    for name in names:
        program = os.path.join(folder, f"{tool.name}_{name}")
        if not tool.compile(os.path.join(EXAMPLES, name), program):
            print(f"{tool.name}: {name} isn't compiled", file=sys.stderr)
            continue
        for count in threads:
            for _ in range(runs):
                counts[count].add(name, has_race(name), *tool.finds(program, count))
        os.remove(program)
    return counts


def main():
    options = argparse.ArgumentParser(description=__doc__.splitlines()[0])
    options.add_argument("--threads", type=int, nargs="+", default=[8])
    options.add_argument("--runs", type=int, default=3)
    options.add_argument("--each", action="store_true")
    options.add_argument("examples", nargs="*")
    given = options.parse_args()
    names = given.examples or sorted(os.listdir(EXAMPLES))
    compiler, cxx = compilers()
    print(f"{given.runs} runs each of {len(names)} examples; {sum(map(has_race, names))} have a race")
    print("| tool | found | missed | false | examples with a race missed in some run | examples with a false one | seconds |")
    print("|---|---|---|---|---|---|---|")
    wrong = []
    with tempfile.TemporaryDirectory() as folder:
        for tool in (Recorder(), Archer(compiler, cxx)):
            for threads, counts in measure(tool, names, given.threads, given.runs, folder).items():
                told = f"{tool.name}, {threads} thread{'s' if threads > 1 else ''}"
                print(counts.row(told), flush=True)
                wrong += [f"{told}: {word}: {', '.join(sorted(counts.wrong[has]))}"
                          for has, word in ((True, "missed"), (False, "false")) if counts.wrong[has]]
    if given.each:
        print("", *wrong, sep="\n")
    return 0


if __name__ == "__main__":
    sys.exit(main())
