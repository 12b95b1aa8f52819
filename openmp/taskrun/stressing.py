"""Random programs on a runtime: each run is judged, and the program of one that isn't legal is made smaller."""

import json
import os
import shutil
import subprocess
import sys
import tempfile
import time
from collections.abc import Iterable, Iterator, Mapping, Sequence
from concurrent.futures import Executor, ThreadPoolExecutor

from . import random_programs
from .answer import answer
from .building import CannotBuild, judge, need_clang
from .finding import Finding
from .random_programs import Statements
from .session import Session, TooLarge
from .trace import BadTrace, Trace

RECORD = os.path.join(os.path.dirname(os.path.dirname(os.path.abspath(__file__))), "record")
AT_ONCE = 20            # programs in one source
RUNS = 5                # of each program with each number of threads
LONGEST = 10            # seconds of one run
TRIES = 40              # runs of a smaller program, of which one is to be refused
SHRINKING = 90          # seconds


def takes_new_types(compiler: str) -> bool:
    """Whether it has `inoutset` and `omp_all_memory`."""
    text = random_programs.alone((random_programs.Statement("#pragma omp task", ("depend(inoutset: x)",), ()),), "a probe")
    done = subprocess.run([compiler, "-fopenmp", "-fsyntax-only", "-x", "c", "-"], input=text, text=True,
                          capture_output=True, check=False)
    return done.returncode == 0


class Refused:
    """A run that isn't legal: the trace, the rule that it breaks, and that in words."""

    def __init__(self, trace: str, rule: str, lines: list[str]) -> None:
        self.trace = trace
        self.rule = rule
        self.lines = lines


class Stress:
    """One runtime under random programs; `library` is its file, or None for the compiler's own."""

    def __init__(self, folder: str, threads: Sequence[int], library: str | None = None) -> None:
        self._folder = folder
        self._threads = threads
        self._environment = dict(os.environ)
        self._judge = judge()
        self.has_new = takes_new_types(need_clang())
        self.runs = 0
        if library:
            self._use(library)

    def _use(self, library: str) -> None:
        """The library in place of the one that the program is linked with, by its name."""
        place = os.path.join(self._folder, "library")
        os.makedirs(place)
        for name in ("libomp.so", "libomp.so.5"):
            shutil.copy(library, os.path.join(place, name))
        before = self._environment.get("LD_LIBRARY_PATH")
        self._environment["LD_LIBRARY_PATH"] = place + (f":{before}" if before else "")

    def compile(self, programs: Mapping[int, Statements], name: str) -> str:
        """The path of a program that has all of these, statements by a number."""
        source, made = (os.path.join(self._folder, name + ending) for ending in (".c", ""))
        with open(source, "w", encoding="utf-8") as file:
            file.write(random_programs.source(programs))
        subprocess.run([RECORD, "cc", source, "-o", made], check=True)
        return made

    def refused(self, made: str, number: int, threads: int, turn: int = 0) -> Refused | None:
        """Refused, or None where the run is legal and came to its end."""
        self.runs += 1
        trace = f"{made}.{number}.{threads}.{turn}.trace"
        environment = {**self._environment, "OMP_NUM_THREADS": str(threads), "TASKBACK_TRACE": trace, "OMP_TOOL": "enabled"}
        try:
            ended = subprocess.run([made, str(number)], capture_output=True, env=environment, timeout=LONGEST,
                                   check=False).returncode
        except subprocess.TimeoutExpired:
            return Refused(trace, "Endless", [f"the run took more than {LONGEST} s, and was ended"])
        done = subprocess.run([self._judge, trace], capture_output=True, text=True, check=False)
        if done.returncode != 0:
            return Refused(trace, "Unread", [done.stderr.strip()])
        told = json.loads(done.stdout)
        if told["fault"]:
            return Refused(trace, told["fault"]["rule"], answer(Finding(told))[1])
        if ended != 0 or not told["ended"] or told["unended"]:
            return Refused(trace, "Unended", [f"the program ended with status {ended}, and {told['unended']} tasks hadn't"])
        os.remove(trace)
        return None

    def try_seeds(self, seeds: Iterable[int], pool: Executor) -> Iterator[tuple[int, int, Refused]]:
        """(seed, Refused) for each of these that is refused."""
        seeds = list(seeds)
        groups = [seeds[at:at + AT_ONCE] for at in range(0, len(seeds), AT_ONCE)]
        programs = [{seed: random_programs.program(seed, self.has_new) for seed in group} for group in groups]
        made = list(pool.map(self.compile, programs, (f"seeds_{group[0]}" for group in groups)))
        asked = [(one, seed, threads, turn) for one, group in zip(made, groups) for seed in group for threads in self._threads
                 for turn in range(RUNS)]
        for (_, seed, threads, _), found in zip(asked, pool.map(lambda words: self.refused(*words), asked)):
            if found:
                yield seed, threads, found

    def shrink(self, statements: Statements, threads: int, found: Refused,
               pool: Executor) -> tuple[Statements, Refused]:
        """(the smallest program found that is refused in the same way, its Refused)."""
        begin, turn = time.monotonic(), 0
        is_smaller = True
        while is_smaller and time.monotonic() - begin < SHRINKING:
            is_smaller, turn = False, turn + 1
            candidates = dict(enumerate(list(random_programs.smaller(statements))[:AT_ONCE * 2]))
            if not candidates:
                break
            made = self.compile(candidates, f"smaller_{turn}")
            for number, candidate in candidates.items():
                if time.monotonic() - begin > SHRINKING:
                    break
                again = self._again(made, number, threads, found.rule, pool)
                if again:
                    statements, found, is_smaller = candidate, again, True
                    break
        return statements, found

    def _again(self, made: str, number: int, threads: int, rule: str, pool: Executor) -> Refused | None:
        """A run of this program that is refused by the same rule, or None."""
        for found in pool.map(lambda turn: self.refused(made, number, threads, turn), range(TRIES)):
            if found and found.rule == rule:
                return found
        return None


def keep(name: str, statements: Statements, found: Refused, remark: str) -> list[str]:
    """Writes the program, its run, and where it fits its session; their names."""
    names = [name + ".c", name + ".trace"]
    with open(names[0], "w", encoding="utf-8") as file:
        file.write(random_programs.alone(statements, remark))
    shutil.copy(found.trace, names[1])
    try:
        text = Session(Trace(names[1])).text()
    except (BadTrace, TooLarge, KeyError, AttributeError):
        return names    # a run that broke off may have no session
    with open(name + ".session", "w", encoding="utf-8") as file:
        file.write(text)
    return [*names, name + ".session"]


def stress(seeds: Sequence[int], threads: Sequence[int], library: str) -> int:
    """The command: 0 where each run is legal, 1 where one isn't, 3 where nothing could be tried."""
    with tempfile.TemporaryDirectory() as folder, ThreadPoolExecutor(max(2, os.cpu_count() or 2)) as pool:
        try:
            one = Stress(folder, threads, library)
            refusals = list(one.try_seeds(seeds, pool))
        except (CannotBuild, OSError, subprocess.CalledProcessError) as fault:
            print(f"stress: {fault}", file=sys.stderr)
            return 3
        print(f"{one.runs} runs of {len(seeds)} programs, with {', '.join(map(str, threads))} threads: {len(refusals)} refused")
        for seed in sorted({seed for seed, _, _ in refusals}):
            count, found = next((count, found) for number, count, found in refusals if number == seed)
            print(f"seed {seed}, {count} threads: " + "\n".join(found.lines))
            statements, found = one.shrink(random_programs.program(seed, one.has_new), count, found, pool)
            names = keep(f"stress-{seed}", statements, found, f"seed {seed}, {count} threads: {found.lines[0]}".replace("*/", "* /"))
            print(f"  the smallest program that was found, and its run: {', '.join(names)}", flush=True)
    return 1 if refusals else 0
