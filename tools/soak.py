#!/usr/bin/env python3
"""Runs random sessions for some minutes: against another implementation, and with memory refused.

    tools/soak.py --other 'COMMAND' [--minutes M] [--program P] [--seed S] [--jobs J]

Each session is answered by both, and once more by the program with one allocation refused, picked at
random: it gives the whole output then, or whole lines of it and status 3. A session that fails, or that takes
too long, is named by its seed, with which `tools/compare_sessions.py --seed S --count 1` makes it again.
"""
import argparse
import collections
import os
import random
import shlex
import subprocess
import sys
import tempfile
import time
from concurrent.futures import ThreadPoolExecutor

from compare_sessions import Answer, answer, kinds_of, pick_session
from hostile_sessions import TOP, built_library


class Soak:
    """One soak: the two implementations, the library that refuses, and what was found."""

    def __init__(self, program: str, other: list[str], library: str) -> None:
        self.program, self.other, self.library = [program], other, library
        self.found: collections.Counter[str] = collections.Counter()
        self.kinds: collections.Counter[str] = collections.Counter()
        self.failed: list[int] = []

    def refused(self, text: bytes, limit: int, number: int) -> tuple[Answer, int]:
        there = dict(os.environ, LD_PRELOAD=self.library, REFUSE=str(number), REFUSE_COUNT='1')
        done = subprocess.run(self.program + ['--limit', str(limit)], input=text, capture_output=True, env=there, timeout=300)
        lines = done.stderr.split(b'\n')
        counted = [int(line[6:]) for line in lines if line.startswith(b'calls ')]
        said = b'\n'.join(line for line in lines if not line.startswith(b'calls '))
        return (done.stdout, said, done.returncode), counted[0] if counted else 0

    def check_memory(self, seed: int, text: bytes, limit: int, whole: Answer) -> tuple[str, bool]:
        """Whether the session with one allocation refused gave all, or whole lines of it and status 3."""
        _, calls = self.refused(text, limit, 0)
        number = random.Random(seed).randrange(1, calls + 1)
        said, _ = self.refused(text, limit, number)
        out, err, status = said
        if said == whole:
            return 'memory refused and not needed', True
        stopped = status == 3 and err == b'taskback: memory\n' and whole[0].startswith(out) and out[-1:] in (b'', b'\n')
        return 'memory refused', stopped

    def check(self, seed: int) -> tuple[str, str, bytes]:
        """What was wrong with a session, or nothing, and what was found."""
        try:
            text, limit = pick_session(seed, self.program, 1)
            mine, theirs = answer(self.program, text, limit), answer(self.other, text, limit)
            kind, stopped = self.check_memory(seed, text, limit, mine)
        except subprocess.TimeoutExpired as slow:
            return '%s took more than %d s' % (os.path.basename(slow.cmd[0]), slow.timeout), 'too slow', b''
        wrong = 'differs' if mine != theirs else '' if stopped else 'wrong with memory refused'
        return wrong, kind, theirs[0]

    def run(self, seed: int, minutes: float, jobs: int) -> None:
        end = time.monotonic() + 60 * minutes
        with ThreadPoolExecutor(max_workers=jobs) as pool:
            while time.monotonic() < end:
                seeds = range(seed, seed + 64)
                for given, (wrong, kind, replies) in zip(seeds, pool.map(self.check, seeds)):
                    self.found['sessions'] += 1
                    self.found[kind] += 1
                    self.kinds.update(kinds_of(replies))
                    if wrong:
                        self.failed.append(given)
                        print('seed %d: %s' % (given, wrong), flush=True)
                seed += 64


def main() -> None:
    args = argparse.ArgumentParser(description=__doc__, formatter_class=argparse.RawDescriptionHelpFormatter)
    args.add_argument('--other', required=True)
    args.add_argument('--minutes', type=float, default=1)
    args.add_argument('--program', default=os.path.join(TOP, 'crates/taskback/out/taskback'))
    args.add_argument('--seed', type=int, default=int(time.time()))
    args.add_argument('--jobs', type=int, default=os.cpu_count())
    given = args.parse_args()
    with tempfile.TemporaryDirectory() as folder:
        soak = Soak(os.path.abspath(given.program), shlex.split(given.other), built_library(folder))
        soak.run(given.seed, given.minutes, given.jobs)
    for kind, number in sorted(soak.kinds.items()):
        print('%8d %s' % (number, kind))
    print('first seed %d; %s; %d failed' % (given.seed, ', '.join('%d %s' % (n, k) for k, n in sorted(soak.found.items())), len(soak.failed)))
    sys.exit(1 if soak.failed else 0)


if __name__ == '__main__':
    main()
