#!/usr/bin/env python3
"""How fast `go` is with one worker and with several, over the same sessions.

    bench/workers.py [--program P] [--rounds N]

Each session is run from a file into a file, with room for 1,000,000 entries; the best of the rounds
counts. `counters` has 8 tasks that count by themselves, `sums` 2,000 tasks that add to one cell and
exclude each other, `cut` 100 `go`s of 100 steps each over the first.
"""
import argparse
import os
import subprocess
import sys
import tempfile
import time
from collections.abc import Callable, Sequence

TOP = os.path.dirname(os.path.dirname(os.path.abspath(__file__)))


def counters(workers: int, count: int, most: int) -> list[str]:
    body = ['cells 0', 'body main 0'] + ['task loop'] * 8 + ['end', 'body loop 0', 'let r0 0', 'while r0 < 6000', 'let r0 r0 + 1', 'end', 'end', '---']
    return body + ['go %d %d' % (workers, most)] * count


def sums(workers: int) -> list[str]:
    body = ['cells 1', 'body main 0', 'let r0 0', 'while r0 < 2000', 'task add depend mutexinoutset 0', 'let r0 r0 + 1', 'end', 'end',
            'body add 0', 'load r1 0', 'let r1 r1 + 1', 'store 0 r1', 'end', '---']
    return body + ['go %d 1000000' % workers]


def best(program: str, lines: Sequence[str], rounds: int) -> tuple[float, int]:
    with tempfile.TemporaryDirectory() as folder:
        session, reply = os.path.join(folder, 'session'), os.path.join(folder, 'reply')
        with open(session, 'w') as file:
            file.write('\n'.join(lines) + '\n')
        times = []
        for _ in range(rounds):
            with open(session) as read, open(reply, 'w') as written:
                begun = time.monotonic()
                subprocess.run([program, '--workers', '64', '--limit', '1000000'], stdin=read, stdout=written, check=True)
                times.append(time.monotonic() - begun)
        with open(reply) as file:
            steps = sum('#' in line for line in file)
    return min(times), steps


def main() -> int:
    args = argparse.ArgumentParser(description=__doc__, formatter_class=argparse.RawDescriptionHelpFormatter)
    args.add_argument('--program', default=os.path.join(TOP, 'crates/taskback/out/taskback'))
    args.add_argument('--rounds', type=int, default=3)
    given = args.parse_args()
    sessions: dict[str, Callable[[int], list[str]]] = {'counters': lambda w: counters(w, 1, 1000000), 'sums': sums, 'cut': lambda w: counters(w, 100, 100)}
    for name, session in sessions.items():
        for workers in (1, 2, 4):
            spent, steps = best(given.program, session(workers), given.rounds)
            print('%-9s go %d  %7d steps  %6.2f s  %9d a second' % (name, workers, steps, spent, steps / spent))
    return 0


if __name__ == '__main__':
    sys.exit(main())
