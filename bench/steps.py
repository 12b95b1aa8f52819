#!/usr/bin/env python3
"""Measures the built program on long sessions.

    bench/steps.py [PROGRAM]

Two kinds of session, of 100,000 and of 1,000,000 steps and undos each: `step 0` and `undo 0#2` in
turn, and one `run` of a loop that counts. Each is read from a file and written into a file, with a
journal of 1,000,000 entries, and run three times; the best time counts. The journal's first entry
is none of a step, so a run that fills it has 999,999. Then the newest step is undone and taken again
50,000 times after a long history; the time of the history alone is taken off.
"""
import os
import sys
import tempfile
import time
from collections.abc import Callable

TOP = os.path.join(os.path.dirname(os.path.abspath(__file__)), '..')
STORE = b'cells 1\nbody main 0\n  store 0 7\nend\n---\nstep 0\n'
LOOP = b'cells 0\nbody main 0\n  let r0 0\n  while r0 < 1000000\n    let r0 r0 + 1\n  end\nend\n---\n'
KINDS: list[tuple[str, Callable[[int], bytes]]] = [
    ('steps and undos in turn', lambda count: STORE + b'step 0\nundo 0#2\n' * (count // 2)),
    ('one run of a loop', lambda count: LOOP + b'run %d\n' % count),
]


def measure(program: str, text: bytes, folder: str) -> tuple[float, int]:
    session = os.path.join(folder, 'session')
    with open(session, 'wb') as kept:
        kept.write(text)
    best, most = float('inf'), 0
    for _ in range(3):
        start = time.perf_counter()
        child = os.fork()
        if child == 0:
            os.dup2(os.open(session, os.O_RDONLY), 0)
            os.dup2(os.open(os.path.join(folder, 'out'), os.O_WRONLY | os.O_CREAT | os.O_TRUNC), 1)
            os.execv(program, [program, '--limit', '1000000'])
        _, status, used = os.wait4(child, 0)
        taken = time.perf_counter() - start
        if status != 0:
            sys.exit('the program ended with status %d' % status)
        best = min(best, taken)
        most = max(most, used.ru_maxrss)
    return best, most


def main() -> None:
    program = os.path.abspath(sys.argv[1] if len(sys.argv) > 1 else os.path.join(TOP, 'crates/taskback/out/taskback'))
    with tempfile.TemporaryDirectory() as folder:
        for name, text_of in KINDS:
            print(name)
            times = []
            for count in (100000, 1000000):
                taken, memory = measure(program, text_of(count), folder)
                times.append(taken)
                print('%9d: %6.3f s, %7.0f a second, %6.1f MB' % (count, taken, count / taken, memory / 1024))
            print('ten times as many take %.1f times the time' % (times[1] / times[0]))
        print('the newest step undone and taken again')
        for count in (10000, 100000, 800000):
            before, _ = measure(program, LOOP + b'run %d\n' % count, folder)
            turns = b'undo 0#%d\nstep 0\n' % count * 50000
            taken, memory = measure(program, LOOP + b'run %d\n' % count + turns, folder)
            print('behind %7d: %6.3f s, %7.0f a second, %6.1f MB' % (count, taken - before, 100000 / (taken - before), memory / 1024))


if __name__ == '__main__':
    main()
