#!/usr/bin/env python3
"""Measures two programs beside each other, on big sessions of each kind.

    bench/beside.py PROGRAM OTHER [RUNS] [WORD]

OTHER is any program that answers the same sessions, as an earlier build. The two run by turns, three times each or RUNS times,
each session from a file into a file, with a journal of 1,000,000 entries; the least processor time counts. What builds the
history of a view or of commands is taken off both. With a word, only the sessions in whose name it is.
"""
import os
import sys
import tempfile
from collections.abc import Sequence

from sessions import HALVES, KEPT, SPAWN_ALL, TREE, long_text, program, siblings
from steps import LOOP

RUN = b'run 1000000\n'
LARGE_TREE = TREE.replace(b'task t 12', b'task t 13')
EMPTY = program('cells 0', 'body main 0', 'end')
DEEP = program('cells 0', 'body main 0', '  task t', '  taskwait', 'end', 'body t 0', '  task t', '  taskwait', 'end')
SPAWNED = KEPT + SPAWN_ALL
TWICE = HALVES + b'run 100000\n' + b'rolltask 0.2\nrun 100000\n' * 2
COMMANDS = b'step 0.1\nundo 0.1#4\nout\ndeps 0.2\n' * 5000
# 10,000 tasks of 8 steps each, that nothing orders: 130,000 steps with those of the root
MANY = program('cells 0', 'body main 0', '  let r0 0', '  while r0 < 10000', '    task t', '    let r0 r0 + 1', '  end', 'end',
               'body t 0', *['  let r0 %d' % n for n in range(6)], 'end')
WHOLE = MANY + b'run 1000000\n'
# a task of 64 steps among 100,000 of another, a step in each 1,500
SCATTERED = HALVES.replace(b'24998', b'1000000') + b'run 4\n' + b'step 0.2\nrun 1500\n' * 64
KINDS = [
    ('a counting loop of 1,000,000 steps', EMPTY, LOOP + b'run 999999\n'),
    ('10,000 siblings on 64 cells', EMPTY, siblings('inout', 64) + RUN),
    ('10,000 siblings that exclude each other', EMPTY, siblings('mutexinoutset', 1) + RUN),
    ('a tree of groups, 16,383 tasks', EMPTY, LARGE_TREE + RUN),
    ('a recursion down 500 levels', EMPTY, DEEP + b'run 1000\n'),
    ('half of 100,000 steps rolled back and taken again, twice', EMPTY, TWICE),
    ('a run of 1,000,000 steps, and hist', EMPTY, LOOP + b'run 999999\nhist\n'),
    ('reading a program of 65,536 lines', EMPTY, long_text()),
    ('ready of 10,001 tasks, ten times', SPAWNED, SPAWNED + b'ready\n' * 10),
    ('waits of 10,001 tasks, ten times', SPAWNED, SPAWNED + b'waits\n' * 10),
    ('tasks of 10,001 tasks, ten times', SPAWNED, SPAWNED + b'tasks\n' * 10),
    ('a step that 3 need rolled back and run again in 130,000, 2,000 times', WHOLE,
     WHOLE + b''.join(b'roll 0.%d#5\nrun 4\n' % (n * 5 + 1) for n in range(2000))),
    ('who of a step that 3 need in 130,000, 300 times', WHOLE, WHOLE + b''.join(b'who 0.%d#5\n' % (n * 33 + 1) for n in range(300))),
    ('a task rolled back in 64 rows and run again, 100 times', SCATTERED, SCATTERED + (b'rolltask 0.2\n' + b'step 0.2\n' * 64) * 100),
    ('why in the middle of 130,000 steps, 200 times', WHOLE, WHOLE + b'why 0.5000#5\n' * 200),
    ('why of the last step of 130,000, 20 times', WHOLE, WHOLE + b'why 0.10000#8\n' * 20),
    ('ten steps of a task behind 9,999 that are excluded', SPAWNED, SPAWNED + b'run 1\n' * 10),
    ('20,000 small commands', HALVES + b'run 10\n', HALVES + b'run 10\n' + COMMANDS),
]


def run_once(name: str, text: bytes, folder: str) -> tuple[float, float]:
    """The processor time of one run, in seconds, and the most memory, in MB."""
    session = os.path.join(folder, 'session')
    with open(session, 'wb') as kept:
        kept.write(text)
    child = os.fork()
    if child == 0:
        try:
            os.dup2(os.open(session, os.O_RDONLY), 0)
            os.dup2(os.open(os.path.join(folder, 'out'), os.O_WRONLY | os.O_CREAT | os.O_TRUNC), 1)
            os.execv(name, [name, '--limit', '1000000'])
        finally:
            os._exit(127)
    _, status, used = os.wait4(child, 0)
    if status != 0:
        sys.exit('%s ended with status %d' % (name, os.waitstatus_to_exitcode(status)))
    return used.ru_utime + used.ru_stime, used.ru_maxrss / 1024


def measure(names: Sequence[str], before: bytes, text: bytes, runs: int, folder: str) -> list[tuple[float, float]]:
    """Of each program the least time of the text, with that of what comes before it taken off, and the most memory."""
    parts: dict[str, tuple[list[float], list[float], list[float]]] = {name: ([], [], []) for name in names}
    for _ in range(runs):
        for name in names:
            base, times, memories = parts[name]
            base.append(run_once(name, before, folder)[0])
            time, memory = run_once(name, text, folder)
            times.append(time)
            memories.append(memory)
    return [(min(times) - min(base), max(memories)) for base, times, memories in parts.values()]


def main() -> None:
    if len(sys.argv) < 3:
        sys.exit(__doc__.strip())
    names = [os.path.abspath(name) for name in sys.argv[1:3]]
    runs = int(sys.argv[3]) if len(sys.argv) > 3 else 3
    word = sys.argv[4] if len(sys.argv) > 4 else ''
    with tempfile.TemporaryDirectory() as folder:
        for kind, before, text in KINDS:
            if word not in kind:
                continue
            (time, memory), (other, memories) = measure(names, before, text, runs, folder)
            print('%-57s %7.4f s %6.1f MB, the other %8.4f s %6.1f MB, %6.1f times the time'
                  % (kind, time, memory, other, memories, other / max(time, 1e-4)), flush=True)


if __name__ == '__main__':
    main()
