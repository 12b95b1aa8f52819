#!/usr/bin/env python3
"""Measures what needs a step, and what it needs, in histories of growing size.

    bench/needs.py PROGRAM [SIZES [WORD]]

For each kind of history and each size N, the processor time of one command after the whole run; the
time of the session without the command is taken off, and the better of two runs counts.
"""
import os
import sys
import tempfile
from collections.abc import Callable

RUN = b'run 1000000\n'


def loop(count: int, *statements: str) -> bytes:
    lines = ['cells 64', 'body main 0', '  let r0 0', '  let r1 0', '  while r0 < %d' % count, *['    ' + line for line in statements],
             '    let r0 r0 + 1', '    let r1 r1 + 1', '    if r1 == 64', '      let r1 0', '    end', '  end', 'end', 'body t 0', '  let r0 1', 'end']
    return '\n'.join(lines).encode() + b'\n---\n'


ROWS: list[tuple[str, str, Callable[[int], bytes]]] = [
    ('rolltask of the first of siblings with inout at 64 cells', 'task t depend inout r1', lambda n: b'rolltask 0.1\n'),
    ('who of the first of them', 'task t depend inout r1', lambda n: b'who 0.1#1\n'),
    ('rolltask of the last of them', 'task t depend inout r1', lambda n: b'rolltask 0.%d\n' % n),
    ('who of the first of siblings with in at one cell', 'task t depend in 0', lambda n: b'who 0.1#1\n'),
    ('who of the root, of siblings without items', 'task t', lambda n: b'who 0#1\n'),
    ('who across waits', 'task t\n    taskwait', lambda n: b'who 0.1#1\n'),
    ('who across undeferred tasks', 'task t if 0 == 1', lambda n: b'who 0.1#1\n'),
    ('who across groups', 'taskgroup\n    task t\n    end', lambda n: b'who 0.1#1\n'),
    ('why of the last of siblings with inout at 64 cells', 'task t depend inout r1', lambda n: b'why 0.%d#3\n' % n),
    ('why across waits', 'task t\n    taskwait', lambda n: b'why 0.%d#3\n' % n),
    ('why across prints', 'print r0', lambda n: b'why 0#%d\n' % (4 * n)),
    ('why across undeferred tasks', 'task t if 0 == 1', lambda n: b'why 0.%d#3\n' % n),
    ('why across groups', 'taskgroup\n    task t\n    end', lambda n: b'why 0.%d#3\n' % n),
]


def measure(program: str, text: bytes, folder: str) -> tuple[float, int]:
    session = os.path.join(folder, 'session')
    with open(session, 'wb') as kept:
        kept.write(text)
    best, most = float('inf'), 0
    for _ in range(2):
        child = os.fork()
        if child == 0:
            os.dup2(os.open(session, os.O_RDONLY), 0)
            os.dup2(os.open(os.path.join(folder, 'out'), os.O_WRONLY | os.O_CREAT | os.O_TRUNC), 1)
            os.execv(program, [program, '--limit', '1000000'])
        _, status, used = os.wait4(child, 0)
        if status != 0:
            sys.exit('the program ended with status %d' % status)
        taken = used.ru_utime + used.ru_stime
        best = min(best, taken)
        most = max(most, used.ru_maxrss)
    return best, most


def main() -> None:
    program = os.path.abspath(sys.argv[1])
    sizes = [int(size) for size in (sys.argv[2] if len(sys.argv) > 2 else '4000,8000,16000,32000,64000').split(',')]
    with tempfile.TemporaryDirectory() as folder:
        for name, statements, command in ROWS:
            if len(sys.argv) > 3 and sys.argv[3] not in name:
                continue
            for size in sizes:
                before = loop(size, statements) + RUN
                without, _ = measure(program, before, folder)
                taken, memory = measure(program, before + command(size), folder)
                print('%-58s %6d: %7.3f s behind %6.3f s, %5.1f MB' % (name, size, taken - without, without, memory / 1024), flush=True)


if __name__ == '__main__':
    main()
