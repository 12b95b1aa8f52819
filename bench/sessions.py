#!/usr/bin/env python3
"""Measures big sessions on the built program.

    bench/sessions.py [PROGRAM] [WORD]

Each session is read from a file and written into a file, with a journal of 1,000,000 entries. It runs
three times, and the best time counts; the time of the part that only builds its history is told
apart. With a word, only the sessions in whose name it is.
"""
import os
import sys
import tempfile

from steps import LOOP, TOP, measure


def program(*lines: str) -> bytes:
    return '\n'.join(lines).encode() + b'\n---\n'


def siblings(kind: str, cells: int) -> bytes:
    """A main body that generates 10,000 tasks by a loop, each with one item at the next cell in turn."""
    return program('cells %d' % cells, 'body main 0', '  let r0 0', '  let r1 0', '  while r0 < 10000', '    task t depend %s r1' % kind,
                   '    let r0 r0 + 1', '    let r1 r1 + 1', '    if r1 == %d' % cells, '      let r1 0', '    end', '  end', 'end',
                   'body t 0', '  let r0 1', 'end')


TREE = program('cells 0', 'body main 0', '  task t 12', 'end', 'body t 1', '  taskgroup', '    if 0 < r0', '      let r1 r0 - 1',
               '      task t r1', '      task t r1', '    end', '  end', 'end')
# each of two tasks takes half of 100,000 steps, and the root ten
HALVES = program('cells 0', 'body main 0', '  task t', '  task t', 'end', 'body t 0', '  let r0 0', '  while r0 < 24998', '    let r0 r0 + 1', '  end', 'end')
# 9,999 tasks are kept from their start by one that goes on
KEPT = program('cells 1', 'body main 0', '  let r0 0', '  while r0 < 10000', '    task t depend mutexinoutset 0', '    let r0 r0 + 1', '  end', 'end',
               'body t 0', '  let r0 0', '  while r0 < 1000000', '    let r0 r0 + 1', '  end', 'end')
SPAWN_ALL = b'run 30004\nstep 0.10000\n'


def turns(count: int) -> bytes:
    return b'run 4\n' + b'step 0.1\nstep 0.2\n' * count


def long_text() -> bytes:
    return program('cells 1', 'body main 0', *['  store 0 %d' % n for n in range(65533)], 'end')


SESSIONS = [
    ('a counting loop of 1,000,000 steps', LOOP, b'run 999999\n'),
    ('10,000 siblings on 64 cells', siblings('inout', 64), b'run 1000000\n'),
    ('10,000 siblings that exclude each other', siblings('mutexinoutset', 1), b'run 1000000\n'),
    ('10,000 siblings at cells of their own, spawned', siblings('out', 10000), b'run 50006\n'),
    ('10,000 starts, the last sibling first', siblings('out', 10000) + b'run 50006\n', b''.join(b'step 0.%d\n' % n for n in range(10000, 0, -1))),
    ('a tree of groups, 8,191 tasks', TREE, b'run 1000000\n'),
    ('rollbacks of half of 100,000 steps', HALVES + b'run 100000\n', b'rolltask 0.2\nrun 100000\n' * 2),
    ('rollbacks of 12 of 100,000 steps', HALVES + b'run 100000\n', b'roll 0.2#49990\nrun 100\n' * 10),
    ('hist of 100,000 steps', HALVES + b'run 100000\n', b'hist\n'),
    ('why of 5,000 steps behind 10,000', HALVES + turns(5000), b'why 0.2#5000\n'),
    ('why of 10,000 steps behind 20,000', HALVES + turns(10000), b'why 0.2#10000\n'),
    ('who of 10,000 steps in 20,000', HALVES + turns(10000), b'who 0.2#1\n'),
    ('tasks of 10,001 tasks', KEPT + SPAWN_ALL, b'tasks\n' * 10),
    ('tasks of a tree, 4,626 tasks', TREE + b'run 30000\n', b'tasks\n' * 10),
    ('ready of 10,001 tasks', KEPT + SPAWN_ALL, b'ready\n' * 10),
    ('waits of 10,001 tasks', KEPT + SPAWN_ALL, b'waits\n' * 10),
    ('10 steps behind 9,999 tasks that are kept', KEPT + SPAWN_ALL, b'run 10\n'),
    ('a program of 65,536 lines', long_text(), b'run 1000000\n'),
    ('200,000 small commands', HALVES + b'run 10\n', b'step 0.1\nundo 0.1#4\nout\ndeps 0.2\n' * 50000),
]


def main() -> None:
    words = sys.argv[1:]
    program = os.path.abspath(words[0] if words else os.path.join(TOP, 'crates/taskback/out/taskback'))
    with tempfile.TemporaryDirectory() as folder:
        for name, before, commands in SESSIONS:
            if len(words) > 1 and words[1] not in name:
                continue
            without, _ = measure(program, before, folder)
            taken, memory = measure(program, before + commands, folder)
            lines = open(os.path.join(folder, 'out'), 'rb').read().count(b'\n')
            print('%-46s %8.3f s behind %6.3f s, %8d lines in all, %6.1f MB' % (name, taken - without, without, lines, memory / 1024), flush=True)


if __name__ == '__main__':
    main()
