#!/usr/bin/env python3
"""Measures how the cost of a session grows with its size, on the built program.

    bench/growth.py [--program P] [--seconds S] [--most N] [WORD]

Each row is a kind of session of a size N, which is doubled until a session takes more than S seconds
of processor time (2) or N is at its most (64,000). Printed are time and memory of each size, and the
growth: how much longer the last size took than the one before it. With a word, only the rows in whose
name it is.
"""
import argparse
import os
import subprocess
import tempfile
from collections.abc import Callable, Sequence

from steps import TOP

# The session of a size.
OfSize = Callable[[int], bytes]


def program(*lines: str) -> bytes:
    return '\n'.join(lines).encode() + b'\n---\n'


def loop(count: int, *body: str) -> list[str]:
    """Lines that do `body` count times, with r0 from 0 on."""
    return ['let r0 0', 'while r0 < %d' % count, *body, 'let r0 r0 + 1', 'end']


def siblings(n: int, task: str, body: Sequence[str], cells: int = 1) -> bytes:
    """A root that generates n tasks and ends, and what each does."""
    return program('cells %d' % cells, 'body main 0', *loop(n, task), 'end', 'body t 0', *body, 'end')


def over(n: int) -> bytes:
    """n siblings without items whose run is over."""
    return siblings(n, 'task t', ['store 0 1']) + b'run 1000000\n'


def across(statement: str, *more: str) -> OfSize:
    """A root that does `statement` n times between its first store and its last load."""
    def session(n: int) -> bytes:
        return program('cells 1', 'body main 0', 'store 0 1', *loop(n, statement), 'load r1 0', 'end', *more) + b'run 1000000\nwhy 0#%d\n' % (5 + 3 * n)
    return session


def deep(task: str, *around: str) -> OfSize:
    """A task that generates one like itself, n deep."""
    def session(n: int) -> bytes:
        inner = [*around, task, *(['end'] if around else ['taskwait'])]
        return program('cells 0', 'body main 0', 'task t %d' % n, 'end', 'body t 1', 'if 0 < r0', 'let r1 r0 - 1', *inner, 'end', 'end') + b'run 1000000\n'
    return session


def kept(n: int) -> bytes:
    """n steps of the least task that can step, after n that it excludes."""
    text = program('cells 1', 'body main 0', *loop(n, 'task t depend mutexinoutset 0'), 'end', 'body t 0', *loop(10 * n), 'end')
    return text + b'run %d\nstep 0.%d\nrun %d\n' % (3 * n + 3 + 1, n, n)


def parent(n: int) -> bytes:
    """n steps of a task and of the children that it waits for, after n tasks that it excludes."""
    text = program('cells 1', 'body main 0', *loop(n, 'task t depend mutexinoutset 0'), 'end', 'body t 0', *loop(10 * n, 'task c', 'taskwait'), 'end', 'body c 0', 'end')
    return text + b'run %d\nstep 0.%d\nrun %d\n' % (3 * n + 3 + 1, n, n)


def waiting(n: int) -> bytes:
    """n steps of one task, after n parents that wait for a child."""
    text = program('cells 0', 'body main 0', *loop(n, 'task p'), 'task c', 'end', 'body p 0', 'task c', 'taskwait', 'end', 'body c 0', *loop(10 * n), 'end')
    starts = b''.join(b'step 0.%d\nstep 0.%d\n' % (k, k) for k in range(1, n + 1))
    return text + b'run %d\n' % (3 * n + 5) + starts + b'step 0.%d\n' % (n + 1) + b'step 0.%d\n' % (n + 1) * n


def runs(first: str, second: str) -> OfSize:
    """n siblings with one type of item on a cell, and n with another."""
    def session(n: int) -> bytes:
        return program('cells 1', 'body main 0', *loop(n, 'task t depend %s 0' % first), *loop(n, 'task t depend %s 0' % second),
                       'end', 'body t 0', 'end') + b'run 1000000\n'
    return session


def waits(n: int) -> bytes:
    """n waits with items among n siblings that have ended."""
    return program('cells 1', 'body main 0', *loop(n, 'task t depend inout 0'), *loop(n, 'taskwait depend in 0'), 'end', 'body t 0', 'end') + b'run 1000000\n'


def refused_waits(n: int) -> bytes:
    """n refusals of one wait with an item, among n siblings that haven't ended."""
    text = program('cells 1', 'body main 0', *loop(n, 'task t depend in 0'), 'taskwait depend inout 0', 'end', 'body t 0', 'end')
    return text + b'run %d\n' % (3 * n + 3) + b'step 0\n' * n


def nothing(command: bytes) -> OfSize:
    """A command that finds nothing to do, 100 times, after n steps."""
    def session(n: int) -> bytes:
        text = program('cells 2', 'body main 0', 'task t', *loop(n, 'store 0 1'), 'end', 'body t 0', 'end')
        return text + b'step 0\nstep 0\nrun 2\nrun %d\n' % n + command * 100
    return session


def each(command: bytes, clause: str = '') -> OfSize:
    """A command on each of n siblings in turn, among all that are over; what it took back is taken again."""
    def session(n: int) -> bytes:
        text = siblings(n, 'task t' + clause, ['let r0 1'], n if clause else 1)
        return text + b'run 1000000\n' + b''.join(command.replace(b'N', b'%d' % k) for k in range(1, n + 1))
    return session


def after_each(command: bytes) -> OfSize:
    """A command after each of n stores to one cell; a store that it took back is taken again."""
    def session(n: int) -> bytes:
        text = program('cells 1', 'body main 0', *loop(10 * n, 'store 0 r0'), 'end')
        return text + b'run 3\n' + b''.join(b'run 3\n' + command.replace(b'N', b'%d' % (3 + 3 * k)) for k in range(1, n + 1))
    return session


def last_unended(n: int) -> bytes:
    """n refusals of one wait with an item, of which the last of n children alone keeps it."""
    text = program('cells 1', 'body main 0', *loop(n, 'task t depend in 0'), 'taskwait depend inout 0', 'end', 'body t 0', 'end')
    ends = b''.join(b'step 0.%d\nstep 0.%d\n' % (k, k) for k in range(1, n))
    return text + b'run %d\n' % (3 * n + 3) + ends + b'step 0\n' * n


def nested_groups(n: int) -> bytes:
    """What the last step needs of n groups, each in the one before it."""
    return deep('task t r1', 'taskgroup')(n) + b'why 0#3\n'


def many_items(n: int) -> bytes:
    """n siblings with 64 items each, all at one cell."""
    return siblings(n, 'task t' + ' depend in 0' * 64, ['let r0 1']) + b'run 1000000\n'


def workers(session: OfSize) -> OfSize:
    """The session with four workers in place of the first run."""
    return lambda n: session(n).replace(b'run 1000000\n', b'go 4 1000000\n')


ROWS: list[tuple[str, OfSize]] = [
    ('undo among siblings that are over', lambda n: over(n) + b'undo 0.%d#1\n' % n),
    ('rolltask among siblings that are over', lambda n: over(n) + b'rolltask 0.%d\n' % n),
    ('why among siblings that are over', lambda n: over(n) + b'why 0.%d#2\n' % n),
    ('who among siblings that are over', lambda n: over(n) + b'who 0.1#1\n'),
    ('why across waits', across('taskwait')),
    ('why across prints', across('print 1')),
    ('why across undeferred tasks', across('task u if 0 < 0', 'body u 0', 'end')),
    ('recursion with taskwait', deep('task t r1')),
    ('recursion with undeferred tasks', deep('task t r1 if 0 < 0')),
    ('recursion with groups', deep('task t r1', 'taskgroup')),
    ('steps after tasks that are excluded', kept),
    ('ends after tasks that are excluded', parent),
    ('steps after tasks that wait', waiting),
    ('in then inoutset on one cell', runs('in', 'inoutset')),
    ('in then mutexinoutset on one cell', runs('in', 'mutexinoutset')),
    ('inoutset then in on one cell', runs('inoutset', 'in')),
    ('taskwait with items among ended siblings', waits),
    ('refusals of one taskwait with items', refused_waits),
    ('undo that finds nothing', nothing(b'undo 0#999999\n')),
    ('rollcell that finds nothing', nothing(b'rollcell 1\n')),
    ('rollprint that finds nothing', nothing(b'rollprint\n')),
    ('undo of each end in turn', each(b'undo 0.N#3\nstep 0.N\n')),
    ('undo of each end in turn, with an item each', each(b'undo 0.N#3\nstep 0.N\n', ' depend inout r0')),
    ('undo of each end in turn, with one item', each(b'undo 0.N#3\nstep 0.N\n', ' depend in 0')),
    ('roll in the middle of each task in turn', each(b'roll 0.N#2\nrun 2\n')),
    ('rolltask of each task in turn', each(b'rolltask 0.N\nrun 3\n')),
    ('deps of each sibling in turn', each(b'deps 0.N\n')),
    ('rollcell of the last store, after each store', after_each(b'rollcell 0\nrun 1\n')),
    ('who of the last step, after each store', after_each(b'who 0#N\n')),
    ('refusals of a wait that the last child keeps', last_unended),
    ('why across groups that are nested', nested_groups),
    ('siblings with 64 items at one cell', many_items),
    ('four workers on siblings that exclude each other', workers(lambda n: siblings(n, 'task t depend mutexinoutset 0', ['let r0 1']) + b'run 1000000\n')),
    ('four workers on siblings that wait for one',
     workers(lambda n: siblings(n, 'task t depend in 0', ['let r0 1']).replace(b'let r0 0', b'task t depend out 0\nlet r0 0', 1) + b'run 1000000\n')),
    ('four workers on a chain', workers(lambda n: siblings(n, 'task t depend inout 0', ['let r0 1']) + b'run 1000000\n')),
    ('four workers on a recursion', workers(deep('task t r1'))),
    ('a counting loop', lambda n: program('cells 0', 'body main 0', *loop(16 * n), 'end') + b'run %d\n' % min(999999, 16 * n)),
]


def measure(command: Sequence[str], text: bytes, folder: str, most: float) -> tuple[float, float] | None:
    """Seconds of processor time, and the most memory in MB, or nothing where it takes too long."""
    path = os.path.join(folder, 'session')
    with open(path, 'wb') as written:
        written.write(text)
    with open(path, 'rb') as given, open(os.devnull, 'wb') as taken:
        child = subprocess.Popen(['timeout', str(most), *command, '--limit', '1000000'], stdin=given, stdout=taken, stderr=taken)
        _, status, used = os.wait4(child.pid, 0)
    return (used.ru_utime + used.ru_stime, used.ru_maxrss / 1024) if status == 0 else None


def main() -> None:
    args = argparse.ArgumentParser(description=__doc__, formatter_class=argparse.RawDescriptionHelpFormatter)
    args.add_argument('--program', default=os.path.join(TOP, 'crates/taskback/out/taskback'))
    args.add_argument('--seconds', type=float, default=2)
    args.add_argument('--most', type=int, default=64000)
    args.add_argument('word', nargs='?', default='')
    given = args.parse_args()
    with tempfile.TemporaryDirectory() as folder:
        for name, session in ROWS:
            if given.word not in name:
                continue
            n, growth = 1000, ''
            before: float | None = None
            said: list[str] = []
            while n <= given.most:
                found = measure([os.path.abspath(given.program)], session(n), folder, 10 * given.seconds)
                if not found:
                    said.append('%d: more than %g s' % (n, 10 * given.seconds))
                    break
                said.append('%d: %.3f s %.0f MB' % (n, *found))
                growth = ', growth %.1f' % (found[0] / before) if before and found[0] > 0.05 else growth
                before = found[0]
                if found[0] > given.seconds:
                    break
                n *= 2
            print('%-50s %s%s' % (name, '; '.join(said), growth), flush=True)


if __name__ == '__main__':
    main()
