#!/usr/bin/env python3
"""Measures the judge of run texts, on the built program `taskcheck`.

    bench/runs.py [--program P] [--events N] [--tasks T] [--doublings D] [--small K] [WORD]

Each row is a kind of run, of about N events (10,000,000) by T tasks (100,000): its text is made in a file, and judged from
there as standard input. Printed are the events, the text's size, what the report says, the seconds of processor, the bytes
a second, and the most memory; and for each of D doublings (2) up to N, how many times longer it took than the one of half
the size. `reading` has one task that only computes, so that hardly more is done than reading. The last row is the processes
a second where K small texts (1,000) are judged one by one. With a word, only the rows in whose name it is.
"""
import argparse
import os
import resource
import subprocess
import tempfile
import time
from collections.abc import Callable, Iterator

TOP = os.path.dirname(os.path.dirname(os.path.abspath(__file__)))

# Pieces of a text with about so many events by so many tasks.
Kind = Callable[[int, int], Iterator[str]]


def accesses(task: str, first: int, cell: int, count: int) -> str:
    """Steps of a task from its step `first` on, which by turns store to its cell and load from it."""
    pairs = '%s#%%d store %d 7\n%s#%%d load r0 %d 7\n' % (task, cell, task, cell)
    text = pairs * (count // 2) % tuple(range(first, first + count // 2 * 2))
    return text + ('%s#%d store %d 7\n' % (task, first + count - 1, cell) if count % 2 else '')


def whole(task: str, cell: int, count: int) -> str:
    """A task of so many steps that accesses a cell."""
    return '%s#1 start\n%s%s#%d end\n' % (task, accesses(task, 2, cell, count - 2), task, count)


def spawned(name: int, clauses: str) -> str:
    return '0#%d spawn 0.%d t %s\n' % (name + 1, name, clauses)


def chain(events: int, tasks: int) -> Iterator[str]:
    """Tasks one after another, by one cell."""
    yield 'cells 1\n0#1 start\n'
    for task in range(1, tasks + 1):
        yield spawned(task, 'depend inout 0')
    for task in range(1, tasks + 1):
        yield whole('0.%d' % task, 0, events // tasks - 1)
    yield '0#%d end\n' % (tasks + 2)


def blocks(events: int, tasks: int) -> Iterator[str]:
    """Tasks in 64 chains, each of a cell of its own: 64 are executed at a time, a step of each in turn."""
    yield 'cells 64\n0#1 start\n'
    for task in range(1, tasks + 1):
        yield spawned(task, 'depend inout %d' % (task % 64))
    steps = events // tasks - 1
    for first in range(1, tasks + 1, 64):
        group = range(first, min(first + 64, tasks + 1))
        lines = [whole('0.%d' % task, task % 64, steps).splitlines(keepends=True) for task in group]
        yield ''.join(line for row in zip(*lines) for line in row)
    yield '0#%d end\n' % (tasks + 2)


def fib(events: int, tasks: int) -> Iterator[str]:
    """A tree: each task generates two, waits for both, and adds what they stored, each in a cell of its own."""
    depth, count = 1, 3
    while count < tasks:
        depth, count = depth + 1, count * 2 + 1
    rest = max(0, events // count - 8)
    yield 'cells %d\n' % (count + 1)

    def task(name: str, deep: int, cell: int) -> Iterator[str]:
        if not deep:
            yield whole(name, cell, rest + 3)
            return
        yield '%s#1 start\n%s#2 spawn %s.1 fib\n%s#3 spawn %s.2 fib\n' % (name, name, name, name, name)
        size = 2 ** deep - 1
        below = cell + 1, cell + 1 + size
        yield from task(name + '.1', deep - 1, below[0])
        yield from task(name + '.2', deep - 1, below[1])
        yield '%s#4 wait\n%s#5 load r0 %d 7\n%s#6 load r1 %d 7\n' % (name, name, below[0], name, below[1])
        yield '%s%s#%d end\n' % (accesses(name, 7, cell, rest + 1), name, rest + 8)

    yield from task('0', depth, 0)


def stencil(events: int, tasks: int) -> Iterator[str]:
    """Rounds over a row of cells, a task and a new cell for each: it reads three of the round before, by clauses for two of them."""
    width = round(tasks ** 0.5)
    yield 'cells %d\n0#1 start\n' % (width * (width + 1))
    steps = max(6, events // (width * width) - 1)
    for task in range(width * width):
        before = max(task % width - 1, 0) + task // width * width
        yield spawned(task + 1, 'depend in %d depend in %d depend out %d' % (before, task, task + width))
    for task in range(width * width):
        name, row, column = '0.%d' % (task + 1), task // width * width, task % width
        yield '%s#1 start\n' % name
        for step, at in enumerate((max(column - 1, 0), column, min(column + 1, width - 1)), 2):
            # The first row has its first values.
            yield '%s#%d load r1 %d %d\n' % (name, step, row + at, 7 if row else 0)
        yield '%s%s#%d end\n' % (accesses(name, 5, task + width, steps - 5), name, steps)
    yield '0#%d end\n' % (width * width + 2)


def reading(events: int, _: int) -> Iterator[str]:
    """One task that only computes."""
    yield 'cells 0\n0#1 start\n'
    for first in range(2, events, 1000):
        yield '0#%d let r1 12345\n' * 1000 % tuple(range(first, first + 1000))


KINDS: dict[str, Kind] = {'chain': chain, 'blocks of 64 cells': blocks, 'fib': fib, 'stencil with one clause left out': stencil, 'reading': reading}


def judged(program: str, path: str) -> tuple[float, float, bytes, int]:
    """The seconds of processor and the megabytes that the judgement of a file took, its report and its status."""
    with open(path, 'rb') as text, tempfile.TemporaryFile() as out:
        child = subprocess.Popen([program], stdin=text, stdout=out)
        _, status, used = os.wait4(child.pid, 0)
        child.returncode = os.waitstatus_to_exitcode(status)
        out.seek(0)
        return used.ru_utime + used.ru_stime, used.ru_maxrss / 1024, out.read(), child.returncode


def row(program: str, folder: str, name: str, sizes: list[tuple[int, int]]) -> None:
    """Prints what the kind costs at each size, and how it grows."""
    before = 0.0
    for events, tasks in sizes:
        path = os.path.join(folder, 'text.run')
        with open(path, 'w', encoding='ascii') as file:
            file.writelines(KINDS[name](events, tasks))
        seconds, memory, report, status = judged(program, path)
        size = os.path.getsize(path)
        lines = report.decode().splitlines()
        said = ', '.join(lines[:1] + [line for line in lines if line.startswith('races ')])
        growth = ', %.1f times the half' % (seconds / before) if before else ''
        print('%-34s %4.0f MB, %s, status %d: %.2f s, %.0f MB/s, %.0f MB of memory%s' % (
            name, size / 1e6, said, status, seconds, size / 1e6 / seconds, memory, growth), flush=True)
        before = seconds
        os.remove(path)


def small(program: str, folder: str, count: int) -> None:
    """Prints how many processes a second judge a text of three tasks."""
    path = os.path.join(folder, 'small.run')
    with open(path, 'w', encoding='ascii') as file:
        file.writelines(chain(24, 3))
    loop = 'for ((n = 0; n < %d; n++)); do "$0" "$1" > /dev/null || exit 1; done' % count
    before = resource.getrusage(resource.RUSAGE_CHILDREN)
    began = time.monotonic()
    subprocess.run(['bash', '-c', loop, program, path], check=True)
    seconds = time.monotonic() - began
    after = resource.getrusage(resource.RUSAGE_CHILDREN)
    used = after.ru_utime + after.ru_stime - before.ru_utime - before.ru_stime
    print('%-34s %d texts of 24 events: %.2f s by the clock, %.0f a second; %.2f s of processor' % ('small texts', count, seconds, count / seconds, used))


def main() -> None:
    args = argparse.ArgumentParser(description=__doc__, formatter_class=argparse.RawDescriptionHelpFormatter)
    args.add_argument('--program', default=os.environ.get('TASKBACK_TASKCHECK', os.path.join(TOP, 'crates/taskcheck/out/taskcheck')))
    args.add_argument('--events', type=int, default=10_000_000)
    args.add_argument('--tasks', type=int, default=100_000)
    args.add_argument('--doublings', type=int, default=2)
    args.add_argument('--small', type=int, default=1000)
    args.add_argument('word', nargs='?', default='')
    given = args.parse_args()
    sizes = [(given.events >> half, given.tasks >> half) for half in range(given.doublings, -1, -1)]
    with tempfile.TemporaryDirectory() as folder:
        for name in KINDS:
            if given.word in name:
                row(os.path.abspath(given.program), folder, name, sizes)
        if given.word in 'small texts':
            small(os.path.abspath(given.program), folder, given.small)


if __name__ == '__main__':
    main()
