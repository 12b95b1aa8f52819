#!/usr/bin/env python3
"""Measures the reader on long program texts, through crates/tb_read_rows.

    bench/reading.py [PROGRAM]

Each text comes with 6,553 and with 65,536 lines, the most that a program can have. It is read whole, and
its program is written out, or it has a fault in its last line alone: so the first also pays for the
instructions and for printing them. A run reads ten copies of a text, and the best of seven runs
counts, by the processor's time, the program's start included. Memory is that of a run on one copy; a
run can't show less than the 10 MB of this script, from which it begins.
"""
import os
import sys
import tempfile
from collections.abc import Callable, Sequence

TOP = os.path.join(os.path.dirname(os.path.abspath(__file__)), '..')
HEAD, END = b'cells 8\nbody main 0\n', b'end\n'
STATEMENTS = [b'  let r1 r0 + 1\n', b'  store r1 -7\n', b'  load r2 3\n', b'  print r2\n']
TASKS = [b'  task main depend in r1 depend out all if r0 < 2 # a task\n', b'  taskwait depend inout 7\n']


# A text of so many lines.
OfLines = Callable[[int], bytes]


def of_lines(some: Sequence[bytes], lines: int) -> bytes:
    """A text of so many lines, whose body repeats these."""
    count = lines - 3
    return HEAD + b''.join(some) * (count // len(some)) + b''.join(some[:count % len(some)]) + END


def nested(lines: int) -> bytes:
    count = (lines - 3) // 2
    return HEAD + b'# odd\n' * ((lines - 3) % 2) + b'if r0 == 0\n' * count + END * count + END


def bodies(lines: int) -> bytes:
    """About a thousand bodies, or a hundred, of 66 lines each."""
    count = lines // 66
    parts = [of_lines(STATEMENTS, lines - (count - 1) * 66)]
    for n in range(1, count):
        parts.append(b'body b%d 0\n' % n + b'  print 1\n' * 64 + END)
    return b''.join(parts)


TEXTS: list[tuple[str, OfLines]] = [
    ('statements', lambda lines: of_lines(STATEMENTS, lines)),
    ('tasks and waits', lambda lines: of_lines(TASKS, lines)),
    ('nested ifs', nested),
    ('many bodies', bodies),
    ('comments', lambda lines: of_lines([b'# ' + b'y' * 60 + b'\n'], lines)),
]


def faulty(text: bytes) -> bytes:
    """The text with a fault in its last line, an `end`."""
    return text[:-len(END)] + b'fly\n'


def prepare(path: str, text_of: OfLines, lines: int, copies: int) -> None:
    """Writes the copies, in a process of its own, so that a measured run doesn't begin with its memory."""
    child = os.fork()
    if child == 0:
        text = text_of(lines)
        assert text.count(b'\n') == lines
        with open(path, 'wb') as texts:
            for _ in range(copies):
                texts.write(b'%d\n' % len(text) + text)
        os._exit(0)
    _, status = os.waitpid(child, 0)
    if status != 0:
        sys.exit('the texts could not be written')


def run(program: str, path: str) -> tuple[float, float]:
    """The processor's time and the memory of a run."""
    child = os.fork()
    if child == 0:
        os.dup2(os.open(path, os.O_RDONLY), 0)
        os.dup2(os.open(os.devnull, os.O_WRONLY), 1)
        os.execv(program, [program])
    _, status, used = os.wait4(child, 0)
    if status != 0:
        sys.exit('the program ended with status %d' % status)
    return used.ru_utime + used.ru_stime, used.ru_maxrss / 1024


def report(program: str, name: str, how: str, text_of: OfLines, folder: str) -> None:
    sizes = [6553, 65536]
    paths = [os.path.join(folder, str(lines)) for lines in sizes]
    for path, lines in zip(paths, sizes):
        prepare(path, text_of, lines, 10)
    rounds = [[run(program, path)[0] for path in paths] for _ in range(7)]
    times = [min(column) / 10 for column in zip(*rounds)]
    for path, lines, taken in zip(paths, sizes, times):
        prepare(path, text_of, lines, 1)
        print('%-18s %-8s %6d lines, %4.1f MB of text: %6.2f ms, %8.0f lines a second, %5.1f MB'
              % (name, how, lines, os.path.getsize(path) / 1e6, 1000 * taken, lines / taken, run(program, path)[1]))
    print('%-18s %-8s ten times the lines take %.1f times the time' % (name, how, times[1] / times[0]))


def main() -> None:
    program = os.path.abspath(sys.argv[1] if len(sys.argv) > 1 else os.path.join(TOP, 'crates/tb_read_rows/out/tb_read_rows'))
    with tempfile.TemporaryDirectory() as folder:
        for name, text_of in TEXTS:
            report(program, name, 'accepted', text_of, folder)
            report(program, name, 'faulty', lambda lines: faulty(text_of(lines)), folder)


if __name__ == '__main__':
    main()
