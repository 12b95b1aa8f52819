#!/usr/bin/env python3
"""How long the lock is held a step by a `go` of several workers.

    python3 -m bench.lock [--keep P] [--program P]

The lock is taken in line, so a build without proof is made in which each call under the lock stands in a
function of its own, and a clock is read at its entry and its return: the sessions are those of
`bench/workers.py`. What is not counted is the taking and the giving back of the lock itself; what is
counted too are the two readings of the clock, some 40 ns a hold. `--keep` keeps the program with the
clock, for a later call's `--program`.
"""
import argparse
import os
import re
import shutil
import subprocess
import sys
import tempfile
from collections.abc import Callable, Iterable, Sequence

from bench import workers
from tools import build_unproved

TOP = os.path.dirname(os.path.dirname(os.path.abspath(__file__)))

# What a worker does under the lock, by the crate's function; the rest of `Desk` isn't called by a `go`.
UNDER = re.compile(r'define internal (?P<of>.*?)@"(?P<name>tb_work::desk::Desk::(?:claim|commit_burst|let_go|why|resume_for)::[^"]*)"\((?P<given>.*)\) #0 \{')


def wrapper(found: re.Match[str]) -> str:
    """A function of this name that reads the clock around the one that had it."""
    given = found['given'].split(', ')
    types = [re.sub(r' noundef| %\S+', '', word) for word in given]
    passed = ', '.join('%s %s' % (of, word.split()[-1]) for of, word in zip(types, given))
    of = found['of'].replace('noundef', '').strip()
    result, back = ('', 'void') if of == 'void' else ('%result = ', of + ' %result')
    return f'''define internal {of} @"{found['name']}"({found['given']}) noinline #0 {{
  call void @lock_entered()
  {result}call {of} @"{found['name']}.inner"({passed})
  call void @lock_left()
  ret {back}
}}
'''


def rewritten(text: Iterable[str]) -> tuple[str, int]:
    """The module's text with a clock around each call under the lock, and how many such calls there are."""
    lines, wrappers = [], []
    for line in text:
        found = UNDER.fullmatch(line.rstrip('\n'))
        if found:
            wrappers.append(wrapper(found))
            line = line.replace(found['name'], found['name'] + '.inner').replace(') #0 {', ') noinline #0 {')
        lines.append(line)
    return ''.join(lines + wrappers + ['declare void @lock_entered()\ndeclare void @lock_left()\n']), len(wrappers)


def built(target: str) -> None:
    """Builds the program with the clock."""
    clang = os.path.join(build_unproved.kit(), 'toolchain', 'bin', 'clang')
    with tempfile.TemporaryDirectory(prefix='taskback-') as folder:
        with open(os.path.join(folder, 'log'), 'wb') as said:
            module = build_unproved.taken_module(folder, said)
        text = os.path.join(folder, 'taskback.ll')
        subprocess.run([clang, '-S', '-emit-llvm', '-x', 'ir', module, '-o', text], check=True)
        with open(text) as file:
            made, count = rewritten(file)
        if count != 5:
            raise OSError('%d functions under the lock were found, not 5' % count)
        with open(text, 'w') as file:
            file.write(made)
        clock = os.path.join(folder, 'clock.o')
        subprocess.run(['cc', '-O2', '-fPIE', '-c', os.path.join(TOP, 'bench', 'lock.c'), '-o', clock], check=True)
        build_unproved.compiled(text, target, '-O2', [clock])


def measured(program: str, lines: Sequence[str]) -> tuple[int, int, int]:
    """What the clock says after the session, and the steps that the session took."""
    with tempfile.TemporaryFile('w+') as session, tempfile.TemporaryFile('w+') as reply:
        session.write('\n'.join(lines) + '\n')
        session.seek(0)
        ran = subprocess.run([program, '--workers', '64', '--limit', '1000000'], stdin=session, stdout=reply, stderr=subprocess.PIPE, text=True, check=True)
        reply.seek(0)
        found = re.search(r'lock held (\d+) ns in (\d+) holds', ran.stderr)
        if found is None:
            raise OSError('the program has no clock: %s' % ran.stderr)
        return int(found[1]), int(found[2]), sum('#' in line for line in reply)


def main() -> int:
    args = argparse.ArgumentParser(description=__doc__, formatter_class=argparse.RawDescriptionHelpFormatter)
    args.add_argument('--program', help='a program with the clock, built before')
    args.add_argument('--keep', help='where to keep the program that is built')
    given = args.parse_args()
    with tempfile.TemporaryDirectory() as folder:
        program = given.program or os.path.join(folder, 'taskback')
        if not given.program:
            built(program)
            if given.keep:
                shutil.copy(program, given.keep)
        sessions: dict[str, Callable[[int], list[str]]] = {'counters': lambda w: workers.counters(w, 1, 1000000), 'sums': workers.sums}
        for name, session in sessions.items():
            for count in (2, 4):
                held, holds, steps = measured(program, session(count))
                print('%-9s go %d  %7d steps  %5.2f holds a step  %6.0f ns a hold  %6.0f ns a step' % (name, count, steps, holds / steps, held / holds, held / steps))
    return 0


if __name__ == '__main__':
    sys.exit(main())
