#!/usr/bin/env python3
"""Measures the immediate causes of all steps, in histories of growing size.

    bench/causes.py PROGRAM [SIZES [WORD]]

For each kind of history and each size, its steps, and the processor time of `causes` for each of them after the run;
the time of the run alone is taken off.
"""
import os
import subprocess
import sys
from collections.abc import Sequence

# What a loop of the root does each time, and how many steps that makes.
ROWS = [
    ('tasks that load and store one cell', ['task t 3'], 10),
    ('siblings with inout at 64 cells', ['task t r1 depend inout r1'], 10),
    ('siblings with in at one cell', ['task u depend in 0'], 8),
    ('siblings without items', ['task u'], 8),
    ('across waits', ['task t 3', 'taskwait'], 11),
    ('across undeferred tasks', ['task t 3 if 0 == 1'], 10),
    ('across groups', ['taskgroup', '  task t 3', 'end'], 12),
    ('across prints', ['print r0'], 5),
]


def session(statements: Sequence[str], count: int) -> str:
    lines = ['cells 64', 'body main 0', '  let r0 0', '  let r1 0', '  while r0 < %d' % count, *['    ' + line for line in statements],
             '    let r0 r0 + 1', '    let r1 r1 + 1', '    if r1 == 64', '      let r1 0', '    end', '  end', '  taskwait', 'end',
             'body t 1', '  load r1 r0', '  let r1 r1 + 1', '  store r0 r1', 'end', 'body u 0', '  let r0 1', 'end', '---', 'run 1000000']
    return '\n'.join(lines) + '\n'


def answered(program: str, text: str) -> tuple[str, float]:
    """What the program writes, and its processor time."""
    before = os.times()
    told = subprocess.run([program, '--limit', '1000000'], input=text, stdout=subprocess.PIPE, text=True, check=True).stdout
    after = os.times()
    return told, after.children_user + after.children_system - before.children_user - before.children_system


def main() -> None:
    program = os.path.abspath(sys.argv[1])
    sizes = [int(size) for size in sys.argv[2].split(',')] if len(sys.argv) > 2 else [1000, 2000, 10000]
    for name, statements, steps in ROWS:
        if len(sys.argv) > 3 and sys.argv[3] not in name:
            continue
        for size in sizes:
            text = session(statements, size // steps)
            told, _ = answered(program, text + 'hist\n')
            names = [line.split(' ')[0] for line in told[told.rindex('\nhist ') + 1:].splitlines()[1:]]
            _, alone = answered(program, text)
            _, taken = answered(program, text + ''.join('causes %s\n' % name for name in names))
            print('%s: %d steps: %.2f s' % (name, len(names), taken - alone), flush=True)


if __name__ == '__main__':
    main()
