#!/usr/bin/env python3
"""Measures rollbacks on the built program.

    bench/rollbacks.py [PROGRAM]

A hundred tasks take 640 steps each, in turn, so that the steps of one stand scattered among 64,000.
Then each task is rolled back whole, and run again. And in a history of 100,000 steps two early ones
are rolled back, which nothing else needs, and taken again, a hundred times. The time of the same
session without the rollbacks is taken off; the best of three runs counts.
"""
import os
import sys
import tempfile

from steps import TOP, measure

TASKS = b'cells 0\nbody main 0\n  let r0 0\n  while r0 < 100\n    task t\n    let r0 r0 + 1\n  end\nend\n' \
    b'body t 0\n  let r0 0\n  while r0 < 318\n    let r0 r0 + 1\n  end\nend\n---\nrun 304\n'
FEW = b'cells 0\nbody main 0\n  task t\n  let r0 0\n  while r0 < 1000000\n    let r0 r0 + 1\n  end\nend\n' \
    b'body t 0\n  let r0 1\nend\n---\nstep 0\nstep 0\nstep 0.1\nstep 0.1\nstep 0.1\nrun 99995\n'


def in_turn() -> bytes:
    return b''.join(b'step 0.%d\n' % task for _ in range(640) for task in range(1, 101))


def main() -> None:
    program = os.path.abspath(sys.argv[1] if len(sys.argv) > 1 else os.path.join(TOP, 'crates/taskback/out/taskback'))
    kinds = [
        ('640 steps scattered among 64,000', TASKS + in_turn(), b''.join(b'rolltask 0.%d\nrun 640\n' % task for task in range(1, 101))),
        ('2 steps in front of 100,000', FEW, b'roll 0.1#2\nstep 0.1\nstep 0.1\n' * 100),
    ]
    with tempfile.TemporaryDirectory() as folder:
        for name, before, rollbacks in kinds:
            without, _ = measure(program, before, folder)
            taken, memory = measure(program, before + rollbacks, folder)
            print('%s: %.1f ms a rollback, with its steps taken again, %.1f MB' % (name, (taken - without) * 1000 / 100, memory / 1024))


if __name__ == '__main__':
    main()
