#!/usr/bin/env python3
"""Compares the judge of recorded runs with another implementation, and with sessions, on random run texts.

    tools/compare_runs.py [--program 'COMMAND'] [--other 'COMMAND'] [--session 'COMMAND'] [--count N] [--seed S] [--jobs J]
                          [--most-steps M] [--unchanged] [--keep DIR]

A text is what a random session took in up to M steps, in an order by chance, as its `hist` has it. Every second one is changed:
two events are exchanged, one is moved, left out, doubled, or gets another number or task, or a word or a byte is spoilt. The commands of
`--program` and of `--other` get it on standard input; output, standard error and exit status are compared. Of a text that isn't
changed the report has to be what the session says: its `hist`, its `tasks`, its `races`. `--unchanged` changes none.
A file of Python that has a function `report` (bytes to output, standard error and status) is called in the process.
Texts on which two differ are kept in DIR. The status is 1 where there is one.
"""
import argparse
import collections
import functools
import importlib.util
import os
import random
import shlex
import subprocess
import sys
from collections.abc import Callable
from concurrent.futures import ProcessPoolExecutor
from typing import NamedTuple

from run_texts import CHANGES, changed, kinds_of, recorded, spelled

TOP = os.path.join(os.path.dirname(os.path.abspath(__file__)), '..')

# Output, standard error and status.
Answer = tuple[bytes, bytes, int]
Judge = Callable[[bytes], Answer]


class Settings(NamedTuple):
    """What the command line says."""

    program: str
    other: str
    session: str
    most: int
    changes: bool


class Compared(NamedTuple):
    """A text, its change if it has one, its steps, what the program answers, and what differs from that."""

    seed: int
    change: str
    steps: int
    text: bytes
    mine: Answer
    wrong: dict[str, Answer]


@functools.cache
def judge_of(command: str) -> Judge:
    """A function from a text to the command's answer."""
    if command.endswith('.py') and os.path.isfile(command):
        found = importlib.util.spec_from_file_location('judge_of_runs_%d' % hash(command), command)
        assert found and found.loader
        module = importlib.util.module_from_spec(found)
        found.loader.exec_module(module)
        sys.setrecursionlimit(20000)

        def report(text: bytes) -> Answer:
            out, err, status = module.report(text)
            return out.encode(), err.encode(), status

        return report

    def run(text: bytes) -> Answer:
        done = subprocess.run(shlex.split(command), input=text, capture_output=True, timeout=600, check=False)
        return done.stdout, done.stderr, done.returncode

    return run


def compare(given: Settings, seed: int) -> Compared:
    """Makes the seed's text, and asks all about it."""
    r = random.Random(seed)
    run = recorded(shlex.split(given.session), r, given.most)
    change = r.choice(CHANGES) if given.changes and seed % 2 else ''
    text = changed(r, run, change) if change else spelled(r, run, run.events)
    mine = judge_of(given.program)(text)
    answers: dict[str, Answer] = {}
    if given.other:
        answers['other'] = judge_of(given.other)(text)
    if not change:
        answers['session'] = run.report, b'', run.status
    return Compared(seed, change, len(run.events), text, mine, {name: it for name, it in answers.items() if it != mine})


def store(folder: str, compared: Compared) -> None:
    """Writes the text, and says how the answers differ."""
    os.makedirs(folder, exist_ok=True)
    path = os.path.join(folder, '%d.run' % compared.seed)
    with open(path, 'wb') as file:
        file.write(compared.text)
    print('seed %d (%s) differs, %s:\n  program %r' % (compared.seed, compared.change or 'unchanged', path, compared.mine))
    for name, answer in compared.wrong.items():
        print('  %-7s %r' % (name, answer), flush=True)


def read_words() -> argparse.Namespace:
    """The command line."""
    args = argparse.ArgumentParser(description=__doc__, formatter_class=argparse.RawDescriptionHelpFormatter)
    args.add_argument('--program', default=os.environ.get('TASKBACK_TASKCHECK', os.path.join(TOP, 'crates/taskcheck/out/taskcheck')))
    args.add_argument('--other', default='')
    args.add_argument('--session', default=os.environ.get('TASKBACK_PROGRAM', os.path.join(TOP, 'crates/taskback/out/taskback')))
    args.add_argument('--count', type=int, default=2000)
    args.add_argument('--seed', type=int, default=1)
    args.add_argument('--jobs', type=int, default=os.cpu_count())
    args.add_argument('--most-steps', type=int, default=60)
    args.add_argument('--unchanged', action='store_true')
    args.add_argument('--keep', default='differing')
    return args.parse_args()


def main() -> None:
    words = read_words()
    given = Settings(words.program, words.other, words.session, max(4, words.most_steps), not words.unchanged)
    kinds: collections.Counter[str] = collections.Counter()
    texts: collections.Counter[str] = collections.Counter()
    differing = longest = 0
    with ProcessPoolExecutor(max_workers=words.jobs) as pool:
        for it in pool.map(functools.partial(compare, given), range(words.seed, words.seed + words.count), chunksize=4):
            kinds.update(kinds_of(it.mine[0], it.mine[1]))
            texts[it.change or 'unchanged'] += 1
            longest = max(longest, it.steps)
            if it.wrong:
                differing += 1
                store(words.keep, it)
    for counted in (kinds, texts):
        for kind, count in sorted(counted.items()):
            print('%8d %s' % (count, kind))
    print('%d texts, %d of them changed, up to %d steps: %d differences' % (words.count, words.count - texts['unchanged'], longest, differing))
    sys.exit(1 if differing else 0)


if __name__ == '__main__':
    main()
