#!/usr/bin/env python3
"""Refuses each allocation in turn: of the tests whose name says `refused_growth`, and of whole sessions.

    tools/refuse_memory.py [--program P] [--wants-tests] [SESSION..]    after `rt ci`, or `rt test` in each crate and `./run` once

Without a session these are the examples, two stored cases, one for each view of three programs, and a sum
by one worker and by four. The tests are those in the crates' out/; with `--wants-tests` it
has failed where there are none.
A test has to pass whichever allocation fails: it makes a refused call again, and asks that nothing
had changed. A session has to give its whole output, or a beginning of it that ends with a whole
line, and then `taskback: memory` and status 3; of four workers the steps have to be those that one
worker can take in this order. The last line counts tests and sessions.
"""
import argparse
import glob
import os
import re
import subprocess
import sys
import tempfile
from collections.abc import Iterator, Sequence

from hostile_sessions import TOP, Judge, built_library, judge, judge_workers, of_workers, session_of, views


def run(command: Sequence[str], library: str, number: int, text: bytes = b'') -> tuple[int, bytes, bytes, int | None]:
    there = dict(os.environ, LD_PRELOAD=library, REFUSE=str(number), REFUSE_COUNT='1')
    done = subprocess.run(command, input=text, capture_output=True, env=there, timeout=120)
    found = re.search(rb'calls (\d+)\n', done.stderr)
    calls = int(found.group(1)) if found else None
    return done.returncode, done.stdout, re.sub(rb'calls \d+\n', b'', done.stderr), calls


def refuse_each(name: str, command: Sequence[str], library: str, is_right: Judge, text: bytes = b'') -> int:
    """Counts upwards until a run meets no refusal, and returns how many were wrong."""
    number = wrong = 0
    while True:
        number += 1
        status, out, err, calls = run(command, library, number, text)
        if not is_right(status, out, err):
            wrong += 1
            print('%s: wrong where allocation %d is refused: status %d, %r %r' % (name, number, status, out[-200:], err[-200:]))
        if calls is not None and calls < number:
            if number == 1:
                wrong += 1
                print('%s: wrong, since nothing was there to be refused' % name)
            print('%s: %d allocations refused in turn, %d wrong' % (name, number - 1, wrong), flush=True)
            return wrong


def stored_sessions() -> list[str]:
    stored = ('sums_that_exclude_each_other', 'views_of_order_and_exclusion')
    rows = [os.path.join(TOP, 'crates/tb_session_rows/data', name + '.session') for name in stored]
    return sorted(glob.glob(os.path.join(TOP, 'examples/*.session'))) + rows


def sessions(program: str, named: Sequence[str]) -> Iterator[tuple[str, bytes, Judge]]:
    """Each session, with what it shows and what judges whether an answer to it is right."""
    for name in [os.path.abspath(name) for name in named] or stored_sessions():
        text = session_of(name)
        yield os.path.basename(name), text, judge(program, text)
    if named:
        return
    for name, text in views():
        yield name, text, judge(program, text)
    yield 'a sum by one worker', of_workers(1), judge(program, of_workers(1))
    yield 'a sum by four workers', of_workers(4), judge_workers(program, of_workers(4))


def tests_of_growth() -> Iterator[tuple[str, str]]:
    """The tests of refused growth, each with the file that runs it."""
    for tests in sorted(glob.glob(os.path.join(TOP, 'crates/*/out/*_tests'))):
        listed = subprocess.run([tests, '--list'], capture_output=True, text=True, check=True).stdout
        for test in re.findall(r'[\w:]*refused_growth\w*', listed):
            yield tests, test


def main() -> None:
    args = argparse.ArgumentParser(description=__doc__, formatter_class=argparse.RawDescriptionHelpFormatter)
    args.add_argument('--program', default=os.path.join(TOP, 'crates/taskback/out/taskback'))
    args.add_argument('--wants-tests', action='store_true')
    args.add_argument('sessions', nargs='*')
    given = args.parse_args()
    program = os.path.abspath(given.program)
    found: list[int] = []
    with tempfile.TemporaryDirectory() as folder:
        library = built_library(folder)
        for tests, test in tests_of_growth():
            found.append(refuse_each(test, [tests, test], library, lambda status, out, err: status == 0))
        print('%d tests had memory refused' % len(found))
        if given.wants_tests and not found:
            found.append(1)
        for name, text, is_right in sessions(program, given.sessions):
            found.append(refuse_each(name, [program], library, is_right, text))
    failed = sum(1 for wrong in found if wrong)
    print('%d passed, %d failed' % (len(found) - failed, failed))
    sys.exit(1 if failed else 0)


if __name__ == '__main__':
    main()
