#!/usr/bin/env python3
"""Uses the built program as no friend would: streams that fail at each byte, memory refused at each
allocation, threads that can't begin, sizes at and over the limits, and bytes that are no session.

    tools/hostile.py [--program P] [--texts N] [--seed S] [--levels L] [--jobs J] [--quick]

`--texts`: so many random byte strings as programs, as many as commands, and as many changed sessions.
`--levels`: how deep the tasks nest. `--quick` takes every seventeenth byte and allocation in place of each.
The last line counts the kinds of checks.
"""
import argparse
import functools
import os
import random
import resource
import subprocess
import sys
import tempfile
import time
from collections.abc import Callable, Iterable, Mapping, Sequence
from concurrent.futures import ThreadPoolExecutor
from typing import NamedTuple, TypeVar

from hostile_sessions import DIVIDER, TOP, built_library, every_command, is_answer, judge_workers, of_workers, session_of

SMALL_STACK = 256 << 10
NOTHING: Mapping[str, int] = {}

Given = TypeVar('Given')
Said = tuple[int, bytes, bytes]


class Program:
    """The program under test, run with the library that refuses."""

    def __init__(self, path: str, library: str) -> None:
        self.path, self.library = path, library

    def run(self, text: bytes, words: Sequence[str] = (), within: Callable[[], None] | None = None, refusals: Mapping[str, int] = NOTHING) -> Said:
        there = dict(os.environ, **{name: str(value) for name, value in refusals.items()})
        if refusals:
            there['LD_PRELOAD'] = self.library
        done = subprocess.run([self.path, *words], input=text, capture_output=True, env=there, timeout=600, preexec_fn=within, check=False)
        return done.returncode, done.stdout, done.stderr


class Count:
    """How many checks there were of each kind, and in which of them one was wrong."""

    def __init__(self, jobs: int) -> None:
        self.jobs = jobs
        self.checks: dict[str, int] = {}
        self.wrong: set[str] = set()

    def check(self, kind: str, right: bool, what: object = '') -> None:
        self.checks[kind] = self.checks.get(kind, 0) + 1
        if not right:
            self.wrong.add(kind)
            print('wrong: %s %s' % (kind, str(what)[:400]), flush=True)

    def in_parallel(self, check: Callable[[Given], None], numbers: Iterable[Given]) -> None:
        with ThreadPoolExecutor(max_workers=self.jobs) as pool:
            list(pool.map(check, numbers))

    def report(self) -> None:
        """Prints how often each kind was checked, and ends with status 1 where one was wrong."""
        for kind, checks in self.checks.items():
            print('%8d %s%s' % (checks, kind, ', some wrong' if kind in self.wrong else ''))
        print('%d checks' % sum(self.checks.values()))
        print('%d passed, %d failed' % (len(self.checks) - len(self.wrong), len(self.wrong)))
        sys.exit(1 if self.wrong else 0)


def writes(program: Program, count: Count, stride: int) -> None:
    """What was written is a beginning of the whole, as long as the sink was; then status 3."""
    text = every_command()
    whole = program.run(text)[1]
    for name in ('REFUSE_WRITE', 'EMPTY_WRITE'):
        def check(number: int) -> None:
            said = program.run(text, refusals={name: number})
            count.check(name, said == (3, whole[:number], b'taskback: write\n'), (number, said))
        count.in_parallel(check, range(0, len(whole), stride))
        count.check(name, program.run(text, refusals={name: len(whole)}) == (0, whole, b''))


def reads(program: Program, count: Count, stride: int) -> None:
    """What was read whole is answered; a reader that fails within the program leaves nothing written."""
    text = every_command()
    start = text.index(DIVIDER) + len(DIVIDER)

    def check(number: int) -> None:
        answered = program.run(text[:text.rindex(b'\n', 0, number) + 1])[1] if number >= start else b''
        said = program.run(text, refusals={'REFUSE_READ': number})
        count.check('REFUSE_READ', said == (3, answered, b'taskback: read\n'), (number, said))

    count.in_parallel(check, range(0, len(text) + 1, stride))
    faulty = text.replace(b'body main 0', b'bodi main 0', 1)
    said = program.run(faulty, refusals={'REFUSE_READ': start - 3})
    count.check('a read that fails after a faulty line', said == (3, b'', b'taskback: read\n'), said)


def short(program: Program, count: Count, _: object) -> None:
    """Byte by byte, the replies are the same."""
    text = every_command()
    count.check('a byte at a time', program.run(text, refusals={'SHORT': 1}) == program.run(text))


def memory(program: Program, count: Count, stride: int) -> None:
    """Each allocation refused in turn: the whole output, or whole lines of it and then status 3."""
    text = every_command()
    whole = program.run(text)[1]
    calls = int(program.run(text, refusals={'REFUSE': 0, 'REFUSE_COUNT': 1})[2].split()[-1])

    def check(number: int) -> None:
        said = program.run(text, refusals={'REFUSE': number})
        count.check('REFUSE', is_answer(whole, *said), (number, said))

    count.in_parallel(check, range(1, calls + 2, stride))


def threads(program: Program, count: Count, _: object) -> None:
    """Where only some threads can begin, or none, workers that have one execute the steps, or the session does."""
    text = of_workers(4)
    is_right = judge_workers(program.path, text)
    for number in range(1, 9):
        said = program.run(text, refusals={'REFUSE_THREADS': number})
        count.check('REFUSE_THREADS', is_right(*said), (number, said))


def streams(program: Program, count: Count, _: object) -> None:
    """A full disk, a closed pipe, closed standard streams, a folder for a file."""
    session = os.path.join(TOP, 'examples/race.session')
    cases = [
        ('> /dev/full', 3, b'taskback: write\n'), ('>&-', 3, b'taskback: write\n'), ('<&-', 3, b'taskback: read\n'),
        ('< /', 3, b'taskback: read\n'), ('<&- >&-', 3, b'taskback: read\n'),
        ('2>&- > /dev/full', 3, b''), ('2>&- <&-', 3, b''), ('--limit 2 > /dev/full', 3, b'taskback: write\n')]
    for words, status, said in cases:
        into = '' if '<' in words else '< "$1" '
        done = subprocess.run(['bash', '-c', '"$0" %s %s' % (into, words), program.path, session], capture_output=True, timeout=60)
        count.check(words, (done.returncode, done.stderr) == (status, said), done)
    for word in ('--help', '--version'):
        done = subprocess.run(['bash', '-c', '"$0" %s > /dev/full' % word, program.path], capture_output=True, timeout=60)
        count.check(word + ' into a full disk', (done.returncode, done.stderr) == (3, b'taskback: write\n'), done)
    text = session_of('examples/race.session') + b'hist\n' * 20000
    with tempfile.NamedTemporaryFile() as long:
        long.write(text)
        long.flush()
        done = subprocess.run(['bash', '-c', '"$0" < "$1" | head -c 1; echo "${PIPESTATUS[0]}"', program.path, long.name], capture_output=True, timeout=60)
    count.check('a closed pipe', (done.stdout, done.stderr) == (b'03\n', b''), done)


def bounded(megabytes: int, stack: int | None = None) -> None:
    """Runs in the child before the program: it may have so much memory, and so much stack."""
    resource.setrlimit(resource.RLIMIT_AS, (megabytes << 20, megabytes << 20))
    if stack:
        resource.setrlimit(resource.RLIMIT_STACK, (stack, stack))


def refusal(program: Program, count: Count, name: str, text: bytes, said: bytes) -> None:
    """The text is refused as a program with this line."""
    status, out, err = program.run(text, within=functools.partial(bounded, 256))
    count.check(name, (status, out, err) == (1, b'', b'taskback: %s\n' % said), (status, out[:80], err[:80]))


class Wanted(NamedTuple):
    """A session, the last lines of its replies, its options, and the time, memory and stack that it may have."""

    text: bytes
    lines: bytes
    words: Sequence[str] = ()
    seconds: float = 60
    megabytes: int = 256
    stack: int | None = None


def accepted(program: Program, count: Count, name: str, wanted: Wanted) -> None:
    """The session ends with status 0 and these last lines, within its time and memory."""
    began = time.monotonic()
    status, out, err = program.run(wanted.text, wanted.words, within=functools.partial(bounded, wanted.megabytes, wanted.stack))
    took = time.monotonic() - began
    right = (status, err) == (0, b'') and out.endswith(wanted.lines) and took < wanted.seconds
    count.check(name, right, (status, out[-200:], err, '%.1f s' % took))


def sizes(program: Program, count: Count, _: object) -> None:
    """Sizes at the limits, and one over each."""
    loop = b'cells 0\nbody main 0\nwhile 0 < 1\nlet r0 r0 + 1\nend\nend\n---\n'
    entries = loop + b'run 999999\nstep 0\n'
    accepted(program, count, 'a journal of 1,000,000 entries', Wanted(entries, b'ran 999999 limit\nrefused 7 Full\n', ('--limit', '1000000'), megabytes=512))
    lines = b'cells 0\nbody main 0\n' + b'let r0 1\n' * 65533
    accepted(program, count, '65,536 lines', Wanted(lines + b'end\n---\nrun 65536\n', b'ran 65535 done\n'))
    refusal(program, count, '65,537 lines', lines + b'let r0 1\nend\n---\n', b'line 65537: TooLarge')
    bodies = b'cells 0\nbody main 0\nend\n' + b''.join(b'body b%d 0\nend\n' % k for k in range(1023))
    accepted(program, count, '1,024 bodies', Wanted(bodies + b'---\nrun 9\n', b'ran 2 done\n'))
    refusal(program, count, '1,025 bodies', bodies + b'body last 0\nend\n---\n', b'line 2050: TooLarge')
    cells = b'body main 0\nstore 65535 7\nend\n---\nrun 9\ncells\n'
    accepted(program, count, '65,536 cells', Wanted(b'cells 65536\n' + cells, b'cells 65536\n65535 7\n'))
    refusal(program, count, '65,537 cells', b'cells 65537\n' + cells, b'line 1: TooLarge')
    items = b' depend inout 0' * 64
    task = b'cells 1\nbody main 0\ntask t%s\nend\nbody t 0\nend\n---\nrun 9\n'
    accepted(program, count, '64 items', Wanted(task % items, b'ran 5 done\n'))
    refusal(program, count, '65 items', task % (items + b' depend in 0'), b'line 3: TooLarge')
    wide = b'step 0\n' + b'x' * 10_000_000 + b'\nstep 0\n'
    accepted(program, count, 'a line of 10 MB', Wanted(loop + wide, b'0#1 start\nerror line\n0#2 test yes\n'))
    refusal(program, count, 'a line of 10 MB in the program', b'cells 0\n#' + b'x' * 10_000_000 + b'\n', b'line 2: TooLarge')


def levels(program: Program, count: Count, depth: int) -> None:
    """Tasks that each generate the next: views and rollbacks, with a stack that wouldn't do for a call a level, and with less memory
    than their replies have bytes."""
    nested = b'cells 0\nbody main 0\ntask a %d\nend\nbody a 1\nif 0 < r0\nlet r1 r0 - 1\ntask a r1\nend\nend\n---\nrun 1000000\n'
    begin = nested % depth
    last = b'0' + b'.1' * (depth + 1)
    # A line of 1,024 bytes can't name the deepest.
    named_depth = min(depth + 1, 400)
    named = b'0' + b'.1' * named_depth
    spawner, spawned = named[:-2] + b'#4', b' spawn %s a %d\n' % (named, depth + 1 - named_depth)
    left = b'hist 3\n0#1 start\n0#2 spawn 0.1 a %d\n0#3 end\n' % depth
    for view, lines in (
            (b'tasks', last + b' a ended\n'), (b'task ' + named, b'items 0\n'), (b'hist', last + b'#3 end\n'), (b'ready\nwaits', b'ready 0\nwaits 0\n'),
            (b'why ' + named + b'#1', spawner + spawned), (b'causes ' + named + b'#1', spawner + spawned), (b'who ' + spawner, last + b'#3 end\n'),
            (b'rolltask ' + named, last + b'#3 end\n'), (b'rolltask 0.1\nhist', left)):
        accepted(program, count, 'tasks %d levels deep' % depth, Wanted(begin + view + b'\n', lines, seconds=600, megabytes=64, stack=SMALL_STACK))
    # Their names want more than 16 MB: what is written is a beginning of the run, line by line.
    status, output, error = program.run(nested % 100_000, ('--limit', '1000000'), functools.partial(bounded, 16, SMALL_STACK))
    last_line = output[output.rfind(b'\n', 0, -1) + 1:]
    is_beginning = output.startswith(b'0#1 start\n') and output.endswith(b'\n') and last_line.startswith(b'0.1.1.1')
    count.check('tasks 100,000 levels deep want more than 16 MB', is_beginning and (status, error) == (3, b'taskback: memory\n'),
                (status, error, len(output), last_line[-40:]))


def random_bytes(r: random.Random) -> bytes:
    return bytes(r.randrange(256) for _ in range(r.choice([1, 10, 100, 1000])))


def changed(r: random.Random, session: bytes) -> bytes:
    """The session with some of its bytes replaced, lost or doubled."""
    text = bytearray(session)
    for _ in range(r.choice([1, 2, 5, 20])):
        at = r.randrange(len(text))
        size = r.choice([0, 1, 1, 5, 40])
        new = bytes(r.choice(b'0123456789#.-+ \n\tabcdefghijklmnopqrstuvwxyz\x00\xff') for _ in range(r.choice([0, 1, 1, 3])))
        text[at:at + size] = r.choice([new, bytes(text[at:at + size]) * 2])
        text = text or bytearray(b'\n')
    return bytes(text)


def texts(program: Program, count: Count, number: int, seed: int) -> None:
    """Random bytes as programs and as commands, and random changes of sessions: all replies, or a program refused."""
    r = random.Random(seed)
    stored = [session_of('examples/' + name) for name in sorted(os.listdir(os.path.join(TOP, 'examples'))) if name.endswith('.session')]
    bodies = [text.split(DIVIDER)[0] + DIVIDER for text in stored]

    def check(given: tuple[str, bytes]) -> None:
        kind, text = given
        status, out, err = program.run(text, ('--limit', '20000'))
        right = {0: err == b'', 1: kind != 'random commands' and out == b'' and err.startswith(b'taskback: line ')}
        count.check(kind, right.get(status, False), (status, err, text))

    kinds: dict[str, Callable[[], bytes]] = {
        'random programs': lambda: random_bytes(r), 'random commands': lambda: r.choice(bodies) + random_bytes(r),
        'changed sessions': lambda: changed(r, r.choice(stored))}
    for kind, text in kinds.items():
        count.in_parallel(check, ((kind, text()) for _ in range(number)))


def main() -> None:
    args = argparse.ArgumentParser(description=__doc__, formatter_class=argparse.RawDescriptionHelpFormatter)
    args.add_argument('--program', default=os.path.join(TOP, 'crates/taskback/out/taskback'))
    args.add_argument('--texts', type=int, default=20000)
    args.add_argument('--seed', type=int, default=1)
    args.add_argument('--levels', type=int, default=4000)
    args.add_argument('--jobs', type=int, default=os.cpu_count())
    args.add_argument('--quick', action='store_true')
    given = args.parse_args()
    count = Count(given.jobs)
    stride = 17 if given.quick else 1
    with tempfile.TemporaryDirectory() as folder:
        program = Program(os.path.abspath(given.program), built_library(folder))
        parts: list[tuple[Callable[[Program, Count, int], None], int]] = [
            (writes, stride), (reads, stride), (short, stride), (memory, stride), (threads, stride), (streams, stride), (sizes, stride), (levels, given.levels)]
        for part, argument in parts:
            began = time.monotonic()
            part(program, count, argument)
            print('%s: %.0f s' % (part.__name__, time.monotonic() - began), flush=True)
        texts(program, count, given.texts, given.seed)
    count.report()


if __name__ == '__main__':
    main()
