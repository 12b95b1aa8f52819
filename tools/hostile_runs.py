#!/usr/bin/env python3
"""Uses the judge of recorded runs as no friend would: reads and writes that fail at each byte, memory refused at each allocation,
closed and full streams, files that can't be read, names and lines at the limits and over, half a line, and bytes that are no run.

    tools/hostile_runs.py [--program P] [--texts N] [--seed S] [--levels L] [--jobs J] [--quick]

`--texts`: so many random byte strings, and as many changed run texts. `--levels`: how deep tasks nest. `--quick` takes every
seventeenth byte and allocation in place of each. The last line counts the kinds of checks.
"""
import argparse
import functools
import glob
import os
import random
import subprocess
import tempfile
import time
from collections.abc import Callable

from hostile import Count, Program, Said, bounded, changed, random_bytes
from hostile_sessions import TOP, built_library

# A run with each kind of event, of which two tasks haven't ended, with a race at a cell and one of prints.
RUN = b'''cells 3
cell 1 -5
hist 31
0#1 start
0#2 open
0#3 spawn 0.1 fill 7 depend out 0
0#4 spawn 0.2 fill depend inoutset 0 depend mutexinoutset 1
0.1#1 start  # a.c:12
0#5 spawn 0.3 late undeferred
0.3#1 start
0.3#2 let r1 -3
0.3#3 test no
0.3#4 print 4
0.3#5 end
0.1#2 store 0 7
0.1#3 store 2 1
0.1#4 spawn 0.1.1 deep
0.1#5 end
0.2#1 start
0.2#2 load r0 2 1
0.2#3 fault
0.1.1#1 start
0.1.1#2 spawn 0.1.1.1 deeper
0.1.1.1#1 start
0.1.1.1#2 store 2 2
0.1.1.1#3 end
0.1.1#3 wait
0.1.1#4 print 5
0.1.1#5 end
0#6 close
0#7 spawn 0.4 left depend in 0
0#8 wait depend in 1
0#9 test yes
0#10 spawn 0.5 left
'''
REPORT = b'legal 31\nunended 3\n0\n0.4\n0.5\nraces 2\n0.2#2 0.1.1.1#2 cell 2\n0.3#4 0.1.1#4 print\n'
WHOLE = 2, REPORT, b''
# A run whose third event is refused, and then a fault.
REFUSED = b'cells 0\n0 start\n0.1 start\nbroken\n'


def halted(why: bytes) -> Said:
    """What is said where there is no report."""
    return 3, b'', b'taskcheck: ' + why + b'\n'


def answers(program: Program, count: Count, _: int) -> None:
    """The run as it is, from standard input and from a file, and a byte at a time."""
    with tempfile.NamedTemporaryFile() as file:
        file.write(RUN)
        file.flush()
        said = program.run(b'', (file.name,))
        count.check('a file', said == WHOLE, said)
        said = program.run(b'', (file.name,), refusals={'REFUSE_READ': 0})
        count.check('a file, where standard input fails', said == WHOLE, said)
    for most in (1, 7, 100_000):
        said = program.run(RUN, refusals={'SHORT': most})
        count.check('short reads and writes', said == WHOLE, (most, said))


def writes(program: Program, count: Count, stride: int) -> None:
    """What was written is a beginning of the report, as long as the sink was; then status 3."""
    for name in ('REFUSE_WRITE', 'EMPTY_WRITE'):
        def check(number: int) -> None:
            said = program.run(RUN, refusals={name: number})
            count.check(name, said == (3, REPORT[:number], b'taskcheck: write\n'), (number, said))
        count.in_parallel(check, range(0, len(REPORT), stride))
        count.check(name, program.run(RUN, refusals={name: len(REPORT)}) == WHOLE)


def reads(program: Program, count: Count, stride: int) -> None:
    """A reader that fails leaves nothing written, but after a line that is refused, since no more is read then."""
    def check(number: int) -> None:
        said = program.run(RUN, refusals={'REFUSE_READ': number})
        count.check('REFUSE_READ', said == halted(b'read'), (number, said))

    count.in_parallel(check, range(0, len(RUN) + 1, stride))
    end = REFUSED.index(b'broken')
    for number in range(len(REFUSED) + 1):
        said = program.run(REFUSED, refusals={'REFUSE_READ': number})
        wanted = (1, b'line 3: refused 1 NoSuchTask\n', b'') if number >= end else halted(b'read')
        count.check('a read that fails after a refused line', said == wanted, (number, said))


def memory(program: Program, count: Count, stride: int) -> None:
    """Each allocation refused in turn: the report, or none and status 3. So for a file, and for other words."""
    with tempfile.NamedTemporaryFile() as file:
        file.write(RUN)
        file.flush()
        for kind, text, words in (('REFUSE', RUN, ()), ('REFUSE, with a file', b'', (file.name,)), ('REFUSE, with wrong words', b'', ('a', 'b'))):
            whole = program.run(text, words)
            calls = int(program.run(text, words, refusals={'REFUSE': 0, 'REFUSE_COUNT': 1})[2].split()[-1])

            def check(number: int) -> None:
                said = program.run(text, words, refusals={'REFUSE': number})
                count.check(kind, said in (whole, halted(b'memory')), (number, said))

            count.in_parallel(check, range(1, calls + 2, stride))


def streams(program: Program, count: Count, _: int) -> None:
    """A full disk, a closed pipe, closed standard streams, an endless line, and what is no file."""
    with tempfile.TemporaryDirectory() as folder:
        run, long = os.path.join(folder, 'a.run'), os.path.join(folder, 'long.run')
        with open(run, 'wb') as file:
            file.write(RUN)
        with open(long, 'wb') as file:
            file.write(b'cells 0\n0 start\n' + b''.join(b'0 spawn 0.%d t\n' % k for k in range(1, 50001)))
        missing = os.path.join(folder, 'no.run')
        cases = [
            ('> /dev/full < "$1"', halted(b'write')), ('>&- < "$1"', halted(b'write')), ('<&-', halted(b'read')), ('< /', halted(b'read')), ('/', halted(b'read')),
            ('<&- >&-', halted(b'read')), ('2>&- > /dev/full < "$1"', (3, b'', b'')), ('2>&- <&-', (3, b'', b'')), ('"$1" > /dev/full', halted(b'write')),
            ('"$1" <&-', WHOLE), ('< /dev/zero', halted(b'line 1: TooLarge')), ('/dev/zero', halted(b'line 1: TooLarge')), ('< /dev/null', halted(b'line 1: NoCells')),
            ('"$2"', halted(missing.encode() + b': No such file or directory (os error 2)')), ('""', halted(b': No such file or directory (os error 2)')),
            ('"$1/b"', halted(run.encode() + b'/b: Not a directory (os error 20)')), ('2>&- "$2"', (3, b'', b'')),
            ('--help > /dev/full', halted(b'write')), ('--version > /dev/full', halted(b'write')), ('--help | head -c 0; exit ${PIPESTATUS[0]}', None),
            ('"$3" | head -c 1; exit ${PIPESTATUS[0]}', (3, b'l', b''))]
        for words, wanted in cases:
            command = '"$0" %s' % words
            done = subprocess.run(['bash', '-c', command, program.path, run, missing, long], capture_output=True, stdin=subprocess.DEVNULL, timeout=60, check=False)
            said = done.returncode, done.stdout, done.stderr
            # Whether the help is written before its reader is gone is luck.
            count.check(words, said == wanted if wanted else said in ((0, b'', b''), (3, b'', b'')), said)
    for word in (b'\xff', b'a\xc0'):
        done = subprocess.run([program.path.encode(), word], capture_output=True, stdin=subprocess.DEVNULL, timeout=60, check=False)
        count.check('words that are no text', (done.returncode, done.stdout) == (64, b'') and b'invalid UTF-8' in done.stderr, done)


class Wanted:
    """What a text is answered, within how many megabytes, seconds, and bytes of stack."""

    def __init__(self, said: Said, megabytes: int = 64, seconds: float = 60, stack: int = 256 << 10) -> None:
        self.said, self.megabytes, self.seconds, self.stack = said, megabytes, seconds, stack


def judged(program: Program, count: Count, name: str, text: bytes, wanted: Wanted) -> None:
    began = time.monotonic()
    said = program.run(text, within=functools.partial(bounded, wanted.megabytes, wanted.stack))
    took = time.monotonic() - began
    count.check(name, said == wanted.said and took < wanted.seconds, (said[0], said[1][-200:], said[2], '%.1f s' % took))


def sizes(program: Program, count: Count, _: int) -> None:
    """Sizes at the limits, and one over each."""
    begin = b'cells 1\n0 start\n'
    fine = 3, b'legal 1\nunended 1\n0\nraces 0\n', b''
    for size, said in ((65535, fine), (65536, halted(b'line 3: TooLarge')), (10_000_000, halted(b'line 3: TooLarge'))):
        for line in (b'#' + b'x' * (size - 1), b' ' * size, b'#' + b'\xff' * (size - 1)):
            judged(program, count, 'a line of %d bytes' % size, begin + line + b'\n', Wanted(said))
    deep = b'0' + b'.1' * 10000
    judged(program, count, 'a name of 10,000 levels', begin + deep + b' start\n', Wanted((1, b'line 3: refused 1 NoSuchTask\n', b'')))
    judged(program, count, 'a child of 10,000 levels', begin + b'0 spawn %s t\n' % deep, Wanted((1, b'line 3: refused 17 Child 0.1\n', b'')))
    longest = b'0' + b'.1' * 32764
    judged(program, count, 'a name as long as a line', begin + longest + b' start\n', Wanted((1, b'line 3: refused 1 NoSuchTask\n', b'')))
    judged(program, count, 'a name longer than a line', begin + longest + b'.11 start\n', Wanted(halted(b'line 3: TooLarge')))
    numbers = b'0#%d start' % 4294967295
    judged(program, count, 'a step with a great number', begin + numbers, Wanted((1, b'line 3: refused 19 Step 2\n', b'')))
    most = b'cells 134217728\ncell 134217727 5\n0 start\n0 load r0 134217727 5\n0 store 134217727 6\n0 end\n'
    judged(program, count, 'most cells, one of them named', most, Wanted((0, b'legal 4\nunended 0\nraces 0\n', b'')))
    judged(program, count, 'one cell more', most.replace(b'728', b'729', 1), Wanted(halted(b'line 1: TooLarge')))
    for last, said in ((b'', fine), (b' 7' * 16, fine), (b' 7' * 17, halted(b'line 3: TooLarge'))):
        text = begin + b'0 spawn 0.1 t' + last + b'\n'
        wanted = (3, b'legal 2\nunended 2\n0\n0.1\nraces 0\n', b'') if said == fine else said
        judged(program, count, 'arguments of a spawn', text, Wanted(wanted))
    for items, wanted in ((64, (3, b'legal 2\nunended 1\n0\nraces 0\n', b'')), (65, halted(b'line 3: TooLarge'))):
        judged(program, count, '%d items' % items, begin + b'0 wait' + b' depend in 0' * items + b'\n', Wanted(wanted))


def levels(program: Program, count: Count, depth: int) -> None:
    """Tasks that each generate the next, with a stack that wouldn't do for a call a level."""
    lines, name = [b'cells 0'], b'0'
    for _ in range(depth):
        lines += [name + b' start', name + b' spawn ' + name + b'.1 t']
        name += b'.1'
    unended = b'\n'.join(b'0' + b'.1' * level for level in range(depth + 1))
    said = 3, b'legal %d\nunended %d\n%s\nraces 0\n' % (2 * depth, depth + 1, unended), b''
    judged(program, count, 'tasks %d levels deep' % depth, b'\n'.join(lines), Wanted(said, seconds=600, megabytes=128))


def halves(program: Program, count: Count, stride: int) -> None:
    """A text that ends within a line: it is judged as if a line feed came, and what is in front of the line stays as it was."""
    def check(number: int) -> None:
        text = RUN[:number]
        said = program.run(text)
        count.check('half a line', said == program.run(text + b'\n'), (number, said))
        count.check('half a line is no crash', said[0] in (0, 1, 2, 3), (number, said))

    count.in_parallel(check, range(0, len(RUN), stride))


def is_answer(status: int, out: bytes, err: bytes) -> bool:
    """Whether this may be said of a text that nothing is known of."""
    if status == 1:
        return out.startswith(b'line ') and b': refused ' in out and out.count(b'\n') == 1 and err == b''
    if err:
        return status == 3 and out == b'' and err.startswith(b'taskcheck: line ') and err.count(b'\n') == 1
    return status in (0, 2, 3) and out.startswith(b'legal ') and b'\nunended ' in out and b'\nraces ' in out


def texts(program: Program, count: Count, number: int, seed: int) -> None:
    """Random bytes, and random changes of run texts."""
    r = random.Random(seed)
    stored = [RUN, REFUSED]
    for path in sorted(glob.glob(os.path.join(TOP, 'crates/tb_taskcheck_rows/data/*.run'))):
        with open(path, 'rb') as file:
            stored.append(file.read() or b'\n')

    def check(given: tuple[str, bytes]) -> None:
        kind, text = given
        said = program.run(text)
        count.check(kind, is_answer(*said), (said, text))

    kinds: dict[str, Callable[[], bytes]] = {
        'random bytes': lambda: random_bytes(r), 'random bytes after a beginning': lambda: b'cells 3\n0 start\n' + random_bytes(r),
        'changed runs': lambda: changed(r, r.choice(stored))}
    for kind, text in kinds.items():
        count.in_parallel(check, ((kind, text()) for _ in range(number)))


def main() -> None:
    args = argparse.ArgumentParser(description=__doc__, formatter_class=argparse.RawDescriptionHelpFormatter)
    args.add_argument('--program', default=os.environ.get('TASKBACK_TASKCHECK', os.path.join(TOP, 'crates/taskcheck/out/taskcheck')))
    args.add_argument('--texts', type=int, default=10000)
    args.add_argument('--seed', type=int, default=1)
    args.add_argument('--levels', type=int, default=2000)
    args.add_argument('--jobs', type=int, default=os.cpu_count())
    args.add_argument('--quick', action='store_true')
    given = args.parse_args()
    count = Count(given.jobs)
    stride = 17 if given.quick else 1
    with tempfile.TemporaryDirectory() as folder:
        program = Program(os.path.abspath(given.program), built_library(folder))
        parts: list[tuple[Callable[[Program, Count, int], None], int]] = [
            (answers, stride), (writes, stride), (reads, stride), (memory, stride), (streams, stride), (sizes, stride), (levels, given.levels), (halves, stride)]
        for part, argument in parts:
            began = time.monotonic()
            part(program, count, argument)
            print('%s: %.0f s' % (part.__name__, time.monotonic() - began), flush=True)
        texts(program, count, given.texts, given.seed)
    count.report()


if __name__ == '__main__':
    main()
