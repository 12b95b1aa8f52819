#!/usr/bin/env python3
"""Compares the built program with another implementation on random sessions.

    tools/compare_sessions.py --other 'COMMAND' [--program P] [--count N] [--seed S] [--keep DIR] [--seconds N]
    tools/compare_sessions.py --judge 'COMMAND' [--workers W] ..

The COMMAND of `--other` gets a session on standard input, with `--limit L` after its words, and has
to write what the program has to write: output, standard error and exit status are compared. The
COMMAND of `--judge` gets the names of files with the session and with the program's output, and then
`--err FILE --status N --workers W --limit L`, and exits with 0 where that is a right answer: so `go`
may have several workers, up to W (8 where none is given). A session that differs is kept in DIR. The
programs are of the whole language, and some have faults. The commands are all that there are, and
malformed ones among them. Most name tasks and steps that were there when the program was run on the
session so far, so that undos and rollbacks meet the middle of a history.
"""
import argparse
import collections
import os
import random
import re
import shlex
import subprocess
import sys
import tempfile
from collections.abc import Iterator, Sequence
from concurrent.futures import ThreadPoolExecutor

NUMBERS = ['0', '1', '2', '3', '-1', '-0', '007', '9', '16', '65535', '65536', '65537', '1000000',
           '9223372036854775807', '-9223372036854775808', '9223372036854775808', '4x', '+1', '-', '--1']
REGISTERS = ['r%d' % k for k in range(18)] + ['r01', 'r', 'R1', 'rr1']
NAMES = ['main', 'a', 'b', '_x1', '9x', 'x' * 32, 'x' * 33, 'é', 'body', 'end', 'task', 'if']
STRANGERS = ['fly', 'cells', 'cell', 'body', 'end', 'else', 'lett', '---', '--', 'END', 'depend', 'all', 'in']
BLANKS = [' ', '  ', '\t', ' \r', ' \t ']
TYPES = ['in', 'in', 'out', 'inout', 'mutexinoutset', 'mutexinoutset', 'inoutset']
COMPARISONS = ['==', '!=', '<', '<=']
MALFORMED = ['fly', 'step', 'step 00', 'step 0 0', 'step 0.', 'step 0.0', 'step 0.01', 'step .0', 'step 1', 'step 0.1000000',
             'step 0.1000001', 'step -0', 'undo', 'undo 0', 'undo 0#', 'undo 0#0', 'undo 0#01', 'undo 0#1000000', 'undo 0#1000001',
             'undo 0#1#1', 'undo #1', 'undo 0 #1', 'cells 1', 'out x', '---', '# step 0', 'Step 0', 'step 0.1.2.3.4.5.6.7.8.9',
             'undo 0.4.4#99999999999999999999', 'run', 'run x', 'run -1', 'run +1', 'run 1000001', 'run 1 1', 'run 0x1', 'run #1',
             'run 4294967297', 'run 18446744073709551617', 'run 0', 'run 000000000000000000000000000003', 'roll', 'roll 0', 'roll 0#0',
             'roll 0#1 2', 'rolltask', 'rolltask 0#1', 'rolltask 00', 'rollcell', 'rollcell x', 'rollcell -0', 'rollcell 65536',
             'rollcell 65535', 'rollcell 000', 'rollcell 0 1', 'rollprint 0', 'rollprint #', 'rolls 0#1', 'hist 1', 'hist #', 'Hist',
             'break', 'break zzz', 'break zzz 1 2', 'break task', 'break task 00', 'break task 0 0', 'break cell', 'break cell x',
             'break cell 65536', 'break cell 65535', 'break cell 000', 'break body', 'break body 9x', 'break body a b', 'break body é',
             'break print 1', 'break fault #', 'break Print', 'clear', 'clear x', 'clear -1', 'clear 1000001', 'clear 1000000',
             'clear 0', 'clear 01', 'go', 'go 1', 'go 0 5', 'go 65 5', 'go x 5', 'go 1 x', 'go 1 -1', 'go 1 1000001', 'go 1 1 1',
             'go 01 002', 'go 1 0', 'tasks 0', 'task', 'task 00', 'task 0#1', 'ready 0', 'waits #', 'deps', 'deps 0 0', 'deps 0.0', 'breaks 1',
             'why', 'why 0', 'why 0#0', 'why 0#1 0#2', 'why #1', 'who', 'who 00#1', 'who 0#01', 'who 0#1 x', 'whys 0#1',
             'causes', 'causes 0', 'causes 0#0', 'causes 0#1 x', 'causes 0.1#1000001', 'cause 0#1', 'races 0', 'races #', 'race', 'Races', 'edges 0', 'edge', 'Edges']
STEP = re.compile(rb'^(0(?:\.\d+)*)#(\d+) ([a-z].*)$', re.MULTILINE)

# A step's task, its ordinal and its text.
Step = tuple[str, str, str]
# Output, standard error and status.
Answer = tuple[bytes, bytes, int]


class Program:
    """A random program: lists of words. A body generates tasks of the bodies after it, and seldom of others."""

    def __init__(self, r: random.Random) -> None:
        self.r = r
        self.cells = r.choice([0, 1, 1, 2, 2, 3, 5])
        names = ['main'] + r.sample(['a', 'b', '_x1', 'longer_name'], r.choice([0, 1, 1, 2, 2, 3, 4]))
        self.params = {name: r.choice([0, 0, 0, 1, 2, 3]) for name in names}
        self.params['main'] = 0
        self.names = names
        self.lines = [['cells', str(self.cells)]]
        for cell in r.sample(range(self.cells), min(self.cells, r.choice([0, 0, 1, 2]))):
            self.lines.append(['cell', str(cell), self.number()])
        for at in r.sample(range(len(names)), len(names)):
            self.lines.append(['body', names[at], str(self.params[names[at]])])
            self.block(at, 0, r.choice([1, 2, 3, 4, 6]))
            self.lines.append(['end'])

    def number(self) -> str:
        return str(self.r.choice([0, 1, 2, 3, 5, -1, -7, 1 << 62, 12]))

    def register(self) -> str:
        return 'r%d' % self.r.choice([0, 0, 1, 1, 2, 3, 4, 15])

    def operand(self) -> str:
        return self.register() if self.r.random() < 0.5 else self.number()

    def address(self) -> str:
        if self.r.random() < 0.95 and self.cells:
            return str(self.r.randrange(self.cells))
        return self.operand()

    def items(self, types: Sequence[str], most: int) -> list[str]:
        words = []
        for _ in range(self.r.choice([0, 1, 1, 2, most])):
            kind = self.r.choice(types)
            everywhere = kind in ('out', 'inout') and self.r.random() < 0.15
            words += ['depend', kind, 'all' if everywhere else self.address()]
        return words

    def task(self, at: int) -> list[str]:
        later = self.names[at + 1:]
        name = self.r.choice(later if later and self.r.random() < 0.95 else self.names)
        words = ['task', name] + [self.operand() for _ in range(self.params[name])] + self.items(TYPES, 3)
        if self.r.random() < 0.2:
            words += ['if', self.operand(), self.r.choice(COMPARISONS), self.operand()]
        return words

    def statement(self, at: int) -> list[str]:
        kind = self.r.randrange(9)
        if kind < 4:
            return self.task(at)
        return [['let', self.register(), self.operand(), self.r.choice('+-*'), self.operand()],
                ['load', self.register(), self.address()],
                ['store', self.address(), self.operand()],
                ['print', self.operand()],
                ['taskwait'] + self.items([kind for kind in TYPES if kind != 'mutexinoutset'], 2)][kind - 4]

    def loop(self, at: int, depth: int) -> None:
        """A loop that ends after a few rounds, but for the one in ten that nothing counts for."""
        register = 'r%d' % (5 + depth)
        self.lines += [['let', register, '0'], ['while', register, '<', str(self.r.choice([1, 2, 3]))]]
        if self.r.random() < 0.9:
            self.lines.append(['let', register, register, '+', '1'])
        self.block(at, depth + 1, 2)

    def block(self, at: int, depth: int, most: int) -> None:
        for _ in range(self.r.choice([0, 1, most, most])):
            kind = self.r.random()
            if kind < 0.7 or depth > 2:
                self.lines.append(self.statement(at))
                continue
            if kind < 0.8:
                self.lines.append(['taskgroup'])
                self.block(at, depth + 1, 3)
            elif kind < 0.88:
                self.loop(at, depth)
            else:
                self.lines.append(['if', self.operand(), self.r.choice(COMPARISONS), self.operand()])
                self.block(at, depth + 1, 2)
                if self.r.random() < 0.5:
                    self.lines.append(['else'])
                    self.block(at, depth + 1, 2)
            self.lines.append(['end'])

    def spoil(self, wild: float) -> None:
        """Faults in about as many lines of a hundred as `wild` says."""
        for words in self.lines:
            if self.r.random() >= wild:
                continue
            change = self.r.randrange(4)
            if change == 0:
                words.pop()
            elif change == 1:
                words.append(self.r.choice(NUMBERS + REGISTERS + NAMES + STRANGERS))
            elif change == 2:
                words[self.r.randrange(len(words))] = self.r.choice(NUMBERS + REGISTERS + NAMES + STRANGERS)
            else:
                words[0] = self.r.choice(STRANGERS)
        if self.r.random() < wild:
            self.r.shuffle(self.lines)


def spell(r: random.Random, words: Sequence[str], wild: float) -> str:
    """A line of these words."""
    text = r.choice(['', '', '  ', '\t']) + (' ' if r.random() >= wild else r.choice(BLANKS)).join(words)
    if r.random() < 0.1:
        text += r.choice([' # note', ' #', '  # \x01 any byte \xff'])
    if r.random() < wild / 4:
        text += r.choice(['\x01', '\x7f', '\xe9', ' ' * 1100, ' #' + 'y' * 1100, 'z' * 1100, '#joined'])
    return text


def pick_command(r: random.Random, steps: list[Step], newest: list[Step], scattered: bool, wild: float, workers: int) -> str:
    """A command on a session that wrote these steps, each with its task, its ordinal and its text."""
    if r.random() < wild:
        return r.choice(MALFORMED)
    if r.random() < 0.25:
        return pick_break_or_view(r, steps, workers)
    kind = r.random()
    if kind < (0.7 if scattered else 0.4):
        return 'step ' + pick_task(r, steps)
    if kind < (0.8 if scattered else 0.65) and steps:
        last = {task: number for task, number, _ in steps}
        task, number, _ = r.choice(newest)
        return 'undo %s#%s' % (task, last[task] if r.random() < 0.75 else number)
    if kind < (0.87 if scattered else 0.8) and steps:
        return pick_rollback(r, steps, newest)
    if kind < 0.91:
        return 'run %d' % r.choice([0, 1, 1, 2, 3, 5, 8, 20])
    if kind < 0.96 and steps:
        task, number, _ = r.choice(r.choice([steps, newest]))
        return r.choice(['why', 'who', 'causes']) + ' %s#%s' % (task, number)
    return r.choice(['cells', 'out', 'hist', 'why 0.2#2', 'who 0.1#1', 'undo 0.1#1', 'undo 0#%d' % r.randrange(1, 30)])


def pick_break_or_view(r: random.Random, steps: list[Step], workers: int) -> str:
    """A breakpoint, a `go` that may meet it, or a view of tasks."""
    several = r.randrange(2, workers + 1) if workers > 1 and r.random() < 0.8 else 1
    return r.choice([
        'go %d %d' % (several, r.choice([0, 1, 2, 5, 20, 100])),
        'go %d %d' % (several, r.choice([1, 3, 10])),
        r.choice(['break print', 'break fault', 'break cell %d' % r.randrange(4), 'break task ' + pick_task(r, steps),
                  'break body ' + r.choice(['main', 'a', 'b', '_x1', 'longer_name', 'none'])]),
        'clear %d' % r.choice([1, 1, 2, 3, 4]),
        r.choice(['tasks', 'ready', 'waits', 'breaks']),
        r.choice(['races', 'edges']),
        r.choice(['task ', 'deps ']) + pick_task(r, steps)])


def pick_rollback(r: random.Random, steps: list[Step], newest: list[Step]) -> str:
    """Mostly of a late step, so that much stays."""
    task, number, _ = r.choice(newest if r.random() < 0.8 else steps)
    kind = r.random()
    if kind < 0.6:
        return 'roll %s#%s' % (task, number)
    if kind < 0.75:
        return 'rolltask ' + task
    return 'rollcell %d' % r.randrange(4) if kind < 0.9 else 'rollprint'


def pick_task(r: random.Random, steps: list[Step]) -> str:
    """A task that the steps name: mostly one that hasn't ended, seldom another name."""
    if r.random() < 0.05:
        return r.choice(['0', '0.1', '0.2', '0.1.1', '0.9', '0.1.2'])
    tasks = ['0'] + [task for task, _, _ in steps] + [text.split()[1] for _, _, text in steps if text.startswith('spawn ')]
    over = {task for task, _, text in steps if text in ('end', 'fault')}
    going = sorted(set(tasks) - over)
    return r.choice(going if going and r.random() < 0.8 else tasks)


def answer(command: list[str], text: bytes, limit: int) -> Answer:
    done = subprocess.run(command + ['--limit', str(limit)], input=text, capture_output=True, timeout=300)
    return done.stdout, done.stderr, done.returncode


def answer_within(command: list[str], text: bytes, limit: int, seconds: float) -> Answer | None:
    """What the command answers, or None where that takes longer."""
    try:
        done = subprocess.run(command + ['--limit', str(limit)], input=text, capture_output=True, timeout=seconds)
    except subprocess.TimeoutExpired:
        return None
    return done.stdout, done.stderr, done.returncode


def judged(command: list[str], text: bytes, limit: int, workers: int, mine: Answer) -> bytes:
    """What the judge says against the program's answer, and nothing where it is right."""
    with tempfile.TemporaryDirectory() as folder:
        names = [os.path.join(folder, name) for name in ('session', 'output', 'error')]
        for name, content in zip(names, (text, mine[0], mine[1])):
            with open(name, 'wb') as file:
                file.write(content)
        try:
            done = subprocess.run([*command, names[0], names[1], '--err', names[2], '--status', str(mine[2]),
                                   '--workers', str(workers), '--limit', str(limit)], capture_output=True, timeout=300)
        except subprocess.TimeoutExpired:
            return b'the judge took more than 300 s'
        return done.stdout + done.stderr if done.returncode else b''


def steps_of(program: list[str], text: bytes, limit: int) -> list[Step]:
    """The steps that the program wrote, the newest last."""
    found = STEP.findall(answer(program, text, limit)[0])
    return [(task.decode('latin-1'), number.decode('latin-1'), did.decode('latin-1')) for task, number, did in found]


def pick_session(seed: int, program: list[str], workers: int) -> tuple[bytes, int]:
    r = random.Random(seed)
    wild = r.choice([0, 0, 0, 0.02, 0.1, 0.3])
    faults = r.choice([0, 0, 0, 0, wild])
    limit = r.choice([1, 2, 3, 5, 10, 30, 100]) if r.random() < 0.2 else 100000
    made = Program(r)
    made.spoil(faults)
    lines = [spell(r, words, faults) for words in made.lines]
    for _ in range(r.choice([0, 0, 1, 3])):
        lines.insert(r.randrange(len(lines)), r.choice(['', '# between', '   ', '\t']))
    lines.append(r.choice(['---', '---', ' ---', '--- # commands', '---' + ' ' * 1100]))
    scattered = r.random() < 0.4
    lines.append('run %d' % r.choice([3, 5, 8, 10, 15] if scattered else [0, 1, 3, 5, 8, 10, 20, 40, 80, 300]))
    for _ in range(r.choice([4, 6, 8] if scattered else [0, 1, 2, 3, 4])):
        steps = steps_of(program, '\n'.join(lines).encode('latin-1', 'replace') + b'\n', limit)
        newest = steps[-r.choice([3, 10, 30, 300]):]
        lines += [spell(r, [pick_command(r, steps, newest, scattered, wild, workers)], wild) for _ in range(r.choice([1, 5, 15]))]
    text = '\n'.join(lines) + ('\n' if r.random() < 0.8 else '')
    return text.encode('latin-1', 'replace'), limit


def kinds_of(text: bytes) -> Iterator[str]:
    """The first two words of each line that answers a command, or the kind of a step."""
    for line in text.decode('latin-1').split('\n'):
        words = line.split()
        if not words or words[0].lstrip('-').isdigit():
            continue
        if words[0] == 'ran':
            yield 'ran .. ' + words[2]
        elif words[0] == 'refused':
            yield 'refused %s %s' % (words[1], words[2])
        else:
            yield words[0] + ' ' + words[1] if words[0] == 'error' else (words[1] if '#' in words[0] else words[0])


def read_words() -> argparse.Namespace:
    """The command line."""
    top = os.path.join(os.path.dirname(os.path.abspath(__file__)), '..')
    args = argparse.ArgumentParser(description=__doc__, formatter_class=argparse.RawDescriptionHelpFormatter)
    against = args.add_mutually_exclusive_group(required=True)
    against.add_argument('--other')
    against.add_argument('--judge')
    args.add_argument('--workers', type=int, default=8)
    args.add_argument('--program', default=os.path.join(top, 'crates/taskback/out/taskback'))
    args.add_argument('--count', type=int, default=2000)
    args.add_argument('--seed', type=int, default=1)
    args.add_argument('--keep', default='differing')
    args.add_argument('--seconds', type=float, default=300, help='how long the command of --other may take for a session; one that takes longer is counted by itself')
    args.add_argument('--jobs', type=int, default=os.cpu_count())
    return args.parse_args()


def main() -> None:
    given = read_words()
    workers = given.workers if given.judge else 1
    program = [given.program] + (['--workers', str(workers)] if given.judge else [])

    def compare(seed: int) -> tuple[int, bytes, int, Answer, Answer | bytes | None]:
        text, limit = pick_session(seed, program, workers)
        mine = answer(program, text, limit)
        if given.judge:
            against = judged(shlex.split(given.judge), text, limit, workers, mine)
            return seed, text, limit, mine, against or mine
        return seed, text, limit, mine, answer_within(shlex.split(given.other), text, limit, given.seconds)

    kinds: collections.Counter[str] = collections.Counter()
    differing = refused = longest = long = late = 0
    with ThreadPoolExecutor(max_workers=given.jobs) as pool:
        for seed, text, limit, mine, theirs in pool.map(compare, range(given.seed, given.seed + given.count)):
            if theirs is None:
                late += 1
                continue
            steps = len(STEP.findall(mine[0]))
            refused += mine[2] == 1
            longest, long = max(longest, steps), long + (steps > 300)
            kinds.update(kinds_of(mine[0]))
            if mine != theirs:
                differing += 1
                os.makedirs(given.keep, exist_ok=True)
                with open(os.path.join(given.keep, '%d.session' % seed), 'wb') as kept:
                    kept.write(text)
                if differing <= 5:
                    print('seed %d (--limit %d) differs:\n  program %r\n  other   %r' % (seed, limit, mine, theirs))
    for kind, count in sorted(kinds.items()):
        print('%8d %s' % (count, kind))
    print('%d sessions, %d of them with a refused program, %d with more than 300 steps, up to %d: %d differences' % (
        given.count - late, refused, long, longest, differing))
    if late:
        print('%d more weren\'t compared: the command took more than %g seconds' % (late, given.seconds))
    sys.exit(1 if differing else 0)


if __name__ == '__main__':
    main()
