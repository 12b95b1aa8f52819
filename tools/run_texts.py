"""Run texts made from random sessions: what the debugger executed, as it reports it, and changes of that."""
import random
import subprocess
from collections.abc import Iterator
from typing import NamedTuple

from compare_sessions import NAMES, NUMBERS, REGISTERS, STRANGERS, Program

COUNTED = ('ready', 'hist', 'races', 'tasks', 'rolled')
TEXTS = ['start', 'end', 'fault', 'open', 'close', 'wait', 'test yes', 'test no', 'test maybe', 'print 1', 'store 0 1', 'load r0 0 0', 'let r0 1',
         'spawn 0.1 a', 'spawn 0.1 a undeferred', 'spawn 0.1 a depend out all', 'wait depend in 0', 'wait depend mutexinoutset 0', 'wait depend in all']
TASKS = ['0', '0.1', '0.2', '0.1.1', '0.9', '0.4294967295', '0.4294967296', '0.0', '00', '0.01', '0.', '1', '', '.1', '0.1.x']
STEPS = ['1', '2', '3', '0', '01', '', '99', '4294967295', '4294967296', '9999999999', '99999999999', '1#1', '-1']
WORDS = NUMBERS + REGISTERS + NAMES + STRANGERS + ['hist', 'undeferred', 'start', 'spawn', 'load', 'depend', 'all', 'inoutset', '#', '#x', 'a#b', 'yes']
CHANGES = ('earlier', 'earlier', 'earlier', 'limit', 'exchanged', 'left out', 'doubled', 'number', 'task', 'word', 'byte')


class Recorded(NamedTuple):
    """A run: the lines of its cells, of its events, and what has to be reported of it."""

    head: list[str]
    events: list[str]
    report: bytes
    status: int


class BusyProgram(Program):
    """A program of many tasks, whose loops end, and whose last body generates none."""

    def __init__(self, r: random.Random, rounds: list[int]) -> None:
        self.rounds = rounds
        super().__init__(r)

    def block(self, at: int, depth: int, most: int) -> None:
        for _ in range(1 if depth else self.r.choice([1, 2, 3])):
            super().block(at, depth, most)

    def statement(self, at: int) -> list[str]:
        kind = self.r.randrange(10)
        if kind < 6 and at + 1 < len(self.names):
            return self.task(at)
        if kind < 7:
            return ['load', self.register(), self.address()]
        return ['store', self.address(), self.operand()] if kind < 8 else super().statement(len(self.names) - 1)

    def address(self) -> str:
        """Mostly one cell, which most tasks name."""
        return '0' if self.cells and self.r.random() < 0.5 else super().address()

    def task(self, at: int) -> list[str]:
        return super().task(at) if at + 1 < len(self.names) or self.r.random() < 0.05 else ['taskwait']

    def loop(self, at: int, depth: int) -> None:
        register = 'r%d' % (5 + depth)
        self.lines += [['let', register, '0'], ['while', register, '<', str(self.r.choice(self.rounds))], ['let', register, register, '+', '1']]
        self.block(at, depth + 1, 3)


class Session:
    """A session of the debugger, asked command by command."""

    def __init__(self, command: list[str], lines: list[str]) -> None:
        self.child = subprocess.Popen(command, stdin=subprocess.PIPE, stdout=subprocess.PIPE, encoding='ascii')
        self.steps: dict[str, str] = {}
        self.write('\n'.join([*lines, '---', '']))

    def write(self, text: str) -> None:
        assert self.child.stdin
        self.child.stdin.write(text)
        self.child.stdin.flush()

    def line(self) -> str:
        assert self.child.stdout
        line = self.child.stdout.readline()
        if not line:
            raise EOFError('the session ended')
        return line.rstrip('\n')

    def ask(self, command: str) -> list[str]:
        """The lines of the reply; of a reply with a count those after it."""
        self.write(command + '\n')
        first = self.line()
        word, _, count = first.partition(' ')
        if word in COUNTED:
            return [self.line() for _ in range(int(count))]
        lines = [first]
        while command.startswith('run ') and not lines[-1].startswith('ran '):
            lines.append(self.line())
        return lines

    def execute(self, command: str) -> bool:
        """Executes steps; whether there was one."""
        before = len(self.steps)
        for line in self.ask(command):
            name, _, text = line.partition(' ')
            if '#' in name:
                self.steps[name] = text
        return len(self.steps) > before

    def roll(self, step: str) -> None:
        for line in self.ask('roll ' + step):
            self.steps.pop(line.partition(' ')[0], None)

    def close(self) -> None:
        self.child.communicate()


def execute(r: random.Random, session: Session, most: int) -> None:
    """Up to `most` steps, in an order by chance or by a style."""
    style = r.choice(['least', 'any', 'any', 'newest', 'bursts'])
    rolls = r.choice([0, 0, 0.02])
    # More of them could take back as much as is executed.
    left_to_roll = 10
    ready: list[str] = []
    left_of_ready = 0
    while len(session.steps) < most:
        left = most - len(session.steps)
        if style == 'least':
            if not session.execute('run %d' % min(left, r.choice([1, 5, 50, 500]))):
                return
        else:
            if not left_of_ready:
                ready = session.ask('ready')
                if not ready:
                    return
                # A long list is used for a while: it takes longer to make than a step.
                left_of_ready = 1 + len(ready) // 10
            left_of_ready -= 1
            task = ready[-1] if style == 'newest' else r.choice(ready)
            for _ in range(min(left, 1 if style == 'any' and len(ready) < 50 else r.choice([2, 5, 20]))):
                if not session.execute('step ' + task):
                    left_of_ready = 0
                    break
        if session.steps and left_to_roll and r.random() < rolls:
            left_to_roll -= 1
            session.roll(r.choice(list(session.steps)[-20:]))


def recorded(command: list[str], r: random.Random, most: int) -> Recorded:
    """A random run, and what has to be reported of it: where a program ends early, of another one, up to the tenth."""
    wanted = r.choice([1, 2, 3]) if r.random() < 0.1 else r.randrange(most // 4, most) + 1
    for _ in range(10):
        made = BusyProgram(r, [1, 2, 3] if most <= 100 else [2, 5, 20]) if r.random() < 0.9 else Program(r)
        head = [' '.join(words) for words in made.lines if words[0] in ('cells', 'cell')]
        session = Session([*command, '--limit', '1000000'], [' '.join(words) for words in made.lines])
        try:
            execute(r, session, wanted)
            events, races, tasks = session.ask('hist'), session.ask('races'), session.ask('tasks')
        finally:
            session.close()
        if len(events) >= wanted // 2:
            break
    unended = [line.split()[0] for line in tasks if line.split()[2] not in ('ended', 'faulted')]
    report = ['legal %d' % len(events), 'unended %d' % len(unended), *unended, 'races %d' % len(races), *races]
    status = 2 if any(not line.endswith(' apart') for line in races) else 3 if unended else 0
    return Recorded(head, events, ('\n'.join(report) + '\n').encode(), status)


def spelled(r: random.Random, run: Recorded, events: list[str]) -> bytes:
    """The run text of these events: with the head of `hist` or without, with the ordinals of steps or without, with comments."""
    head = run.head + (['hist %d' % len(events)] if r.random() < 0.3 else [])
    counted = r.choice([0, 0.5, 1, 1])
    lines: list[str] = []
    for line in [*head, *events]:
        name, sign, rest = line.partition('#')
        if sign and r.random() >= counted:
            line = name + (' ' + rest.partition(' ')[2])
        if r.random() < 0.05:
            line = r.choice(['  ', '\t']) + line.replace(' ', r.choice(['  ', '\t', ' \r'])) + r.choice(['', ' ', '\r'])
        if r.random() < 0.1:
            line += r.choice(['  # a.c:12', ' #', '\t# \x01 any byte \xff', ' # ' + 'y' * 2000])
        lines += [line, *r.choice([[''], ['# between'], [' \t']])] if r.random() < 0.02 else [line]
    return ('\n'.join(lines) + ('\n' if r.random() < 0.9 else '')).encode('latin-1')


def with_right_loads(head: list[str], events: list[str]) -> list[str]:
    """The events, each load with the value that its cell has then, so that what else is wrong is met."""
    cells = {words[1]: words[2] for words in map(str.split, head) if words[0] == 'cell'}
    found = []
    for event in events:
        words = event.split()
        if words[1] == 'store':
            cells[words[2]] = words[3]
        if words[1] == 'load':
            event = ' '.join([*words[:4], cells.get(words[3], '0')])
        found.append(event)
    return found


def earliest(events: list[str], at: int) -> int:
    """Where the event would be right after its task's last one, or its spawn."""
    task = events[at].split('#')[0]
    while at and events[at - 1].split('#')[0] != task and ' spawn %s ' % task not in events[at - 1]:
        at -= 1
    return at


def move_earlier(r: random.Random, events: list[str]) -> None:
    """Moves an event of those that wait for others, where one can be moved, as far as its task lets it, or less."""
    ordered = {event.split()[2] for event in events if ' depend ' in event and event.split()[1] == 'spawn'}
    kinds: dict[str, list[int]] = {}
    for at, event in enumerate(events):
        word = event.split()[1]
        first = earliest(events, at)
        if first and events[first - 1].endswith(' undeferred'):
            word = 'undeferred'
        if first < at and (word in ('wait', 'close', 'undeferred') or word == 'start' and event.split('#')[0] in ordered):
            kinds.setdefault(word, []).append(at)
    found = [indexes for indexes in kinds.values() if indexes]
    at = r.choice(r.choice(found)) if found else r.randrange(len(events))
    first = earliest(events, at)
    events.insert(r.choice([first, r.randrange(first, at + 1)]), events.pop(at))


def moved(r: random.Random, change: str, events: list[str]) -> None:
    """Moves an event, exchanges two, leaves one out, or doubles one."""
    at = r.randrange(len(events))
    if change == 'earlier':
        move_earlier(r, events)
    elif change == 'exchanged':
        other = min(at + 1, len(events) - 1) if r.random() < 0.5 else r.randrange(len(events))
        events[at], events[other] = events[other], events[at]
    elif change == 'left out':
        del events[at]
    else:
        events.insert(r.choice([at, at + 1, r.randrange(at, len(events)) + 1]), events[at])


def renamed(r: random.Random, change: str, events: list[str]) -> None:
    """Gives an event another task or step, or another number in its text."""
    at = r.randrange(len(events))
    words = events[at].split()
    name, _, step = words[0].partition('#')
    numbers = [index for index, word in enumerate(words) if index and word.lstrip('-').isdigit()]
    if change == 'number' and numbers:
        index = r.choice(numbers)
        words[index] = r.choice([*NUMBERS, str(int(words[index]) + r.choice([-1, 1])), '134217728'])
    elif change == 'number':
        words[0] = name + '#' + r.choice([*STEPS, str(int(step) + 1)])
    elif words[1] == 'spawn' and r.random() < 0.5:
        words[2] = r.choice([*TASKS[:7], *(event.split('#')[0] for event in events)])
    else:
        words[0] = r.choice([*TASKS, *(event.split('#')[0] for event in events)]) + '#' + step
    events[at] = ' '.join(words)


def spoilt_word(r: random.Random, lines: list[str]) -> None:
    """Replaces a word, leaves one out, or puts one in; or a whole text of an event."""
    at = r.randrange(len(lines))
    words = lines[at].split()
    index = r.randrange(len(words))
    kind = r.randrange(5)
    if kind == 0:
        words[1:] = [r.choice(TEXTS)]
    elif kind == 1:
        words[index:] = words[index:] + words[index:] * r.choice([1, 20, 70])
    elif kind == 2:
        words.insert(index + 1, r.choice(WORDS))
    elif kind == 3 and len(words) > 1:
        del words[index]
    else:
        words[index] = r.choice(WORDS)
    lines[at] = ' '.join(words)


def at_a_limit(r: random.Random, events: list[str]) -> None:
    """Gives a spawn or a wait as many items as there may be or one more, or a spawn as many arguments."""
    found = [at for at, event in enumerate(events) if event.split()[1] in ('spawn', 'wait')]
    if not found:
        return
    at = r.choice(found)
    words = events[at].removesuffix(' undeferred').split()
    more = r.choice([0, 0, 1])
    if words[1] == 'spawn' and r.random() < 0.3:
        words[4:] = ['7'] * (16 + more)
    else:
        there = words.count('depend')
        words += ['depend', 'in', '0'] * (64 + more - there)
    events[at] = ' '.join(words)


def spoilt_byte(r: random.Random, text: bytes) -> bytes:
    """Replaces bytes, leaves some out, or puts some in."""
    at = r.randrange(len(text))
    new = r.choice([b'', b'\x00', b'\xff', b'#', b' ', b'\n', b'0', b'7', b'-', b'.', b'x' * 65536, bytes([r.randrange(256)])])
    return text[:at] + new + text[at + r.choice([0, 1, 1, 2]):]


def changed(r: random.Random, run: Recorded, change: str) -> bytes:
    """The run's text with such a change."""
    if change == 'byte' or not run.events:
        return spoilt_byte(r, spelled(r, run, run.events))
    events = list(run.events)
    if change == 'word':
        lines = [*run.head, *events]
        spoilt_word(r, lines)
        return spelled(r, run._replace(head=[]), lines)
    if change in ('number', 'task'):
        renamed(r, change, events)
    elif change == 'limit':
        at_a_limit(r, events)
    else:
        moved(r, change, events)
        if r.random() < 0.5:
            events = with_right_loads(run.head, events)
        if r.random() < 0.5:
            events = [event.split('#')[0] + ' ' + event.partition(' ')[2] for event in events]
    return spelled(r, run, events)


def kinds_of(out: bytes, err: bytes) -> Iterator[str]:
    """What an answer says, in a few words."""
    first = (out or err).decode('latin-1').split('\n')[0].split()
    if first[:1] == ['legal']:
        yield 'legal'
        yield 'legal with races' if b'\nraces 0\n' not in out else 'legal without a race'
        yield 'legal, over' if b'\nunended 0\n' in out else 'legal, not over'
    elif err:
        yield 'fault ' + ' '.join(first[3:])
    else:
        yield ' '.join(first[2:5])
