#!/usr/bin/env python3
"""Compares the reader with another implementation on random program texts.

    tools/compare_readers.py --other 'COMMAND' [--program P] [--count N] [--batch B] [--seed S] [--keep DIR]

Both get texts on standard input, each after a line with the number of its bytes, and have to write
for each its first fault, or its program: cells, bodies, and each instruction with the lines that
follow (as crates/tb_read_rows does). The texts use the whole notation; two of three have faults, often
several a line and several faulty lines. Texts on which the two differ are kept in DIR.
"""
import argparse
import collections
import os
import random
import shlex
import subprocess
import sys
from collections.abc import Callable, Iterable, Sequence

NUMBERS = ['0', '1', '2', '3', '12', '-1', '-0', '007', '-08', '65535', '4294967296', '9223372036854775807',
           '-9223372036854775808', '0' * 30 + '1', '-' + '0' * 30 + '9223372036854775808']
WRONG_NUMBERS = ['9223372036854775808', '-9223372036854775809', '4x', '+1', '-', '--1', 'R1', 'r', 'rr1', 'all', 'x', '==', '1.0', '0#3',
                 '0' * 30 + '9223372036854775808', '18446744073709551616']
WRONG_REGISTERS = ['r16', 'r17', 'r01', 'r00', 'r99', 'r999999999999999999999']
BODIES = ['main', 'a', 'b', 'c', '_x1', 'if', 'depend', 'x' * 32]
STRANGERS = ['nobody', 'end', 'task', 'MAIN', 'x' * 31]
WRONG_NAMES = ['9x', 'x' * 33, 'a-b', '-', 'é', '0', 'a#b', 'a.b']
TYPES = ['in', 'out', 'inout', 'mutexinoutset', 'inoutset']
COMPARISONS = ['==', '!=', '<', '<=']
WORDS = ['cells', 'cell', 'body', 'end', 'let', 'load', 'store', 'print', 'task', 'taskwait', 'taskgroup',
         'if', 'else', 'while', 'depend', 'all', 'fly', '---', '+', '*', '~', '=', '>', 'End'] + TYPES + COMPARISONS
BLANKS = [' '] * 6 + ['  ', '\t', '\r', ' \t ']


class Text:
    """One random text: a list of lines, each a list of words, without a fault until it is spoilt."""

    def __init__(self, r: random.Random) -> None:
        self.r = r
        self.lines: list[list[str]] = []
        self.cells = r.choice([0, 1, 2, 5, 65536])
        self.params = {name: r.choice([0, 0, 1, 2, 16]) for name in BODIES[1:] if r.random() < 0.4}
        self.params['main'] = 0
        self.lines.append(['cells', self.written(self.cells)])
        there = [cell for cell in (0, 1, 2, 3, 4, 65535) if cell < self.cells]
        for cell in r.sample(there, min(len(there), r.choice([0, 0, 1, 2, 3]))):
            self.lines.append(['cell', self.written(cell), r.choice(NUMBERS)])
        for name in r.sample(sorted(self.params), len(self.params)):
            self.lines.append(['body', name, self.written(self.params[name])])
            self.block(1)
            self.lines.append(['end'])

    def written(self, number: int) -> str:
        return self.r.choice(['', '', '', '0', '000', '-' if number == 0 else '']) + str(number)

    def operand(self) -> str:
        return 'r%d' % self.r.randrange(16) if self.r.random() < 0.5 else self.r.choice(NUMBERS)

    def test(self, first: str) -> list[str]:
        return [first, self.operand(), self.r.choice(COMPARISONS), self.operand()]

    def items(self, types: Sequence[str]) -> list[str]:
        words = []
        for _ in range(self.r.choice([0, 0, 1, 1, 2, 3] + ([63, 64] if self.r.random() < 0.05 else []))):
            kind = self.r.choice(types)
            everywhere = kind in ('out', 'inout') and self.r.random() < 0.2
            words += ['depend', kind, 'all' if everywhere else self.operand()]
        return words

    def task(self) -> list[str]:
        name = self.r.choice(sorted(self.params))
        words = ['task', name] + [self.operand() for _ in range(self.params[name])] + self.items(TYPES)
        return words + (self.test('if') if self.r.random() < 0.3 else [])

    def statement(self) -> list[str]:
        register, operand = 'r%d' % self.r.randrange(16), self.operand
        kinds: list[Callable[[], list[str]]] = [
            lambda: ['let', register, operand()],
            lambda: ['let', register, operand(), self.r.choice('+-*'), operand()],
            lambda: ['load', register, operand()],
            lambda: ['store', operand(), operand()],
            lambda: ['print', operand()],
            self.task,
            self.task,
            lambda: ['taskwait'] + self.items([kind for kind in TYPES if kind != 'mutexinoutset']),
        ]
        return self.r.choice(kinds)()

    def block(self, depth: int) -> None:
        for _ in range(self.r.choice([0, 0, 1, 1, 2, 3])):
            kind = self.r.random()
            if kind < 0.45 or depth > 5:
                self.lines.append(self.statement())
                continue
            self.lines.append(['taskgroup'] if kind < 0.6 else self.test('while' if kind < 0.75 else 'if'))
            self.block(depth + 1)
            if kind >= 0.75 and self.r.random() < 0.6:
                self.lines.append(['else'])
                self.block(depth + 1)
            self.lines.append(['end'])

    # ---- faults

    def indexes(self, words: Sequence[str], wanted: Callable[[str], bool]) -> list[int]:
        return [at for at in range(1, len(words)) if wanted(words[at])]

    def replace(self, words: list[str], wanted: Callable[[str], bool], others: Sequence[str]) -> bool:
        """Puts one of the others at some index whose word is wanted; whether there was one."""
        indexes = self.indexes(words, wanted)
        if indexes:
            words[self.r.choice(indexes)] = self.r.choice(others)
        return bool(indexes)

    def spoil_number(self, words: list[str]) -> bool:
        return self.replace(words, is_operand, WRONG_NUMBERS)

    def spoil_register(self, words: list[str]) -> bool:
        if words and words[0] in ('let', 'load') and len(words) > 1 and self.r.random() < 0.3:
            words[1] = self.r.choice(WRONG_REGISTERS + NUMBERS)
            return True
        return self.replace(words, is_operand, WRONG_REGISTERS)

    def spoil_word(self, words: list[str]) -> bool:
        if not words or self.r.random() < 0.3:
            words[:1] = [self.r.choice(WORDS)]
            return True
        return self.replace(words, lambda word: word in COMPARISONS + ['+', '-', '*', 'depend'], WORDS)

    def spoil_name(self, words: list[str]) -> bool:
        if not words or words[0] not in ('task', 'body') or len(words) < 2:
            return False
        words[1] = self.r.choice(WRONG_NAMES + STRANGERS * 2 + BODIES)
        return True

    def spoil_count(self, words: list[str]) -> bool:
        if not words:
            return False
        if self.r.random() < 0.5 and len(words) > 1:
            words.pop(self.r.randrange(1, len(words)))
        else:
            words.insert(self.r.randrange(1, len(words) + 1), self.r.choice([self.operand()] + WORDS))
        return True

    def spoil_type(self, words: list[str]) -> bool:
        types = self.indexes(words, lambda word: word in TYPES)
        if not types:
            return False
        at = self.r.choice(types)
        if self.r.random() < 0.5 and at + 1 < len(words):
            words[at:at + 2] = [self.r.choice(TYPES), 'all']
        else:
            words[at] = self.r.choice(TYPES + ['x', 'all', 'r99', '0', 'if'])
        return True

    def spoil_size(self, words: list[str]) -> bool:
        if words and words[0] == 'cells' and len(words) > 1:
            words[1] = self.r.choice(['65537', '1000000', '-1', '9223372036854775807'])
        elif words and words[0] == 'body' and len(words) > 2:
            words[2] = self.r.choice(['17', '18', '-1', '9223372036854775807', '3'])
        elif words and words[0] in ('task', 'taskwait'):
            words += ['depend', 'in', '0'] * self.r.choice([62, 63, 64, 65])
        else:
            return False
        return True

    def spoil_bytes(self, words: list[str]) -> bool:
        words.append(self.r.choice(['\x01', '\x7f', 'a\xe9', '\x0b', '\x0c', '\x1c', '\x85', '\xa0', '\x00',
                                    ' ' * 1030, '#' + 'y' * 1030, 'z' * 1030, ' ' * 1010]))
        return True

    def spoil_cell(self, at: int) -> None:
        """A `cell` line that can't be there: its cell isn't there, or was given, or it comes too late."""
        cell = self.r.choice([str(self.cells), str(self.cells + 1), '-1', '0', '00', '0', '1', '2', '70000'])
        self.lines.insert(self.r.choice([1, 2, 3, 4, at]), ['cell', cell, self.r.choice(NUMBERS)])

    def spoil_lines(self, at: int) -> None:
        """A line too many, or too few."""
        change = self.r.randrange(6)
        if change == 0:
            self.lines.pop(at)
        elif change == 1:
            self.lines.insert(at, list(self.r.choice(self.lines)))
        else:
            self.lines.insert(at, self.r.choice([['end'], ['else'], ['taskgroup'], ['cells', '1'], ['cells', 'x', '2'],
                                                 ['body', 'main', '0'], ['while', '0', '<', 'r1']]))

    def spoil_text(self) -> None:
        """A text without its `cells`, or without its `main`."""
        if self.r.random() < 0.35:
            self.lines[:1] = self.r.choice([[], [['body', 'a', '0']], [['fly']], [['cell', '0', '1']]])
        else:
            self.lines = [['mine' if word == 'main' else word for word in words] for words in self.lines]
        if self.r.random() < 0.1:
            self.lines = [['#', 'nothing']] * self.r.randrange(3)

    def spoil_line(self, faults: int) -> None:
        """Faults in one line, that can have the first of them."""
        in_line = [self.spoil_number, self.spoil_register, self.spoil_register, self.spoil_word, self.spoil_name,
                   self.spoil_name, self.spoil_count, self.spoil_size, self.spoil_bytes] + [self.spoil_type] * 5
        first = self.r.choice(in_line)
        for at in self.r.sample(range(len(self.lines)), len(self.lines)):
            if first(self.lines[at]):
                while faults > 1:
                    self.r.choice(in_line)(self.lines[at])
                    faults -= 1
                return

    def spoil(self) -> None:
        """Faults at one to four words."""
        for _ in range(self.r.choice([1, 1, 1, 2, 2, 3, 4])):
            if not self.lines:
                return
            kind, at = self.r.random(), self.r.randrange(len(self.lines))
            if kind < 0.08:
                self.spoil_cell(at)
            elif kind < 0.24:
                self.spoil_lines(at)
            elif kind < 0.31:
                self.spoil_text()
            else:
                self.spoil_line(self.r.choice([1, 1, 2, 2, 3]))

    def encoded(self) -> bytes:
        """The text, with blanks, comments and empty lines."""
        lines = [''] if self.r.random() < 0.1 else []
        for words in self.lines:
            line = self.r.choice(['', '', '  ', '\t']) + self.r.choice(BLANKS).join(words)
            if self.r.random() < 0.1:
                line += self.r.choice([' # note', ' #', '  # \x01 any byte \xff\x00\x0b', '\t#joined'])
            lines.append(line)
            while self.r.random() < 0.08:
                lines.append(self.r.choice(['', '   ', '# alone', '\t']))
        return ('\n'.join(lines) + ('\n' if self.r.random() < 0.9 else '')).encode('latin-1')


def is_operand(word: str) -> bool:
    return word.lstrip('-').isdigit() or (word[:1] == 'r' and word[1:].isdigit())


def text_of(r: random.Random) -> bytes:
    text = Text(r)
    if r.random() < 0.7:
        text.spoil()
    return text.encoded()


def texts_of(seed: int, count: int) -> list[bytes]:
    r = random.Random(seed)
    texts = [text_of(r) for _ in range(count)]
    if seed == 0 and count >= 1000:
        texts += [b'', b'\n', b'#\n', b'cells 0\nbody main 0\nend\n' + b'\n' * 65533, b'cells 0\nbody main 0\nend\n' + b'\n' * 65534]
        texts.append(b'cells 0\n' + b''.join(b'body b%d 0\nend\n' % k for k in range(1024)) + b'body main 0\nend\n')
        texts.append(b'cells 0\nbody main 0\nend\n' + b''.join(b'body b%d 0\nend\n' % k for k in range(1023)))
        texts.append(b'cells 0\nbody main 0\n' + b'if 0 == 0\n' * 32000 + b'end\n' * 32000 + b'end\n')
        texts.append(b'cells 0\nbody main 0\n' + b'while 0 == 0\nelse\n' * 3)
    return texts


def run(command: str, texts: Iterable[bytes]) -> str:
    fed = b''.join(b'%d\n' % len(text) + text for text in texts)
    done = subprocess.run(shlex.split(command), input=fed, stdout=subprocess.PIPE, stderr=subprocess.PIPE)
    return done.stdout.decode('latin-1')


def answers_of(command: str, texts: Iterable[bytes]) -> list[list[str]]:
    """The answer to each text: those of a program have more lines than one."""
    answers: list[list[str]] = []
    for line in run(command, texts).splitlines():
        if line.startswith(('line ', 'program ')):
            answers.append([])
        answers[-1].append(line)
    return answers


def main() -> None:
    top = os.path.join(os.path.dirname(os.path.abspath(__file__)), '..')
    words = argparse.ArgumentParser(description=__doc__.split('\n')[0])
    words.add_argument('--other', required=True)
    words.add_argument('--program', default=os.path.join(top, 'crates/tb_read_rows/out/tb_read_rows'))
    words.add_argument('--count', type=int, default=20000)
    words.add_argument('--batch', type=int, default=2000)
    words.add_argument('--seed', type=int, default=0)
    words.add_argument('--keep', default='/tmp/differing_texts')
    given = words.parse_args()
    kinds: collections.Counter[str] = collections.Counter()
    differing = done = 0
    for seed in range(given.seed, given.seed + (given.count + given.batch - 1) // given.batch):
        texts = texts_of(seed, given.batch)
        ours, theirs = answers_of(given.program, texts), answers_of(given.other, texts)
        if len(ours) != len(texts) or len(theirs) != len(texts):
            sys.exit('%d texts, %d answers of the program, %d of the other' % (len(texts), len(ours), len(theirs)))
        for text, our, their in zip(texts, ours, theirs):
            kinds[their[0].split(': ')[-1] if len(their) == 1 else 'a program'] += 1
            if our != their:
                differing += 1
                os.makedirs(given.keep, exist_ok=True)
                with open(os.path.join(given.keep, 'text-%d' % differing), 'wb') as kept:
                    kept.write(text)
        done += len(texts)
    for kind, count in sorted(kinds.items()):
        print('%7d %s' % (count, kind))
    print('%d texts, %d differ' % (done, differing))
    sys.exit(1 if differing else 0)


if __name__ == '__main__':
    main()
