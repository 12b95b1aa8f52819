"""Expressions over a session's numbers: `r0 + c[3] * 2`, `steps(0.1) > 4`, `r2 of 0.1 == value`.

    or         = and { "or" and }
    and        = not { "and" not }
    not        = "not" not | comparison
    comparison = sum [ ("==" | "!=" | "<" | "<=" | ">" | ">=") sum ]
    sum        = product { ("+" | "-") product }
    product    = unary { "*" unary }
    unary      = "-" unary | place
    place      = atom [ "of" TASK ]
    atom       = NUMBER | rK | argK | "c" "[" or "]" | "steps" "(" TASK ")" | "value" | "cell" | "(" or ")"

`rK` and `argK` are of the task that stepped last, where no `of T` says another one. `value` and `cell` are of the step
that meets a breakpoint. A comparison is 1 where it holds, and else 0. Sums wrap around at 64 bits, as in a program.
"""

from __future__ import annotations

import operator
import re
from collections.abc import Callable
from dataclasses import dataclass
from typing import NamedTuple, Protocol

TOKEN = re.compile(r"\s*(?:([0-9]+(?:\.[0-9]+)*)|([A-Za-z_]\w*)|(==|!=|<=|>=|[-+*<>()\[\]]))")
REGISTERS = 16
WRAP = 1 << 64


class Unreadable(Exception):
    """A text that is no expression, and why."""


class Unknown(Exception):
    """A number that isn't there at this moment, and why."""


class Values(Protocol):
    """Where the numbers of an expression come from; each call raises Unknown where there is none."""

    def register(self, task: str, number: int) -> int:
        """A register of a task."""

    def argument(self, task: str, number: int) -> int:
        """A number with which a task was generated."""

    def cell(self, number: int) -> int:
        """The number in a cell."""

    def steps(self, task: str) -> int:
        """How many steps of a task are in the history."""

    def named(self, name: str) -> int:
        """`value` or `cell` of the step that is looked at."""


class Reads(NamedTuple):
    """What an expression is made of: the number can change only by a step of these tasks, or by a store."""

    tasks: frozenset[str]
    cells: bool

    def __or__(self, other: tuple[object, ...]) -> Reads:
        assert isinstance(other, Reads)
        return Reads(self.tasks | other.tasks, self.cells or other.cells)


NOTHING = Reads(frozenset(), False)


class Expression(Protocol):
    """What an expression can do; `task` is the one whose registers are meant."""

    def evaluate(self, values: Values, task: str) -> int:
        """The number at this moment."""

    def reads(self, task: str) -> Reads:
        """What the number hangs on."""


def wrapped(number: int) -> int:
    """A number as 64 bits have it."""
    return (number + WRAP // 2) % WRAP - WRAP // 2


@dataclass(frozen=True)
class Number:
    """A number as it is written."""

    number: int

    def evaluate(self, values: Values, task: str) -> int:
        return self.number

    def reads(self, task: str) -> Reads:
        return NOTHING


@dataclass(frozen=True)
class Register:
    """`rK`."""

    number: int

    def evaluate(self, values: Values, task: str) -> int:
        return values.register(task, self.number)

    def reads(self, task: str) -> Reads:
        return Reads(frozenset({task}), False)


@dataclass(frozen=True)
class Argument:
    """`argK`."""

    number: int

    def evaluate(self, values: Values, task: str) -> int:
        return values.argument(task, self.number)

    def reads(self, task: str) -> Reads:
        return NOTHING


@dataclass(frozen=True)
class Cell:
    """`c[NUMBER]`."""

    number: Expression

    def evaluate(self, values: Values, task: str) -> int:
        return values.cell(self.number.evaluate(values, task))

    def reads(self, task: str) -> Reads:
        return Reads(frozenset(), True) | self.number.reads(task)


@dataclass(frozen=True)
class Steps:
    """`steps(T)`."""

    task: str

    def evaluate(self, values: Values, task: str) -> int:
        return values.steps(self.task)

    def reads(self, task: str) -> Reads:
        return Reads(frozenset({self.task}), False)


@dataclass(frozen=True)
class Named:
    """`value` or `cell`."""

    name: str

    def evaluate(self, values: Values, task: str) -> int:
        return values.named(self.name)

    def reads(self, task: str) -> Reads:
        return NOTHING


@dataclass(frozen=True)
class Of:
    """An expression whose registers are those of a task."""

    inner: Expression
    task: str

    def evaluate(self, values: Values, task: str) -> int:
        return self.inner.evaluate(values, self.task)

    def reads(self, task: str) -> Reads:
        return self.inner.reads(self.task)


@dataclass(frozen=True)
class Operation:
    """One or two numbers from which a third is made."""

    make: Callable[..., int]
    operands: tuple[Expression, ...]

    def evaluate(self, values: Values, task: str) -> int:
        return wrapped(int(self.make(*(operand.evaluate(values, task) for operand in self.operands))))

    def reads(self, task: str) -> Reads:
        found = NOTHING
        for operand in self.operands:
            found |= operand.reads(task)
        return found


@dataclass(frozen=True)
class Choice:
    """`and` or `or`: what follows is looked at only where it counts."""

    goes_on: bool
    operands: tuple[Expression, ...]

    def evaluate(self, values: Values, task: str) -> int:
        return int(all(bool(operand.evaluate(values, task)) for operand in self.operands) if self.goes_on
                   else any(bool(operand.evaluate(values, task)) for operand in self.operands))

    def reads(self, task: str) -> Reads:
        found = NOTHING
        for operand in self.operands:
            found |= operand.reads(task)
        return found


COMPARISONS: dict[str, Callable[..., int]] = {"==": operator.eq, "!=": operator.ne, "<": operator.lt, "<=": operator.le,
                                              ">": operator.gt, ">=": operator.ge}
SUMS: dict[str, Callable[..., int]] = {"+": operator.add, "-": operator.sub}
MOST_TOKENS = 150
ATOMS = "an expression has numbers, r0 to r15, arg0 to arg15, c[N], steps(T), value, cell, + - * == != < <= > >= and or not"


def tokens_of(text: str) -> list[str]:
    """The words and signs of a text."""
    found, at = [], 0
    text = text.rstrip()
    while at < len(text):
        token = TOKEN.match(text, at)
        if not token:
            word = text[at:].split()[0]
            raise Unreadable(f"`{word}` can't be in an expression" + ("; a register is written r1" if word.startswith("$") else ""))
        found.append(token[0].strip())
        at = token.end()
    return found


class Parser:
    """Reads one expression from its tokens, a function for each line of the grammar."""

    def __init__(self, text: str) -> None:
        self.tokens = tokens_of(text)
        if len(self.tokens) > MOST_TOKENS:
            raise Unreadable(f"an expression has at most {MOST_TOKENS} words and signs")
        self.at = 0

    def take(self, *wanted: str) -> str | None:
        """The next token where it is one of these."""
        if self.at < len(self.tokens) and self.tokens[self.at] in wanted:
            self.at += 1
            return self.tokens[self.at - 1]
        return None

    def need(self, wanted: str) -> None:
        """The next token, which has to be this one."""
        if not self.take(wanted):
            there = self.tokens[self.at] if self.at < len(self.tokens) else "the end"
            raise Unreadable(f"`{wanted}` is expected in front of {there}")

    def whole(self) -> Expression:
        """The expression that all tokens are."""
        found = self.either()
        if self.at < len(self.tokens):
            if self.tokens[self.at - 1] == "cell" and self.tokens[self.at].isdigit():
                raise Unreadable(f"a cell is written c[{self.tokens[self.at]}]")
            raise Unreadable(f"`{self.tokens[self.at]}` can't follow here")
        return found

    def either(self) -> Expression:
        operands = [self.both()]
        while self.take("or"):
            operands.append(self.both())
        return operands[0] if len(operands) == 1 else Choice(False, tuple(operands))

    def both(self) -> Expression:
        operands = [self.negation()]
        while self.take("and"):
            operands.append(self.negation())
        return operands[0] if len(operands) == 1 else Choice(True, tuple(operands))

    def negation(self) -> Expression:
        return Operation(operator.not_, (self.negation(),)) if self.take("not") else self.comparison()

    def comparison(self) -> Expression:
        left = self.sum()
        sign = self.take(*COMPARISONS)
        return Operation(COMPARISONS[sign], (left, self.sum())) if sign else left

    def sum(self) -> Expression:
        found = self.product()
        while sign := self.take(*SUMS):
            found = Operation(SUMS[sign], (found, self.product()))
        return found

    def product(self) -> Expression:
        found = self.unary()
        while self.take("*"):
            found = Operation(operator.mul, (found, self.unary()))
        return found

    def unary(self) -> Expression:
        return Operation(operator.neg, (self.unary(),)) if self.take("-") else self.place()

    def place(self) -> Expression:
        found = self.atom()
        return Of(found, self.task()) if self.take("of") else found

    def task(self) -> str:
        """A task's name."""
        token = self.tokens[self.at] if self.at < len(self.tokens) else ""
        if not re.fullmatch(r"0(\.[1-9][0-9]*)*", token):
            raise Unreadable("a task is written 0.1")
        self.at += 1
        return token

    def atom(self) -> Expression:
        if self.at >= len(self.tokens):
            raise Unreadable(ATOMS)
        token = self.tokens[self.at]
        self.at += 1
        if token == "(":
            found = self.either()
            self.need(")")
            return found
        if token == "c":
            if self.tokens[self.at:self.at + 1] != ["["]:
                raise Unreadable("a cell is written c[3]")
            self.need("[")
            number = self.either()
            self.need("]")
            return Cell(number)
        if token == "steps":
            self.need("(")
            task = self.task()
            self.need(")")
            return Steps(task)
        return self.word(token)

    @staticmethod
    def word(token: str) -> Expression:
        """An expression of one word."""
        if re.fullmatch(r"[0-9]+", token):
            return Number(wrapped(int(token[:40])))
        if token in ("value", "cell"):
            return Named(token)
        numbered = re.fullmatch(r"(r|arg)([0-9]{1,6})", token)
        if numbered and int(numbered[2]) < REGISTERS:
            made: type[Register | Argument] = Register if numbered[1] == "r" else Argument
            return made(int(numbered[2]))
        if numbered:
            raise Unreadable("the registers are r0 to r15, and the arguments arg0 to arg15")
        if re.fullmatch(r"c[0-9]+", token):
            raise Unreadable(f"a cell is written c[{token[1:]}]")
        raise Unreadable(f"`{token}` is no number: {ATOMS}")


def parsed(text: str) -> Expression:
    """The expression that a text is; raises Unreadable."""
    try:
        return Parser(text).whole()
    except RecursionError:
        raise Unreadable("too many brackets") from None
