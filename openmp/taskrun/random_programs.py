"""Random OpenMP programs in C: nested tasks with clauses, waits, groups and loops that touch a few shared numbers.

No `untied`: clang 14 itself ends by a fault in some programs that have it in a nested task.
"""

import random
from collections.abc import Iterator, Mapping
from typing import NamedTuple, Optional

PLACES = 5
DEPEND_TYPES = ("in", "out", "inout", "mutexinoutset")
NEW_TYPES = ("inoutset",)      # of clang 19
WAIT_TYPES = ("in", "inout")
DEEPEST = 4


class Statement(NamedTuple):
    """A directive with its clauses and what it stands in front of, or one line of C."""

    text: str
    clauses: tuple[str, ...] = ()
    body: Optional[tuple["Statement", ...]] = None     # None: no braces

    def lines(self, indent: int) -> list[str]:
        """As C."""
        pad = " " * indent
        told = " ".join((self.text, *self.clauses))
        if self.body is None:
            return [told if told.startswith("#") else pad + told]
        inner = [line for statement in self.body for line in statement.lines(indent + 4)]
        return [told, pad + "{", *inner, pad + "}"]


Statements = tuple[Statement, ...]


class Writer:
    """The statements of one program, by a seed."""

    def __init__(self, seed: int, has_new: bool) -> None:
        self._random = random.Random(seed)
        self._left = self._random.randint(4, 14)   # tasks
        self._types = DEPEND_TYPES + (NEW_TYPES if has_new else ())
        self._has_new = has_new

    def place(self) -> str:
        return f"x[{self._random.randrange(PLACES)}]"

    def block(self, depth: int) -> Statements:
        made = [self.statement(depth) for _ in range(self._random.randint(1, 4))]
        return tuple(statement for statements in made for statement in statements)

    def statement(self, depth: int) -> list[Statement]:
        roll = self._random.random()
        if depth < DEEPEST and self._left > 0 and roll < 0.5:
            return [self.task(depth)]
        if depth < DEEPEST and roll < 0.6:
            return [Statement("#pragma omp taskgroup", (), self.block(depth + 1))]
        if roll < 0.7:
            return [Statement("#pragma omp taskwait")]
        if roll < 0.75:
            return [Statement("#pragma omp taskwait", (f"depend({self._random.choice(WAIT_TYPES)}: {self.place()})",))]
        if roll < 0.8 and self._left > 1:
            return self.loop()
        return [Statement(f"{self.place()} = {self.place()} + {self._random.randint(1, 9)};")]

    def task(self, depth: int) -> Statement:
        self._left -= 1
        clauses = []
        if self._random.random() < 0.2:
            clauses.append("if(0)")
        elif self._random.random() < 0.1:
            clauses.append("final(1)")
        places = self._random.sample(range(PLACES), self._random.choice((0, 1, 1, 2, 3)))
        if self._has_new and self._random.random() < 0.05:
            clauses.append("depend(inout: omp_all_memory)")
        else:
            clauses += [f"depend({self._random.choice(self._types)}: x[{place}])" for place in places]
        return Statement("#pragma omp task", tuple(clauses), self.block(depth + 1))

    def loop(self) -> list[Statement]:
        self._left -= 2
        extra = self._random.choice(((), ("nogroup",), ("if(0)",)))
        inner = Statement(f"for (int i = 0; i < 2; i++) x[i] += {self.place()};")
        return [Statement("#pragma omp taskloop num_tasks(2)", extra), inner]


def program(seed: int, has_new: bool = False) -> Statements:
    """The statements of the program of this seed."""
    writer = Writer(seed, has_new)
    return tuple(statement for _ in range(3) for statement in writer.block(1))


def function(name: str, statements: Statements) -> str:
    """A C function that does them."""
    lines = [line for statement in statements for line in statement.lines(4)]
    return f"static void {name}(void) {{\n" + "\n".join(lines) + "\n}\n"


def source(programs: Mapping[int, Statements]) -> str:
    """A C program that runs the one of these, statements by a number, that its argument names."""
    cases = "".join(f"    case {number}: program_{number}(); break;\n" for number in programs)
    functions = "\n".join(function(f"program_{number}", statements) for number, statements in programs.items())
    return (f"#include <omp.h>\n#include <stdlib.h>\n\nstatic int x[{PLACES}];\n\n{functions}"
            "\nint main(int count, char **words) {\n    int which = count > 1 ? atoi(words[1]) : 0;\n"
            "#pragma omp parallel\n#pragma omp single\n    switch (which) {\n" + cases +
            "    }\n    return 0;\n}\n")


def alone(statements: Statements, remark: str) -> str:
    """A C program of these statements alone, below a remark."""
    return (f"/* {remark} */\n#include <omp.h>\n\nstatic int x[{PLACES}];\n\n{function('program', statements)}"
            "\nint main(void) {\n#pragma omp parallel\n#pragma omp single\n    program();\n    return 0;\n}\n")


def smaller(statements: Statements) -> Iterator[Statements]:
    """What is left where one statement is taken out, or stands for its body, or lacks a clause; the smallest ones first."""
    for number, statement in enumerate(statements):
        front, back = statements[:number], statements[number + 1:]
        if statement.text.startswith("#pragma omp taskloop"):
            yield front + back[1:]
        elif not statement.text.startswith("for "):
            yield front + back
        if statement.body:
            yield front + statement.body + back
        for clause in statement.clauses:
            left = tuple(other for other in statement.clauses if other is not clause)
            yield (*front, statement._replace(clauses=left), *back)
        for body in smaller(statement.body or ()):
            yield (*front, statement._replace(body=body), *back)
