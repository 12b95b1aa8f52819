"""Expressions: what they say, what they hang on, and what is no expression; `print` and `display`."""

import random
import unittest

from support import Typed, example, needs_program
from shell.expressions import Unknown, Unreadable, parsed

NUMBERS = {("0", 0): 3, ("0", 1): -2, ("0.1", 0): 7}


class Fixed:
    """Numbers that are given."""

    def register(self, task: str, number: int) -> int | None:
        return NUMBERS.get((task, number), 0)

    def argument(self, task: str, number: int) -> int | None:
        return 100 + number

    def cell(self, number: int) -> int | None:
        if not 0 <= number < 5:
            raise Unknown(f"the program has no cell {number}")
        return 10 * number

    def steps(self, task: str) -> int | None:
        return len(task)

    def named(self, name: str) -> int | None:
        return 5 if name == "value" else 1


GIVEN = (
    ("1 + 2 * 3", 7), ("(1 + 2) * 3", 9), ("-r0", -3), ("- -3", 3), ("r0 - r1 - 1", 4), ("c[3]", 30), ("c[r0 + 1]", 40), ("c[c[0]]", 0),
    ("steps(0.1)", 3), ("r0 of 0.1", 7), ("r0 of 0.1 + r0", 10), ("(r0 + r1) of 0.1", 7), ("arg2", 102), ("value == 5", 1), ("cell", 1),
    ("r0 > 3", 0), ("r0 >= 3", 1), ("r0 < 3 or r1 < 0", 1), ("r0 == 3 and not r1 == 0", 1), ("not r0", 0), ("not not r0", 1),
    ("9223372036854775807 + 1", -9223372036854775808), ("0 and c[99]", 0), ("1 or c[99]", 1), ("3 != 3", 0), ("c[ 3 ]+1", 31),
)
UNREADABLE = ("", "1 +", "r16", "arg16", "c[1", "c 1", "1 2", "x", "steps(7)", "steps 0.1", "r0 of", "r0 of 0.0", "1 = 2", "$", "(1", "1)", "of", "0.1",
              "(" * 400, "1" + " + 1" * 200, "- " * 140 + "1" + ")")


class Parsing(unittest.TestCase):
    def test_each(self) -> None:
        for text, wanted in GIVEN:
            self.assertEqual(parsed(text).evaluate(Fixed(), "0"), wanted, text)

    def test_what_is_no_expression(self) -> None:
        for text in UNREADABLE:
            with self.assertRaises(Unreadable, msg=text):
                parsed(text)

    def test_a_number_that_is_not_there(self) -> None:
        with self.assertRaises(Unknown):
            parsed("c[9]").evaluate(Fixed(), "0")

    def test_random_sums_are_pythons(self) -> None:
        choice = random.Random(5)

        def made(deep: int) -> str:
            if deep == 0 or choice.random() < 0.2:
                return str(choice.randrange(20))
            sign = choice.choice(("+", "-", "*", "==", "!=", "<", "<=", ">", ">=", "and", "or"))
            return f"({made(deep - 1)} {sign} {made(deep - 1)})"
        for _ in range(300):
            text = made(4)
            wanted = eval(text.replace("and", "and bool").replace("or", "or bool")) if " and " not in text and " or " not in text else None
            if wanted is not None:
                self.assertEqual(parsed(text).evaluate(Fixed(), "0"), int(wanted), text)

    def test_what_a_number_hangs_on(self) -> None:
        for text, tasks, cells in (("1", (), False), ("r0", ("0",), False), ("c[1]", (), True), ("c[r0] + r1 of 0.1", ("0", "0.1"), True),
                                   ("steps(0.2)", ("0.2",), False), ("arg0", (), False), ("r0 == 1 and c[0] == 1", ("0",), True)):
            reads = parsed(text).reads("0")
            self.assertEqual((reads.tasks, reads.cells), (frozenset(tasks), cells), text)


@needs_program
class Printed(unittest.TestCase):
    def test_numbers_of_a_session(self) -> None:
        shell = Typed(self, example("race.task"))
        shell.ask("until 0.2#3")
        for typed, wanted in (("print r0", "r0 of 0.2 = 2"), ("p r1 of 0.1", "r1 of 0.1 = 1"), ("p c[0]", "c[0] = 1"), ("p arg0 of 0.1", "arg0 of 0.1 = 1"),
                              ("p steps(0.1) + 1", "steps(0.1) + 1 = 6"), ("p r0 + r1 * 2", "(r0 + r1 * 2) of 0.2 = 8"),
                              ("p r0 of 0.7", "task 0.7 hasn't been generated"), ("p c[1]", "the program has no cell 1"),
                              ("p value", "`value` is that of a step: it is for the condition of a breakpoint"), ("p arg3 of 0.1", "task 0.1 has 1 argument"),
                              ("p", "print EXPR, for example: print r0 + c[3]")):
            self.assertTrue(shell.ask(typed)[0].startswith(wanted), (typed, shell.ask(typed)))

    def test_display_after_each_step(self) -> None:
        shell = Typed(self, example("race.task"))
        self.assertEqual(shell.ask("display"), ["no expression is displayed"])
        self.assertEqual(shell.ask("display c[0]"), ["1: c[0] = 0"])
        shell.ask("run 3")
        shell.ask("step 0.1")
        self.assertEqual(shell.ask("display r1"), ["2: r1 of 0.1 = 0"])
        self.assertEqual(shell.ask("finish 0.1")[-2:], ["1: c[0] = 1", "2: r1 of 0.1 = 1"])
        self.assertEqual(shell.ask("tasks")[-1].split(" ")[0], "0.2")
        self.assertEqual(shell.ask("roll 0#2")[-1], "2: r1 of 0.1 = none: task 0.1 hasn't been generated")
        self.assertEqual(shell.ask("undisplay 2"), [])
        self.assertEqual(shell.ask("undisplay 2"), ["no expression 2 is displayed"])
        self.assertEqual(shell.ask("display"), ["1: c[0] = 0"])
        self.assertIn("is no number", shell.ask("display x")[0])


if __name__ == "__main__":
    unittest.main()
