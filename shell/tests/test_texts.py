"""The words of the shell, which need no program."""

import unittest

from shell import faults, help_texts, texts


class FaultTest(unittest.TestCase):
    def show(self, line: str, kind: str) -> list[str]:
        return faults.fault_lines("a.task", f"cells 1\n  {line}\n", 2, kind)

    def test_mark_and_form(self) -> None:
        shown = self.show("let r1 = r0 + 1", "BadNumber")
        self.assertEqual(shown[0], "a.task:2: let r1 = r0 + 1")
        self.assertEqual(shown[1].index("^"), shown[0].index("="))
        self.assertEqual(shown[3], "  it should look like: let r1 r0 + 1")

    def test_word_at_fault(self) -> None:
        for line, kind, word in (("stroe 0 1", "UnknownWord", "stroe"), ("store x 1", "BadNumber", "x"),
                                 ("task nobody", "UnknownBody", "nobody"), ("print r16", "Register", "r16"),
                                 ("task t depend readonly 0", "DependType", "readonly"), ("cell 7 1", "CellRange", "7"),
                                 ("task t x depend in 0", "BadNumber", "x"), ("task t depend in y", "BadNumber", "y"),
                                 ("if r0 = 1", "UnknownWord", "="), ("task t depend in 0 out 1", "UnknownWord", "out"), ("taskwait on 0 1", "UnknownWord", "on"),
                                 ("task t 1 depend in 0 if r0 > 1", "UnknownWord", ">"), ("task t depend in 0", "UnknownWord", None), ("load 3 r1", "Register", "3"), ("else", "Nesting", "else")):
            words = line.split(" ")
            place = faults.word_at_fault(words, kind)
            self.assertEqual(None if place is None else words[place], word, line)
        self.assertIsNone(faults.word_at_fault(["print"], "Arity"))

    def test_why_a_clause_is_unknown(self) -> None:
        self.assertIn("  a clause is `depend TYPE ADDR`, or at the end of a task `if A CMP B` (UnknownWord)", self.show("task t depend in 0 out 1", "UnknownWord"))
        self.assertIn("  the comparisons are ==, !=, < and <= (UnknownWord)", self.show("task t if r0 > 1", "UnknownWord"))

    def test_forms(self) -> None:
        self.assertEqual(faults.should_be(["stroe", "0", "1"]), "store ADDR VAL")
        self.assertIn("print VAL", self.show("print", "Arity")[-1])
        for line, kind, wanted in (("if r0 = 1", "UnknownWord", "if r0 == 1"), ("while r0 >= r1", "UnknownWord", "while r1 <= r0"),
                                   ("if r0 => 1", "UnknownWord", "if A CMP B, where CMP is == != < <="), ("r1 = r2 + 3", "UnknownWord", "let r1 r2 + 3"),
                                   ("let r1 r0 / 2", "UnknownWord", "let rK A   or   let rK A OP B, where OP is + - *"),
                                   ("store 0, 5;", "BadNumber", "store 0 5"), ("task t depend in 0, r1", "BadNumber", "task t depend in 0 depend in r1"),
                                   ("task t if (r0 >= 2)", "BadNumber", "task t if 2 <= r0"), ("task t depend in 0 if 1 > 2", "UnknownWord", "task t depend in 0 if 2 < 1")):
            self.assertEqual(self.show(line, kind)[-1], "  it should look like: " + wanted)
        text = "cells 1\nbody main 0\n  task ad 1\nend\nbody add 1\nend\n"
        self.assertEqual(faults.fault_lines("a.task", text, 3, "UnknownBody")[-1], "  it should look like: task add 1")
        self.assertEqual(faults.fault_lines("a.task", text.replace("ad 1", "nobody"), 3, "UnknownBody")[-1], "  no body has this name: there are main and add (UnknownBody)")
        self.assertEqual(faults.fault_lines("a.task", "cells 1\n", 2, "NoMain"), ["a.task:2: no body is named main (NoMain)"])


class WordsTest(unittest.TestCase):
    def test_items(self) -> None:
        for new, old, wanted in (("in 0", "in 0", None), ("in 0", "out 0", "after"), ("in 0", "out 1", None),
                                 ("inout all", "in 5", "after"), ("mutexinoutset 0", "mutexinoutset 0", "apart"),
                                 ("inoutset 0", "inoutset 0", None), ("in 0", "inoutset 0", "after")):
            self.assertEqual(texts.needs_order(new, old), wanted, (new, old))

    def test_the_list_of_commands_keeps_to_the_screen(self) -> None:
        for columns in (80, 100, 200):
            self.assertLessEqual(max(map(len, help_texts.help_list(columns))), columns)
        self.assertEqual(" ".join(" ".join(help_texts.help_list(80)).split()), " ".join(" ".join(help_texts.help_list(200)).split()))

    def test_every_command_has_help(self) -> None:
        for name in help_texts.HELP:
            self.assertIn("for example: ", help_texts.help_of(name)[2])


if __name__ == "__main__":
    unittest.main()
