"""Locks and atomic operations: what they keep apart is no race, and what they don't is, also where both stand."""

import unittest

import support

FORMS = {"critical": "#pragma omp critical\n", "other": "#pragma omp critical(other)\n", "atomic": "#pragma omp atomic\n",
         "plain": ""}


def program(forms, before=""):
    """Tasks that add to one counter in these forms, with a statement in front of the last of them."""
    tasks = [f"#pragma omp task\n{{\n{FORMS[form]}x++;\n}}\n" for form in forms]
    tasks.insert(1, before)
    return ("static int x;\nint main(void) {\n#pragma omp parallel\n#pragma omp single\n{\n" + "".join(tasks) +
            "}\nreturn 0;\n}\n")


@support.needs_clang
class Guards(support.Recorded):
    def statuses(self, *words):
        built = self.compile_text(program(*words))
        return {self.check(built, threads)[0] for threads in support.THREADS}

    def test_kept_apart(self):
        self.assertEqual(self.statuses(["critical"] * 3), {0})
        self.assertEqual(self.statuses(["atomic"] * 3), {0})

    def test_not_kept_apart(self):
        for forms in (["critical", "other"], ["critical", "atomic"], ["critical", "plain", "critical"],
                      ["atomic", "atomic", "plain"], ["plain", "critical", "critical"]):
            with self.subTest(forms=forms):
                self.assertEqual(self.statuses(forms), {2})

    def test_an_earlier_one_without_a_lock(self):
        # The parent's own step is in front of the second task and not of the first: the newest that the first one
        # meets is the second one's, which the lock keeps apart.
        self.assertEqual(self.statuses(["critical", "critical"], "x += 5;\n"), {2})

    def test_ordered_in_optimised_code(self):
        """What is stored there isn't the loop's number, which is in no memory."""
        built = self.compile_text("#include <stdio.h>\nint main(void) {\nint x = 0;\n#pragma omp parallel for ordered\n"
                                  "for (int i = 0; i < 50; i++) {\n#pragma omp ordered\nx = x * 2 + i;\n}\n"
                                  "printf(\"%d\\n\", x);\nreturn 0;\n}\n", options=("-O2",))
        self.assertEqual({self.check(built, threads)[0] for threads in support.THREADS}, {0})


if __name__ == "__main__":
    unittest.main()
