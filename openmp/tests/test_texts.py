"""What stands at a column of a source line, and what is left out of a session or told."""

import os
import tempfile
import unittest
import unittest.mock

import support
from taskrun import session as sessions
from taskrun.places import Place, Sources, expression_at, read_place


class Expressions(unittest.TestCase):
    def test_expressions(self):
        for line, mark, wanted in (
                ("  total = total + 1;", 8, "total"), ("  total = total + 1;", 10, "total"),
                (" a[i][j] += b->x[2];", 9, "a[i][j]"), (" a[i][j] += b->x[2];", 15, "b->x[2]"),
                ("   *p = 3;", 6, "*p"), ("   x++;", 4, "x"), ("   (*p).x = 3;", 10, "(*p).x"),
                ("  free(node->next);", 2, "node->next"), ("  last += node->value;", 16, "node->value"),
                ("  return ++x;", 9, "x"), ("  return --*p;", 9, "*p"), ("  if (x > 1) ++a[i];", 13, "a[i]"), ("   a[i]++ * 2;", 7, "a[i]"),
                ("  return x;", 2, ""), ("", 0, ""), ("  x", 40, "")):
            with self.subTest(line=line, column=mark + 1):
                self.assertEqual(expression_at(line, mark + 1), wanted)

    def test_what_a_directive_reduces(self):
        with tempfile.TemporaryDirectory() as folder:
            path = os.path.join(folder, "text.c")
            for text, wanted in (("#pragma omp for reduction(+ : sum) nowait", "sum"), ("#pragma omp for reduction(+ : a, b)", "memory"),
                                 ("  #pragma omp taskgroup \\\n task_reduction(max: most)", "most"), (" y = reduction(x);", "y"),
                                 ("#pragma omp for reduction(+ : a) reduction(* : b)", "memory")):
                with self.subTest(text=text), open(path, "w", encoding="utf-8") as file:
                    file.write(text + "\n")
                    file.flush()
                    column = len(text) - len(text.lstrip()) + 1
                    with unittest.mock.patch("taskrun.places.find_places", return_value={1: Place(path, 1, column)}):
                        self.assertEqual(Sources("", {1}).expression(1), wanted)

    def test_places(self):
        self.assertEqual(str(read_place("/a/b.c:12:5")), "b.c:12")
        self.assertEqual(str(read_place("/a/b.c:12 (discriminator 2)")), "b.c:12")
        self.assertEqual(str(read_place("??:0:0")), "a place without a line")


def program(body):
    """A C program whose single does this."""
    return ("#include <stdio.h>\n#include <stdlib.h>\nstatic int x[2000], y;\nint main(void) {\n#pragma omp parallel\n"
            f"#pragma omp single\n    {{\n{body}\n    }}\n    return 0;\n}}\n")


@support.needs_clang
class Sessions(support.Recorded):
    def text_of(self, body, threads=2):
        return self.session(self.compile_text(program(body)), threads).text()

    def test_alone_and_only_read(self):
        text = self.text_of("y = 2;\n#pragma omp task\nx[0] = y;\n#pragma omp task\nx[2] = y;")
        self.assertIn("\ncells 0\n", text)
        self.assertIn("# left out: places of eight bytes that several tasks only read: 1", text)

    def test_numbers_that_share_eight_bytes(self):
        text = self.text_of("#pragma omp task\nx[0] = 1;\n#pragma omp task\nx[1] = 1;")
        self.assertIn("\ncells 0\n", text)

    def test_touched_alike(self):
        text = self.text_of("#pragma omp task depend(out: x)\nfor (int i = 0; i < 64; i++) x[i] = i;\n"
                            "#pragma omp task depend(in: x)\nfor (int i = 0; i < 64; i++) y += x[i];")
        self.assertIn("writes x[i] and 63 more", text)

    def test_one_body_for_tasks_alike(self):
        text = self.text_of("for (int i = 0; i < 9; i++) {\n#pragma omp task depend(inout: y)\ny += i;\n}")
        self.assertEqual(text.count("\nbody "), 2)

    def test_memory_that_is_used_again(self):
        text = self.text_of("for (int i = 0; i < 9; i++) {\n#pragma omp task\n{ int *p = malloc(4); int z = i;\n"
                            "#pragma omp task shared(z)\n*p = z;\n#pragma omp taskwait\nfree(p); }\n}")
        found = support.re.search(r"^cells (\d+)$", text, support.re.M)
        self.assertGreaterEqual(int(found[1]), 9)

    def test_too_many(self):
        session = self.session(self.compile_text(program(
            "for (int i = 0; i < 2000; i++) {\n#pragma omp task\nx[(i * 7 + i / 3) % 2000] = x[i] + 1;\n}")), 1)
        before, sessions.MOST_CELLS = sessions.MOST_CELLS, 100
        self.addCleanup(setattr, sessions, "MOST_CELLS", before)
        with self.assertRaisesRegex(sessions.TooLarge, r"the run needs \d+ cells, and the notation has room for 100"):
            session.text()

    def test_what_is_not_said_is_told(self):
        session = self.session(self.compile_text(program(
            "#pragma omp task priority(2)\n{\n#pragma omp critical\ny++;\n}\n#pragma omp task\n{\n"
            "#pragma omp critical\ny++;\n}")), 1)
        self.assertEqual(session.unsaid(), [("critical sections and locks", 2),
                                            ("accesses that one lock keeps apart", 4)])
        self.assertIn("# left out: priority clauses: 1", session.text())


if __name__ == "__main__":
    unittest.main()
