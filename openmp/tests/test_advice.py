"""What is advised: in the task's own words, and only what its directive takes."""

import types
import unittest

import support


def program(body, before=""):
    return f"{before}static int x, a[9];\nint main(void) {{\n#pragma omp parallel\n#pragma omp single\n{{\n{body}\n}}\nreturn 0;\n}}\n"


@support.needs_clang
class Advice(support.Recorded):
    def told(self, body, before=""):
        status, lines = self.check_text(program(body, before))
        self.assertEqual(status, 2, lines)
        return lines

    def test_one_mistake_is_one_report(self):
        lines = self.told("for (int i = 0; i < 9; i++) {\n#pragma omp task\nfor (int k = 0; k < 9; k++)\na[k] = a[k] + i;\n}")
        self.assertEqual(len(lines), 1, lines)
        self.assertRegex(lines[0], r"writes a\[k\].*writes a\[k\].*add depend\(inout: a\[k\]\)  \(\d+ times\)")

    def test_no_clause_for_a_taskloop(self):
        lines = self.told("#pragma omp taskloop num_tasks(3)\nfor (int i = 0; i < 9; i++)\nx += i;")
        self.assertNotIn("depend(", lines[0])

    def test_a_clause_that_is_there_is_not_advised(self):
        lines = self.told("#pragma omp task depend(in: x)\nx = 1;\n#pragma omp task depend(in: x)\nx = 2;")
        self.assertIn("say depend(inout: x) where it is written", lines[0])

    def test_the_element_of_the_task_itself(self):
        lines = self.told("for (int i = 1; i < 3; i++) {\n#pragma omp task depend(out: a[i])\na[i] = i;\n"
                          "#pragma omp task\na[i + 4] = a[i];\n}")
        self.assertIn("add depend(in: a[i])", lines[0])

    def test_a_helper_is_told_by_its_own_line_and_a_header_by_its_caller(self):
        before = "#include <stdlib.h>\nstatic void set(int *to) { *to = 1; }\n"
        lines = self.told("#pragma omp task\nset(&x);\n#pragma omp task\nset(&x);", before)
        self.assertRegex(lines[0], r"program\.c:2 writes \*to, program\.c:2 writes \*to")

    def test_a_clause_is_in_the_words_of_the_directives_scope(self):
        put = "static void put(int *p, int v) {\np[0] = v;\n}\n"
        lines = self.told("#pragma omp task\nput(&a[3], 1);\n#pragma omp task\nput(&a[3], 2);", put)
        self.assertIn("program.c:2 writes p[0]", lines[0])
        self.assertIn("add depend(inout: a[3]) to both", lines[0])
        known = "static int total;\nstatic void count(void) {\ntotal++;\n}\n"
        lines = self.told("#pragma omp task\ncount();\n#pragma omp task\ncount();", known)
        self.assertIn("add depend(inout: total) to both", lines[0])
        local = "static void deep(int *p) {\nint *q = p + 1;\n*q = 2;\n}\n"
        lines = self.told("#pragma omp task\ndeep(a);\n#pragma omp task\ndeep(a);", local)
        self.assertNotIn("depend(", lines[0])

    def test_memory_without_a_name_is_told_by_its_element(self):
        race, side = types.SimpleNamespace(block={"offset": 48}), types.SimpleNamespace(size=4)
        self.assertEqual(support.answer.part_of_block(race, side), "element 12 of the array")
        side.size = 32
        self.assertEqual(support.answer.part_of_block(race, side), "byte 48 of the block")

    def test_a_block_is_told_by_where_it_was_taken(self):
        lines = self.told("char *p = malloc(8), *q = p;\n#pragma omp task\n*(short *)(p + 2) = 1;\n#pragma omp task\n"
                          "*(short *)(q + 2) = 2;\n", "#include <stdlib.h>\n")
        self.assertIn("nothing orders tasks at program.c:8 and program.c:10", lines[0])


if __name__ == "__main__":
    unittest.main()
