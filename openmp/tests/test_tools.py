"""The recorder as build systems use it: other names, objects, libraries, and compilers that aren't clang."""

import json
import os
import subprocess
import unittest

import support

RACY = ("#pragma omp parallel\n#pragma omp single\n{\n#pragma omp task\nx = 1;\n#pragma omp task\nx = 2;\n}\n")
C_PROGRAM = "int x;\nint main(void) {\n" + RACY + "return 0;\n}\n"
CXX_PROGRAM = "#include <string>\nint x;\nint main() {\nstd::string name(\"a\");\n" + RACY + "return (int)name.size() - 1;\n}\n"


@support.needs_clang
class Tools(support.Recorded):
    def write(self, name, text):
        with open(self.path(name), "w", encoding="utf-8") as file:
            file.write(text)
        return self.path(name)

    def built(self, command, *words, **changes):
        done = subprocess.run([os.path.join(support.FOLDER, command), *words], capture_output=True, text=True, check=False,
                              cwd=self.folder, env={**os.environ, **changes})
        return done.returncode, done.stderr

    def answer_of(self, program, threads=2):
        return support.answer.answer(support.judge_trace(self.run_alone(self.path(program), threads)))

    def test_cxx_from_objects(self):
        self.write("one.cc", CXX_PROGRAM)
        self.assertEqual(self.built("record", "c++", "-c", "one.cc", "-o", "one.o"), (0, ""))
        self.assertEqual(self.built("record", "cc", "one.o", "-o", "program"), (0, ""))
        self.assertEqual(self.answer_of("program")[0], 2)

    def test_names_of_compilers(self):
        self.write("one.c", C_PROGRAM)
        self.assertEqual(self.built("taskback-cc", "one.c", "-o", "program"), (0, ""))
        self.assertEqual(self.answer_of("program")[0], 2)
        self.write("one.txt", CXX_PROGRAM)
        self.assertEqual(self.built("taskback-c++", "-x", "c++", "-c", "one.txt", "-o", "two.o"), (0, ""))
        self.assertEqual(self.built("taskback-c++", "two.o", "-o", "two"), (0, ""))
        self.assertEqual(self.answer_of("two")[0], 2)

    def test_shared_library(self):
        self.write("part.c", "int x;\nvoid part(int n) { x = n; }\n")
        self.write("main.c", "void part(int);\nint main(void) {\n#pragma omp parallel\n#pragma omp single\n{\n"
                             "#pragma omp task\npart(1);\n#pragma omp task\npart(2);\n}\nreturn 0;\n}\n")
        self.assertEqual(self.built("record", "cc", "-fPIC", "-shared", "part.c", "-o", "libpart.so"), (0, ""))
        self.assertEqual(self.built("record", "cc", "main.c", "-o", "program", self.path("libpart.so"),
                                    f"-Wl,-rpath,{self.folder}"), (0, ""))
        self.assertEqual(self.answer_of("program")[0], 2)

    def test_objects_that_were_not_compiled_so(self):
        self.write("part.c", "int x;\nvoid part(int n) { x = n; }\n")
        self.write("main.c", "void part(int);\nint main(void) {\n#pragma omp parallel\n#pragma omp single\n{\n"
                             "#pragma omp task\npart(1);\n#pragma omp task\npart(2);\n}\nreturn 0;\n}\n")
        subprocess.run([support.building.clang(), "-c", "part.c", "-o", "part.o"], cwd=self.folder, check=True)
        self.assertEqual(self.built("record", "cc", "main.c", "part.o", "-o", "program"), (0, ""))
        status, lines = self.answer_of("program")
        self.assertEqual(status, 0)
        self.assertIn("part.o", lines[0])
        self.assertNotIn("every schedule", lines[-1])

    def test_output_that_is_called_as_a_source(self):
        self.write("one.c", C_PROGRAM)
        self.assertEqual(self.built("record", "cc", "one.c", "-o", "out.c"), (0, ""))
        self.assertEqual(self.answer_of("out.c")[0], 2)

    def test_function_with_the_name_of_one_of_the_library(self):
        self.write("part.c", "int random(int most, int least) { return most - least; }\n")
        self.write("main.c", "int random(int, int);\n" + C_PROGRAM.replace("return 0", "return random(9, 9)"))
        self.assertEqual(self.built("record", "cc", "-fno-builtin", "main.c", "part.c", "-o", "program"), (0, ""))
        self.assertEqual(self.answer_of("program")[0], 2)

    def test_loop_directive_keeps_its_lines(self):
        self.write("one.c", "int a[9];\nint main(void) {\n#pragma omp parallel\n#pragma omp loop bind(parallel) \\\n    order(concurrent)\n"
                            "for (int i = 0; i < 8; i++)\n    a[i] = a[i + 1];\nreturn 0;\n}\n")
        self.assertEqual(self.built("record", "cc", "-c", "one.c", "-o", "one.o"), (0, ""))
        self.assertEqual(self.built("record", "cc", "one.o", "-o", "program"), (0, ""))
        status, lines = self.answer_of("program")
        self.assertEqual(status, 2)
        self.assertIn("one.c:7 ", lines[0])

    def test_gcc_is_refused_by_name(self):
        self.write("one.c", C_PROGRAM)
        compiler = self.write("gcc", "#!/bin/sh\necho 'gcc (Debian 12.2.0-14) 12.2.0'\n")
        os.chmod(compiler, 0o755)
        status, told = self.built("record", "cc", "one.c", "-o", "program", TASKBACK_CLANG=compiler)
        self.assertEqual(status, 64)
        self.assertIn("libgomp", told)

    def test_json(self):
        program = self.compile_text(C_PROGRAM)
        done = subprocess.run([os.path.join(support.FOLDER, "check"), "--json", self.run_alone(program, 1)],
                              capture_output=True, text=True, check=False)
        found = json.loads(done.stdout)
        self.assertEqual((done.returncode, found["status"], found["tasks"], len(found["races"])), (2, 2, 2, 1))
        self.assertEqual([step["line"] for step in found["races"][0]["steps"]], [7, 9])


if __name__ == "__main__":
    unittest.main()
