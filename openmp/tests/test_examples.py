"""Each example is answered as its first comment says, on every run, with one thread, two and eight."""

import os
import re
import unittest
import unittest.mock

import support

RUNS = int(os.environ.get("TASKBACK_OPENMP_RUNS", "10"))
SENTENCE = "for this input, every schedule has this outcome"
BY_ONE = "for this input, every schedule by one thread has this outcome"

# Of programs whose threads go by their numbers a team of one doesn't show what more threads do: `hidden` is a race of
# these, `number` is none.
RACES = ("race", "hidden")
GO_BY_NUMBERS = ("hidden", "number")

# The coverage's calls have no loads and stores of ten bytes, and nothing tells there of the iterations of a `simd` loop, nor
# what falls to who did the last iteration of a loop.
BY_THE_PASS = ("long_double_race.c", "simd_ordered.c", "simd_ordered_race.c", "simd_race.c", "simd_sum_race.c",
               "simd_safelen_race.c", "loop_nowait_race.c", "last_private_sections.c", "last_private_conditional.c")


def expected(name):
    """The words after `expect:` in an example."""
    with open(os.path.join(support.EXAMPLES, name), encoding="utf-8") as file:
        return re.search(r"expect: (.*?) \*/", file.read(), re.S)[1].split()


class Answers(support.Recorded):
    """Compares an answer with the words of an example."""

    def check_example(self, program, threads):
        return support.answer.answer(support.judge_trace(self.run_alone(program, threads)))

    def compare(self, wanted, threads, status, lines):
        told = "\n".join(lines)
        if threads == 1 and wanted[0] in GO_BY_NUMBERS:
            self.assertEqual(status, 0, told)
            self.assertIn("a team of one thread asks for its number", told)
            self.assertIn(BY_ONE, lines[-1])
        elif wanted[0] in RACES:
            self.compare_races(wanted, status, lines)
        else:
            self.compare_none(wanted, status, lines)

    def compare_races(self, wanted, status, lines):
        told = "\n".join(lines)
        self.assertEqual(status, 2, told)
        names = support.names_told(lines)
        self.assertTrue(names and names <= set(wanted[1:]), f"{names}: {told}")

    def compare_none(self, wanted, status, lines):
        told = "\n".join(lines)
        self.assertEqual(status, 0, told)
        self.assertIn(SENTENCE, lines[-1])
        if wanted[0] == "none":
            self.assertEqual(len(lines), 1, told)
            self.assertTrue(lines[-1].endswith(SENTENCE), told)
        elif wanted[0] == "apart":
            self.assertRegex(lines[0], f"never both at once .*{wanted[1]}")
        else:
            self.assertTrue(lines[0].startswith("not ordered, or only as seen: "), told)


@support.needs_clang
class Examples(Answers):
    def check_all(self, name):
        if name in BY_THE_PASS and not support.building.pass_plugin(support.building.need_clang()):
            self.skipTest("LLVM's headers aren't there: apt-get install llvm-14-dev")
        program = self.example(name)
        for threads in support.THREADS:
            for run in range(RUNS):
                with self.subTest(example=name, threads=threads, run=run):
                    self.compare(expected(name), threads, *self.check_example(program, threads))

    def test_optimised(self):
        """With `-O2` the names may be others, but not whether there is a race."""
        names = sorted(os.listdir(support.EXAMPLES))[::1 if RUNS >= 10 else 3]
        support.Compiled.start(names, "-O2")
        for name in names:
            if name in BY_THE_PASS:
                continue
            with self.subTest(example=name):
                status, lines = self.check_example(self.example(name, "-O2"), 2)
                self.assertEqual(status, 2 if expected(name)[0] in RACES else 0, lines)

    def test_there_are_enough(self):
        wanted = [expected(name)[0] for name in os.listdir(support.EXAMPLES)]
        self.assertGreaterEqual(len(wanted), 120)
        self.assertGreaterEqual(2 * sum(kind in RACES for kind in wanted), len(wanted) - 8)


@support.needs_clang
class WithoutPass(Answers):
    """Where LLVM's headers aren't there, clang's coverage makes the calls for loads and stores."""

    def setUp(self):
        super().setUp()
        off = unittest.mock.patch.dict(os.environ, TASKBACK_PLUGIN="0")
        off.start()
        self.addCleanup(off.stop)

    def test_the_coverage_is_asked_for(self):
        compiler = support.building.need_clang()
        self.assertIsNone(support.building.pass_plugin(compiler))
        self.assertIn(support.building.COVERAGE[0], support.building.instrumenting(compiler))

    def test_examples(self):
        for name in sorted(os.listdir(support.EXAMPLES))[::5]:
            if name in BY_THE_PASS:
                continue
            program = self.compile(os.path.join(support.EXAMPLES, name), name + ".program")
            for threads in support.THREADS:
                with self.subTest(example=name, threads=threads):
                    self.compare(expected(name), threads, *self.check_example(program, threads))


def add_tests():
    for name in sorted(os.listdir(support.EXAMPLES)):
        def test(self, name=name):
            self.check_all(name)
        setattr(Examples, "test_" + re.sub(r"\W", "_", name), test)


add_tests()

if __name__ == "__main__":
    unittest.main()
