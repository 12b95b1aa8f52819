"""What a place in a loop touches: all of it is told, in few events, and nothing that another place or call has touched."""

import subprocess
import unittest

import support
from taskrun import trace as t
from taskrun.actors import elements
from taskrun.building import need_clang, pass_plugin

HEAD = """#include <setjmp.h>
#include <stdint.h>
#include <stdio.h>
#include <stdlib.h>
#include <string.h>
"""
MAIN = """
int main(void) {
    printf("%%p\\n", (void *)x);
    fflush(stdout);
#pragma omp parallel num_threads(1)
#pragma omp single
    {
#pragma omp task
        { %s }
    }
    return 0;
}
"""
# Elements, how many, what the task does, and the most events that tell of it.
ROWS = {
    "long": ("long", 30000, "for (long i = 0; i < 30000; i++) x[i] = i;", 20),
    "char": ("char", 70000, "for (long i = 0; i < 70000; i++) x[i] = 1;", 10),
    "wide": ("__int128", 9000, "for (long i = 0; i < 9000; i++) x[i] = 1;", 20),
    "three times": ("int", 3000, "for (int t = 0; t < 3; t++) for (int i = 0; i < 3000; i++) sum += x[i];", 100),
    "both": ("short", 999, "for (int i = 0; i < 999; i++) x[i] = x[i] + 1;", 6),
    "one": ("int", 1, "for (int i = 0; i < 1000; i++) sum += x[0];", 1),
    "down": ("long", 2000, "for (int i = 1999; i >= 0; i--) sum += (int)x[i];", 200),
}
UNALIGNED = """static unsigned char x[400];
static int sum;
static void take(void) {
    for (int i = 0; i + 4 <= 400; i++)
        sum += *(int *)(x + i);
}
"""
# Inner calls have come as far as the outer one goes on from, and end by all ways.
CALLS = """static long x[4000];
static jmp_buf back;
static long take(int from, int to, int then, int depth) {
    long sum = 0;
    for (int i = from; i < to; i++) {
        if (i == then && depth == 1) {
            if (!setjmp(back))
                sum += take(0, i, 0, 2);
        }
        if (i == then && depth == 3)
            sum += take(0, i, 0, 4);
        sum += x[i];
    }
    if (depth == 2)
        longjmp(back, 1);
    return sum;
}
static long first(int from, int to) { return take(from, to, 0, 0); }
static long second(int from, int to) { return take(from, to, 0, 0); }
"""
THROWN = """
static long x[4000];
static long deep(int to, int depth) {
    long sum = 0;
    for (int i = 0; i < to; i++)
        sum += x[i];
    if (depth == 0)
        throw 1;
    return sum;
}
static long caught(int to) {
    try {
        return deep(to, 0);
    } catch (int) {
        return 0;
    }
}
static long walk(int from, int to) {
    long sum = 0;
    for (int i = from; i < to; i++) {
        if (i == 10)
            sum += caught(i);
        sum += x[i];
    }
    return sum;
}
"""
KILLED = "for (int i = 0; i < 1000; i++) { x[i] = i; if (i == 700) abort(); }"


@support.needs_clang
@unittest.skipUnless(pass_plugin(need_clang()), "LLVM's headers aren't there: apt-get install llvm-14-dev")
class Stretches(support.Recorded):
    def accesses(self, text, options=(), ending=".c", status=0):
        """The array's address, and the loads and stores of the tasks by what each touches from there on."""
        program, trace = self.compile_text(text, ending=ending, options=options), self.path("trace")
        done = subprocess.run([program], capture_output=True, text=True, check=False, env={**support.os.environ, "TASKBACK_TRACE": trace})
        self.assertEqual((done.returncode, done.stderr), (status, ""))
        low = int(done.stdout, 16)
        events = [event for event in support.Trace(trace).events if event.kind in (t.READ, t.WRITE, t.CHAIN) and not event.mark & t.FREED]
        return low, events

    def parts(self, text, size, **more):
        """Of each event that touches the array: which of its elements, and the chain of calls before it."""
        low, events = self.accesses(text, **more)
        chain, found = None, []
        for event in events:
            if event.kind == t.CHAIN:
                chain = (event.place, event.address)
                continue
            touched = [(one.address - low, one.value if one.size == t.LARGE else one.size) for one in elements(event)]
            if touched and 0 <= touched[0][0] < size:
                found.append((touched, chain))
        return found

    def test_rows(self):
        for name, (kind, count, does, most) in ROWS.items():
            for options in ((), ("-O1", "-fno-vectorize")):
                with self.subTest(name=name, options=options):
                    text = HEAD + f"static {kind} x[{count}];\nint sum;\n" + MAIN % does
                    size = {"long": 8, "char": 1, "__int128": 16, "int": 4, "short": 2}[kind]
                    parts = self.parts(text, size * count, options=options)
                    told = {at + byte for elements_, _ in parts for at, length in elements_ for byte in range(length)}
                    self.assertEqual(told, set(range(size * count)))
                    self.assertLessEqual(len(parts), most)

    def test_unaligned(self):
        """A load that begins in what is told and ends behind it isn't told."""
        parts = self.parts(HEAD + UNALIGNED + MAIN % "take();", 400)
        self.assertEqual({at + byte for one, _ in parts for at, length in one for byte in range(length)}, set(range(400)))

    def test_calls(self):
        """A call doesn't go on with what another one has touched, whether that has ended or goes on."""
        for does, wanted in (("first(0, 10); second(10, 20);", [(0, 10), (10, 10)]),
                             ("first(0, 10); first(10, 20);", [(0, 20)]),
                             ("take(10, 20, 10, 3);", [(0, 10), (10, 10)]),
                             ("take(10, 20, 10, 1);", [(0, 10), (10, 10)])):
            with self.subTest(does=does):
                parts = self.parts(HEAD + CALLS + MAIN % does, 32000)
                self.assert_whole(parts, wanted)

    def test_exceptions(self):
        parts = self.parts(HEAD + THROWN + MAIN % "walk(10, 20);", 32000, ending=".cc")
        self.assert_whole(parts, [(0, 10), (10, 10)])

    def assert_whole(self, parts, wanted):
        """Each of these ranges is told by events that touch nothing outside of it, as a whole."""
        left = {(first, count): set(range(first * 8, (first + count) * 8, 8)) for first, count in wanted}
        for one, _ in parts:
            touched = {at for at, _ in one}
            homes = [key for key in left if touched <= set(range(key[0] * 8, sum(key) * 8, 8))]
            self.assertEqual(len(homes), 1, parts)
            left[homes[0]] -= touched
        self.assertFalse(any(left.values()), parts)

    def test_what_was_touched_before_the_end(self):
        parts = self.parts(HEAD + "static long x[1000];\n" + MAIN % KILLED, 8000, status=-6)
        self.assertEqual({at for one, _ in parts for at, _ in one}, set(range(0, 701 * 8, 8)))

    def test_libraries(self):
        """What the code looks at are variables of the program, also for a library's loops."""
        folder = self.folder
        with open(self.path("part.c"), "w", encoding="utf-8") as file:
            file.write("long take(long *x) { long sum = 0; for (int i = 0; i < 900; i++) sum += x[i]; return sum; }\n")
        record = support.os.path.join(support.FOLDER, "record")
        subprocess.run([record, "cc", "-fPIC", "-shared", self.path("part.c"), "-o", self.path("libpart.so")], check=True)
        text = HEAD + "static long x[900];\nlong take(long *x);\n" + MAIN % "take(x);"
        parts = self.parts(text, 7200, options=(f"-L{folder}", "-lpart", f"-Wl,-rpath,{folder}"))
        self.assertEqual({at for one, _ in parts for at, _ in one}, set(range(0, 7200, 8)))
        self.assertLessEqual(len(parts), 2)


if __name__ == "__main__":
    unittest.main()
