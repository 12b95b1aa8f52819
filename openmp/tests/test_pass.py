"""What the pass leaves out: what the compiler's own code does for tasks, and copies of what nobody else sees."""

import unittest

import support
from taskrun import trace as t
from taskrun.building import need_clang, pass_plugin

SIZES = (1, 3, 8, 17, 40, 63, 64, 65, 200)
COPIES = """#include <stdio.h>
#include <string.h>
""" + "".join(f"struct bytes_{size} {{ unsigned char at[{size}]; }};\nstatic struct bytes_{size} from_{size}, to_{size};\n" for size in SIZES) + """
int main(void) {
    unsigned char own[80];
    memset(own, 7, sizeof own);
    for (int i = 0; i < 40; i++)
        own[i] = (unsigned char)i;
    memmove(own + 5, own, 33);
    memmove(own + 40, own + 44, 30);
    printf("%d %d %d %d %d\\n", own[4], own[5], own[37], own[40], own[79]);
#pragma omp parallel num_threads(1)
    {
""" + "".join(f"        for (int i = 0; i < {size}; i++)\n            from_{size}.at[i] = (unsigned char)(i + 1);\n"
              f"        {{ struct bytes_{size} both = from_{size}, copy = both; to_{size} = copy; }}\n"
              for size in SIZES) + "    }\n" + "".join(
              f'    printf("%d ", memcmp(&from_{size}, &to_{size}, {size}));\n' for size in SIZES) + "    return 0;\n}\n"
ITEMS = """static int x, y;
int main(void) {
#pragma omp parallel
#pragma omp single
    for (int i = 0; i < 3; i++) {
#pragma omp task depend(inout: x) depend(in: y) firstprivate(i) shared(x)
        x += i;
    }
    return x != 3;
}
"""


def size_of(event):
    return event.value if event.size == t.LARGE else event.size


@support.needs_clang
@unittest.skipUnless(pass_plugin(need_clang()), "LLVM's headers aren't there: apt-get install llvm-14-dev")
class Pass(support.Recorded):
    def test_copies_of_what_nobody_else_sees(self):
        """Each byte arrives, and of a copy from one shared structure by way of two private ones the first load and the last
        store alone are told."""
        for options in ((), ("-O2",)):
            trace, told = self.record(self.compile_text(COPIES, options=options), 1)
            self.assertEqual(told.split(), ["4", "0", "32", "7", "7"] + ["0"] * len(SIZES), options)
        trace, _ = self.record(self.compile_text(COPIES), 1)
        events = [event for event in support.Trace(trace).events if event.kind in (t.READ, t.WRITE) and not event.mark & t.FREED]
        for size in (size for size in SIZES if size > 16):
            kinds = [event.kind for event in events if size_of(event) == size and not event.mark >> t.ROW_SHIFT]
            self.assertEqual(kinds, [t.READ, t.WRITE], size)

    def test_lists_of_items_and_records(self):
        """Of the items' list and the tasks' records nothing is told: the tasks alone load and store."""
        trace, _ = self.record(self.compile_text(ITEMS), 2)
        events = support.Trace(trace).events
        made = {event.address for event in events if event.kind == t.CREATE}
        told = [event for event in events if event.kind in (t.READ, t.WRITE) and not event.mark & t.FREED]
        self.assertEqual([event.kind for event in told if event.task in made], [t.READ, t.WRITE] * 3)
        self.assertEqual([event for event in told if event.task not in made and event.kind == t.WRITE], [])


if __name__ == "__main__":
    unittest.main()
