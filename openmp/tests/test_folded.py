"""Events that stand for several: both readers make the same of them, and nothing of what the program does is lost."""

import itertools
import json
import subprocess
import unittest

import support
from taskrun import building
from taskrun import trace as t
from taskrun.actors import elements

# Lanes that do what the one before did, steps of all distances, and some that break off or do more.
LANES = """#include <stdio.h>
static long x[400], y[400];
static char c[400];
int main(void) {
    printf("%p %p %p\\n", (void *)x, (void *)y, (void *)c);
#pragma omp simd
    for (int i = 0; i < 100; i++) {
        x[2 * i] = y[99 - i] + c[0];
        if (i % 16 == 9)
            c[i]++;
        if (i % 23 != 7)
            y[200] = 1;
    }
    return 0;
}
"""
MOST_STEPS = """#include <stdio.h>
static int x[60][8];
int main(void) {
    printf("%p\\n", (void *)x);
#pragma omp simd
    for (int i = 0; i < 60; i++)
        x[59 - i][7] = x[i][0] + x[i][1] + x[i][2] + x[i][3] + x[i][4] + x[i][5] + x[i][6];
    return 0;
}
"""
LATE_RACE = """static long x[200], y[200];
int main(void) {
#pragma omp simd
    for (int i = 0; i < 200; i++) {
        y[i] = x[i];
        if (i == 150)
            x[190] = 1;
    }
    return 0;
}
"""
MOST_LANES = """static long x[70000];
int main(void) {
#pragma omp simd
    for (int i = 0; i < 70000; i++)
        x[i] += 1;
    return 0;
}
"""
# Each task has a variable that its child knows.
TASKS = """int main(void) {
    int sum = 0;
#pragma omp parallel
#pragma omp single
    for (int i = 0; i < 3; i++) {
#pragma omp task depend(inout: sum) shared(sum)
        {
            int part = 0;
#pragma omp task shared(part)
            part = 1;
#pragma omp taskwait
            sum += part;
        }
    }
    return sum != 3;
}
"""

MANY_TASKS = """static int x[3000];
int main(void) {
#pragma omp parallel
#pragma omp single
    for (int i = 0; i < 3000; i++) {
#pragma omp task firstprivate(i) mergeable
        x[i] = i;
    }
    return x[9] != 9;
}
"""
# Random events, of which each part of four bytes may be as before: packed in both ways, and read again.
PACKING = """#include <stdio.h>
#include <stdlib.h>
#include <string.h>
#include "packing.c"
enum { COUNT = 2048, WORDS = COUNT * PARTS };
static uint32_t words[WORDS], again[WORDS];
static unsigned char each[COUNT * LONGEST_EVENT], wide[COUNT * LONGEST_EVENT];
static const struct event *last[FAMILIES];
static struct event *begin(uint32_t *of) {
    for (int i = 0; i < FAMILIES; i++)
        last[i] = (struct event *)of;
    return (struct event *)of + 1;
}
int main(void) {
    const struct event *behind = (struct event *)(words + WORDS);
    for (int i = PARTS; i < WORDS; i++) {
        int is_stamp = i % PARTS == STAMP_PART, is_kind = i % PARTS == PARTS - 1;
        words[i] = rand() % 2 ? words[i - PARTS * (1 + rand() % (i / PARTS))] : (uint32_t)rand() * (is_kind ? 1 : 3);
        words[i] = is_kind ? words[i] % 0x40000000 & 0xff3fffff : is_stamp && rand() % 2 ? words[i - PARTS] + 1 : words[i];
    }
    const unsigned char *from = each, *end = pack_each(last, begin(words), behind, each);
#ifdef __x86_64__
    if (is_wide && (pack_wide(last, begin(words), behind, wide) - wide != end - each || memcmp(each, wide, (size_t)(end - each))))
        return 1;
#endif
    memcpy(again, words, PARTS * PART_SIZE);
    for (struct event *event = begin(again); event != (struct event *)(again + WORDS); event++) {
        if (!(from = unpack_event(last, event, from, end)))
            return 2;
    }
    return from != end ? 3 : memcmp(words, again, sizeof words) ? 4 : 0;
}
"""


def lanes_of(events):
    """What each lane loads and stores: (whether it stores, address, size)."""
    found = []
    for event in events:
        if event.kind == t.LANE:
            found.append([])
        elif event.kind in (t.READ, t.WRITE) and found and not event.mark & t.FREED:
            found[-1] += [(event.kind == t.WRITE, each.address, each.size) for each in elements(event)]
    return found


def events_of(head, data):
    """Those of a piece, as they stand there: one that isn't packed ends where an event has no kind."""
    if head.value:
        return t.unpacked(head, data)
    return itertools.takewhile(lambda event: event.kind, map(t.Event._make, t.FORMAT.iter_unpack(data)))


@support.needs_clang
class Folded(support.Recorded):
    def need_pass(self):
        if not building.pass_plugin(building.need_clang()):
            self.skipTest("LLVM's headers aren't there: apt-get install llvm-14-dev")

    def judged(self, trace):
        told = subprocess.run([building.judge(), trace], capture_output=True, text=True, check=True).stdout
        return json.loads(told)["events"]

    def traced(self, text, threads=1):
        """(the events, what was printed) of a run, of which both readers see as many events."""
        path, told = self.record(self.compile_text(text), threads)
        events = support.Trace(path).events
        self.assertEqual(self.judged(path), len(events))
        self.assertLessEqual(len(events), t.count_events(path))
        return events, told

    def test_lanes(self):
        self.need_pass()
        events, told = self.traced(LANES)
        x, y, c = (int(word, 16) for word in told.split())
        wanted = []
        for i in range(100):
            wanted.append([(False, y + 8 * (99 - i), 8), (False, c, 1), (True, x + 16 * i, 8)])
            if i % 16 == 9:
                wanted[-1] += [(False, c + i, 1), (True, c + i, 1)]
            if i % 23 != 7:
                wanted[-1].append((True, y + 8 * 200, 8))
        self.assertEqual(lanes_of(events), wanted)

    def test_lanes_of_the_most_steps(self):
        self.need_pass()
        events, told = self.traced(MOST_STEPS)
        x = int(told, 16)
        self.assertEqual(lanes_of(events), [[*((False, x + 32 * i + 4 * n, 4) for n in range(t.LANE_STEPS - 1)),
                                             (True, x + 32 * (59 - i) + 28, 4)] for i in range(60)])

    def test_lanes_that_follow_are_few_events(self):
        self.need_pass()
        path, _ = self.record(self.compile_text(MOST_LANES), 1)
        with open(path, "rb") as file:
            data = file.read()
        self.assertLess(sum((end - begin) // t.FORMAT.size for _, begin, end in t.pieces_of(data)), 2 * t.PIECE)
        lanes = lanes_of(support.Trace(path).events)
        self.assertEqual(len(lanes), 1 << 16)
        self.assertTrue(all(len(lane) == 2 for lane in lanes[:-1]))
        self.assertEqual(len(lanes[-1]), 2 * (70000 - (1 << 16) + 1))

    def test_a_race_of_late_lanes(self):
        self.need_pass()
        status, lines = self.check_text(LATE_RACE)
        self.assertEqual(status, 2, lines)
        self.assertRegex(lines[0], r"program\.c:5 reads x.*program\.c:7 writes x|program\.c:7 writes x.*program\.c:5 reads x")

    def test_tasks(self):
        events, _ = self.traced(TASKS)
        in_front = dict(zip(events[1:], events))
        made = [in_front[event] for event in events if event.kind == t.CREATE]
        self.assertEqual([event.kind for event in made], [t.MEMORY] * 6)
        ended = [(event.task, in_front[event]) for event in events if event.kind == t.END]
        frames = [task for task, event in ended if event.mark & t.FREED and event.mark & t.OUTERMOST and event.task == task]
        self.assertEqual((len(ended), len(frames)), (6, 3))

    def test_a_start_at_once(self):
        """Where one thread makes a task and starts it at once, the making says so."""
        path, _ = self.record(self.compile_text(MANY_TASKS), 1)
        with open(path, "rb") as file:
            data = file.read()
        raw = [event for head, begin, end in t.pieces_of(data) for event in events_of(head, data[begin:end])]
        self.assertEqual(sum(event.kind == t.CREATE and event.mark & t.BEGINS != 0 for event in raw), 3000)
        self.assertFalse(any(event.kind == t.START for event in raw))
        events = support.Trace(path).events
        self.assertEqual(self.judged(path), len(events))
        started = [(made.address, event.task, event.mark) for made, event in zip(events, events[1:]) if event.kind == t.START]
        self.assertEqual(len(started), 3000)
        self.assertTrue(all(made == task and mark == t.STACK for made, task, mark in started))
        flags = {event.value for event in events if event.kind == t.CREATE}
        self.assertEqual(len(flags), 1)
        self.assertTrue(flags.pop() & t.FLAGS_EXPLICIT)

    def test_packing(self):
        source, made = self.path("program.c"), self.path("program")
        with open(source, "w", encoding="utf-8") as file:
            file.write(PACKING)
        subprocess.run([building.need_clang(), "-O1", "-I", building.RECORDER, source, "-o", made], check=True)
        self.assertEqual(subprocess.run([made], check=False).returncode, 0)

    def test_tasks_of_several_threads(self):
        events, _ = self.traced(TASKS, 8)
        for kind in (t.CREATE, t.START, t.END):
            self.assertEqual(sum(event.kind == kind for event in events), 6)

    def test_starts_behind_items(self):
        """Items come behind the making of their task, and in front of its start, whoever starts it."""
        for threads in support.THREADS:
            events, _ = self.traced(TASKS, threads)
            kinds = [(event.task, event.kind) for event in events if event.kind in (t.ITEM, t.START)]
            with_items = [task for task, kind in kinds if kind == t.ITEM]
            self.assertEqual(len(with_items), 3)
            for task in with_items:
                self.assertLess(kinds.index((task, t.ITEM)), kinds.index((task, t.START)))
            if threads == 1:
                self.assertFalse(any(event.mark & t.COUNTED for event in events if event.kind == t.START))


if __name__ == "__main__":
    unittest.main()
