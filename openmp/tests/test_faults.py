"""A run that breaks a rule is told as such: traces of right runs, in which one event is moved."""

import os
import unittest

import support
from taskrun import trace as t

ORDERED = """int main(void) {
    int x = 0;
#pragma omp parallel
#pragma omp single
    {
#pragma omp task shared(x) depend(out: x)
        x = 1;
#pragma omp task shared(x) depend(in: x)
        x++;
#pragma omp taskwait
#pragma omp task depend(mutexinoutset: x)
        ;
#pragma omp task depend(mutexinoutset: x)
        ;
#pragma omp task if(0)
        ;
    }
    return 0;
}
"""


def numbered(events):
    """The events with the numbers of their order."""
    number, found = 0, []
    for event in events:
        number += t.takes_number(event)
        found.append(event._replace(stamp=number))
    return found


def moved(events, event, behind):
    """The events with one right behind another, numbered anew."""
    left = [each for each in events if each is not event]
    left.insert(left.index(behind) + 1, event)
    return numbered(left)


@support.needs_clang
class Faults(support.Recorded):
    def setUp(self):
        super().setUp()
        path, _ = self.record(self.compile_text(ORDERED), 1)
        self.trace = support.Trace(path)
        created = self.events(t.CREATE)
        self.tasks = [event.address for event in created]

    def events(self, kind, task=None):
        return [event for event in self.trace.events if event.kind == kind and task in (None, event.task)]

    def judge(self, events):
        path = self.path("changed")
        support.write_trace(path, self.trace.program, events)
        return support.answer.answer(support.judge_trace(path))

    def answer(self, event, behind):
        """The answer where this event comes right behind that one."""
        return self.judge(moved(self.trace.events, event, behind))

    def test_the_run_is_right(self):
        self.assertEqual(self.judge(numbered(self.trace.events))[0], 0)

    def test_started_too_early(self):
        end = self.events(t.END, self.tasks[0])[0]
        start = self.events(t.START, self.tasks[1])[0]
        status, lines = self.answer(end, start)
        self.assertEqual(status, 1)
        self.assertRegex(lines[0], r"fault of the run: task 0\.2 \(program\.c:8\) started while task 0\.1 "
                                   r"\(program\.c:6\) hadn't ended: .*15\.9\.5")

    def test_both_at_once(self):
        end = self.events(t.END, self.tasks[2])[0]
        start = self.events(t.START, self.tasks[3])[0]
        status, lines = self.answer(end, start)
        self.assertEqual(status, 1)
        self.assertRegex(lines[0], r"task 0\.4 .* started while task 0\.3 .* mutexinoutset")

    def test_waited_too_short(self):
        end = self.events(t.END, self.tasks[1])[0]
        wait = self.events(t.WAIT)[0]
        status, lines = self.answer(end, wait)
        self.assertEqual(status, 1)
        self.assertRegex(lines[0], r"task 0 \(the program\) passed a taskwait while task 0\.2 \(program\.c:8\)")

    def test_went_on_too_early(self):
        end = self.events(t.END, self.tasks[4])[0]
        region_end = self.events(t.REGION_END)[0]
        status, lines = self.answer(end, region_end)
        self.assertEqual(status, 1)
        self.assertRegex(lines[0], r"task 0 \(the program\) went on while task 0\.5 .*12\.5")

    def test_region_ended_too_early(self):
        end = self.events(t.END, self.tasks[3])[0]
        region_end = self.events(t.REGION_END)[0]
        status, lines = self.answer(end, region_end)
        self.assertEqual(status, 1)
        self.assertRegex(lines[0], r"passed the end of a taskgroup or region while task 0\.4")

    def test_a_task_that_never_ended(self):
        region_end = self.events(t.REGION_END)[0]
        events = [event for event in self.trace.events if event.stamp < region_end.stamp
                  and not (event.kind == t.END and event.task == self.tasks[3])
                  and event.kind != t.BARRIER_END]
        status, lines = self.judge(numbered(events))
        self.assertEqual(status, 3, lines)
        self.assertRegex(lines[-1], "the run didn't end by itself, and 1 tasks hadn't ended")

    def test_an_event_is_missing(self):
        events = [event for event in numbered(self.trace.events) if event.kind != t.BARRIER_BEGIN]
        status, lines = self.judge(events)
        self.assertEqual(status, 3, lines)
        self.assertRegex(lines[-1], "events are missing from the trace")


class Words(unittest.TestCase):
    def test_no_trace(self):
        from taskrun.trace import BadTrace
        with self.assertRaises(BadTrace):
            support.Trace(os.path.join(support.EXAMPLES, "inout.c"))


if __name__ == "__main__":
    unittest.main()
