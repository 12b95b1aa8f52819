"""The judge and the proved program agree: a run that the notation can say whole has races by the one where it has by the
other. Each example is recorded with two threads; what the notation has no word for is left out."""

import os
import unittest

import support

# What the judge says of all schedules of the threads; a session says what the threads of this run did.
OF_THREADS = ("loop_", "team_", "masked", "barrier_", "single_nowait", "thread_", "last_private", "copy_private",
              "ordered", "doacross", "phases")
# Of the teams of a league a session says nothing; the iterations of a `simd` loop it has in their order.
OF_LEAGUES = ("teams", "simd")
# Variables of tasks that have ended: a session has no cell for what nobody has.
OF_ENDED = ("task_frame_race", "task_frame_deep_race", "task_frame_pointer_race")
# Ordered by atomic operations, which a session has no word for.
BY_ATOMICS = ("static_guard",)


@support.needs_clang
@support.needs_program
class Agreement(support.Recorded):
    def test_examples(self):
        compared = 0
        for name in sorted(os.listdir(support.EXAMPLES)):
            if name.startswith(OF_THREADS + OF_LEAGUES + OF_ENDED + BY_ATOMICS):
                continue
            with self.subTest(example=name):
                compared += self.compare(name)
        self.assertGreater(compared, 50)

    def compare(self, name):
        """Whether both could answer."""
        path = self.run_alone(self.example(name), 2)
        session = support.Session(support.Trace(path))
        finding = support.judge_trace(path)
        if session.unsaid() or support.answer.what_is_alike(finding) or support.answer.what_is_unseen(finding):
            return 0
        replies = support.replies_to(session.text(), len(session.taken))
        self.assertIsNone(replies.refused())
        self.assertIsNone(finding.fault)
        is_racy = {"races": any(not line.endswith(" apart") for line in replies.races),
                   "judge": any(not race.is_apart for race in finding.races)}
        self.assertEqual(is_racy["races"], is_racy["judge"], is_racy)
        return 1

    def test_discarded_tasks_start_and_end(self):
        """A task that a cancellation discards starts and ends in the session too, or the group's end would be refused."""
        session = support.Session(support.Trace(self.run_alone(self.example("cancel_group.c"), 2)))
        text = session.text()
        self.assertEqual(text.count(" start of the task"), 20)
        self.assertIsNone(support.replies_to(text, len(session.taken)).refused())


if __name__ == "__main__":
    unittest.main()
