"""Parts of a run text put together by their stamps; what is wrong with a part is named by its line, and why."""

import os
import random
import resource
import subprocess
import tempfile
import unittest

import support
from taskrun.merging import LONGEST

HEAD = "cells 2\n"
MERGE = os.path.join(support.FOLDER, "merge")

# Parts, each with its line and why it can't be merged.
WRONG = {
    "": (1, "the first line isn't `cells N`"),
    "# no words\n\n": (3, "the first line isn't `cells N`"),
    "0 0#1 start\n": (1, "the first line isn't `cells N`"),
    "cells 3\n": (1, "another count of cells than that of {0}"),
    HEAD + "0#1 start\n": (2, "no stamp, or no event after it"),
    HEAD + "0\n": (2, "no stamp, or no event after it"),
    HEAD + "0 # alone\n": (2, "no stamp, or no event after it"),
    HEAD + "-1 0#1 start\n": (2, "no stamp, or no event after it"),
    HEAD + "2 0#1 start\n\n1 0#2 end\n": (4, "stamp 1 after stamp 2"),
    HEAD + "2 0#1 start\n2 0#2 end\n": (3, "stamp 2 after stamp 2"),
    HEAD + "1 0#1 start\n2 0#2 end\n": (2, "stamp 1 is at {0}:3 too"),
    HEAD + "2 0#1 start\n5 0#2 end\n": (3, "stamp 5, but no part has stamp 3: a part is missing, or a writer failed"),
    HEAD + "2 0#1 start\ncell 0 1\n": (3, "no stamp, or no event after it"),
    HEAD + "2 0#1 start\n3 0#2 e": (3, "the last line isn't whole: its writer was cut off"),
    HEAD + "2 0#1 start # " + "x" * LONGEST + "\n": (2, "the line is too long"),
}


class InFolder(unittest.TestCase):
    def setUp(self):
        folder = tempfile.TemporaryDirectory()
        self.addCleanup(folder.cleanup)
        self.folder = folder.name

    def write(self, name, text):
        path = os.path.join(self.folder, name)
        with open(path, "w", encoding="utf-8") as file:
            file.write(text)
        return path

    def merge(self, *words, **how):
        """(status, standard output, standard error)."""
        done = subprocess.run([MERGE, *words], capture_output=True, text=True, check=False, **how)
        return done.returncode, done.stdout, done.stderr


class Merging(InFolder):
    def test_order_is_that_of_the_stamps(self):
        one = self.write("one", "# a part\ncells 2  # two\ncell 0 5\n0 0#1 start # a.c:1  é\n 3\t0.1#1  start\r\n10 0#4 end\n")
        two = self.write("two", HEAD + "cell 1 6 # six\n\n1 0#2 spawn 0.1 a\n2 0#3 wait\n# between\n4 a\n5 b\n6 c\n7 d\n8 e\n9 f\n")
        three = self.write("three", HEAD)
        text = ("cells 2\ncell 0 5\ncell 1 6 # six\n0#1 start # a.c:1  é\n0#2 spawn 0.1 a\n0#3 wait\n0.1#1  start\r\na\nb\nc\nd\ne\nf\n0#4 end\n")
        into = os.path.join(self.folder, "whole")
        self.assertEqual(self.merge("-o", into, one, two, three), (0, "", ""))
        with open(into, encoding="utf-8", newline="") as file:
            self.assertEqual(file.read(), text)

    def test_random_parts(self):
        r = random.Random(1)
        events = [f"0#{at + 1} print {r.randrange(99)}" for at in range(5000)]
        parts = {f"part{at}": HEAD for at in range(40)}
        for stamp, event in enumerate(events):
            parts[r.choice(list(parts))] += f"{stamp} {event}\n"
        paths = [self.write(name, text) for name, text in parts.items()]
        self.assertEqual(self.merge(*paths), (0, HEAD + "".join(event + "\n" for event in events), ""))

    def test_what_is_wrong_with_a_part(self):
        first = self.write("first", HEAD + "0 0#1 start\n1 0#2 wait\n")
        other = os.path.join(self.folder, "other")
        for text, (line, why) in WRONG.items():
            with self.subTest(text=text[:80]):
                told = f"{other}:{line}: {why.format(first)}"
                status, out, said = self.merge(first, self.write("other", text))
                self.assertEqual((status, said), (3, f"merge: {told}\n"))
                self.assertTrue(out.endswith(f"incomplete # {told}\n"), out)

    def test_a_folder_and_files_that_are_not_there(self):
        part = self.write("part", HEAD)
        self.assertEqual(self.merge(part, "/no/part"), (3, "", "merge: can't read /no/part: No such file or directory\n"))
        self.assertEqual(self.merge(part, "/"), (3, "", "merge: can't read /: Is a directory\n"))
        self.assertEqual(self.merge("-o", "/no/file", part), (3, "", "merge: can't write /no/file: No such file or directory\n"))
        self.assertEqual(self.merge("-o", part, part), (3, "", f"merge: {part} is a part\n"))
        status, out, told = self.merge(self.write("other", HEAD), "/proc/self/mem")
        self.assertEqual((status, told), (3, "merge: /proc/self/mem:1: can't be read: Input/output error\n"))
        self.assertEqual(out, "incomplete # /proc/self/mem:1: can't be read: Input/output error\n")

    def test_wrong_words(self):
        for words in ((), ("-o",), ("-o", "file"), ("-x", "part"), ("part", "-o", "file")):
            status, out, told = self.merge(*words)
            self.assertEqual((status, out), (64, ""), words)
            self.assertIn("openmp/merge ", told)

    def test_outputs_that_take_nothing(self):
        part = self.write("part", HEAD + "0 0#1 start\n")
        for words, told in ((f"'{MERGE}' '{part}' > /dev/full; echo $?", "merge: can't write the text: No space left on device\n"),
                            (f"'{MERGE}' '{part}' >&-; echo $?", "merge: can't write the text: standard output is closed\n")):
            done = subprocess.run(["bash", "-c", words], capture_output=True, text=True, check=False)
            self.assertEqual((done.stdout, done.stderr), ("3\n", told))

    def test_a_reader_that_goes(self):
        part = self.write("part", HEAD + "".join(f"{at} 0#{at + 1} print 1\n" for at in range(100000)))
        done = subprocess.run(["bash", "-c", f"'{MERGE}' '{part}' | head -1; echo ${{PIPESTATUS[0]}}"], capture_output=True, text=True, check=False)
        self.assertEqual((done.stdout, done.stderr), (HEAD + "0\n", ""))


class Sizes(InFolder):
    def write_parts(self, count):
        """Parts of so many events in all."""
        paths = [os.path.join(self.folder, f"part{at}") for at in range(8)]
        for at, path in enumerate(paths):
            with open(path, "w", encoding="ascii") as file:
                file.write(HEAD)
                file.writelines(f"{stamp} 0#{stamp + 1} print {stamp}\n" for stamp in range(at, count, 8))
        return paths

    def seconds(self, count):
        paths, into = self.write_parts(count), os.path.join(self.folder, "whole")
        began = resource.getrusage(resource.RUSAGE_CHILDREN).ru_utime
        within = (32 << 20, 32 << 20)
        self.assertEqual(self.merge("-o", into, *paths, preexec_fn=lambda: resource.setrlimit(resource.RLIMIT_DATA, within)), (0, "", ""))
        with open(into, encoding="ascii") as file:
            self.assertEqual(sum(1 for _ in file), count + 1)
        return resource.getrusage(resource.RUSAGE_CHILDREN).ru_utime - began

    def test_time_is_near_linear_and_memory_bounded(self):
        short, long = self.seconds(50_000), self.seconds(400_000)
        self.assertLess(long, 16 * max(short, 0.1))


if __name__ == "__main__":
    unittest.main()
