"""What the recorder's tests share: where things are, and a program compiled, run and checked."""

import concurrent.futures
import functools
import os
import re
import signal
import subprocess
import tempfile
import unittest

import play
from taskrun import answer, building
from taskrun.finding import judge_trace
from taskrun.part import session_of  # noqa: F401
from taskrun.session import Session, TooLarge  # noqa: F401
from taskrun.trace import FORMAT, HEADER, PAGE, Trace

FOLDER = os.path.dirname(os.path.dirname(os.path.abspath(__file__)))
TOP = os.path.dirname(FOLDER)

EXAMPLES = os.path.join(FOLDER, "examples")
THREADS = (1, 2, 8)
SECONDS = 60


def has_program():
    """Whether there is a program that plays sessions."""
    try:
        return bool(play.program_words())
    except play.CannotPlay:
        return False


needs_clang = unittest.skipUnless(building.has_runtime(),
                                  "no clang with OpenMP: apt-get install clang-14 libomp-14-dev")
needs_program = unittest.skipUnless(has_program(), "no program is built; TASKBACK_PROGRAM names one")


@functools.lru_cache(maxsize=1000)
def replies_to(text, steps):
    """The program's replies: to one session they are always the same."""
    return play.play(text, steps)


class Compiled:
    """The examples, compiled side by side in front of the tests that run them."""

    _folder = tempfile.TemporaryDirectory()
    _pool = concurrent.futures.ThreadPoolExecutor(max(2, min(4, (os.cpu_count() or 2))))
    _made = {}

    @classmethod
    def start(cls, names, *options):
        """Begins with those that aren't under way."""
        for name in names:
            key = (name, *options)
            if key not in cls._made:
                cls._made[key] = cls._pool.submit(cls._compile, name, options)

    @classmethod
    def get(cls, name, *options):
        """(the program's path, what the compiler said): the path is None where it refused."""
        cls.start([name] if options else sorted(os.listdir(EXAMPLES)), *options)
        return cls._made[name, *options].result()

    @classmethod
    def _compile(cls, name, options):
        made = os.path.join(cls._folder.name, name + "".join(options))
        source = os.path.join(EXAMPLES, name)
        done = subprocess.run([os.path.join(FOLDER, "record"), "cc", source, "-o", made, "-lm", *options],
                              capture_output=True, text=True, check=False)
        return made if done.returncode == 0 else None, done.stderr


class Recorded(unittest.TestCase):
    """A test with a folder of its own, in which programs are compiled and run."""

    def setUp(self):
        folder = tempfile.TemporaryDirectory()
        self.addCleanup(folder.cleanup)
        self.folder = folder.name

    def path(self, name):
        return os.path.join(self.folder, name)

    def compile(self, source, name="program", options=()):
        """The path of the program that `record cc` makes of a source file."""
        made = self.path(name)
        done = subprocess.run([os.path.join(FOLDER, "record"), "cc", source, "-o", made, "-lm", *options],
                              capture_output=True, text=True, check=False)
        self.assertEqual(done.returncode, 0, done.stderr)
        self.assertEqual(done.stderr, "", "a warning")
        return made

    def compile_text(self, text, name="program", ending=".c", options=()):
        source = self.path(name + ending)
        with open(source, "w", encoding="utf-8") as file:
            file.write(text)
        return self.compile(source, name, options)

    def example(self, name, *options):
        """The path of an example that was compiled without a word."""
        made, told = Compiled.get(name, *options)
        self.assertEqual(told, "", "a warning")
        self.assertIsNotNone(made)
        return made

    def run_alone(self, program, threads):
        """The path of the trace of one run, which ended well."""
        trace = self.path("trace")
        done = subprocess.run([program], capture_output=True, timeout=SECONDS, check=False,
                              env={**os.environ, "OMP_NUM_THREADS": str(threads), "TASKBACK_TRACE": trace})
        self.assertEqual((done.returncode, done.stderr), (0, b""))
        return trace

    def record(self, program, threads, words=()):
        """The path of the trace of one run, and what it wrote."""
        trace = self.path("trace")
        command = [os.path.join(FOLDER, "record"), "run", "-o", trace, program, *words]
        with subprocess.Popen(command, stdout=subprocess.PIPE, stderr=subprocess.PIPE, text=True, start_new_session=True,
                              env={**os.environ, "OMP_NUM_THREADS": str(threads)}) as done:
            try:
                stdout, stderr = done.communicate(timeout=SECONDS)
            except subprocess.TimeoutExpired:
                os.killpg(done.pid, signal.SIGKILL)     # the program too, whose threads would go on
                raise
        self.assertEqual((done.returncode, stderr), (0, ""))
        return trace, stdout

    def session(self, program, threads, words=()):
        return Session(Trace(self.record(program, threads, words)[0]))

    def check(self, program, threads, words=()):
        """(status, lines) as `openmp/check` has them."""
        return answer.answer(judge_trace(self.record(program, threads, words)[0]))

    def check_text(self, text, threads=1, name="program"):
        return self.check(self.compile_text(text, name), threads)


def write_trace(path, program, events):
    """A trace of these events, as if one thread had written it."""
    with open(path, "wb") as file:
        file.write((HEADER + program.encode() + b"\n").ljust(PAGE, b"\n"))
        for event in events:
            file.write(FORMAT.pack(*event))


# `file.c:9 writes x`, with what may stand in brackets behind it.
STEP = r"\S+ (?:reads|writes|frees) (\S+)(?: \([^()]*\))*(?: of the function that ends there)?"


def names_told(lines):
    """The variables of the lines that tell races: the first name of each expression."""
    told = set()
    for line in lines:
        pair = re.match(rf"{STEP}, {STEP}: nothing orders ", line)
        if pair:
            told |= {re.search(r"\w+", name)[0] for name in pair.groups()}
    return told
