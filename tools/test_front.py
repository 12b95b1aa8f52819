#!/usr/bin/env python3
"""Runs the front end's tests, each file of shell/tests in a process of its own, as many at once as there are processors.

  tools/test_front.py [--jobs N] [FILE..]

What each file says comes in one piece when it has ended; the last lines count all, as unittest does, and the status is
1 where a test failed. `python3 -m unittest discover -s shell/tests` runs the same tests one after the other.
"""

import argparse
import os
import re
import subprocess
import sys
import time
from collections import Counter
from concurrent.futures import ThreadPoolExecutor, as_completed

TOP = os.path.dirname(os.path.dirname(os.path.abspath(__file__)))
TESTS = os.path.join(TOP, "shell", "tests")
# What takes longest begins first, so that nothing long is left at the end.
LONGEST = ("test_rules.py", "test_page.py", "test_dap.py", "test_package.py", "test_editors.py", "test_lanes.py", "test_commands.py", "test_serving.py", "test_page_ways.py")
KINDS = ("failures", "errors", "skipped", "expected failures", "unexpected successes")


def arguments() -> argparse.Namespace:
    """The command line."""
    parser = argparse.ArgumentParser(description="Runs the front end's tests, several files at once.")
    parser.add_argument("--jobs", type=int, default=len(os.sched_getaffinity(0)), help="how many files at once")
    parser.add_argument("file", nargs="*", help="files of shell/tests; else all")
    given = parser.parse_args()
    for name in given.file:
        if not os.path.isfile(os.path.join(TESTS, os.path.basename(name))):
            parser.error(f"no such file in shell/tests: {name}")
    return given


def run(name: str) -> tuple[str, int]:
    """What the tests of a file say, and their status."""
    words = [sys.executable, "-m", "unittest", "discover", "-v", "-s", TESTS, "-t", TESTS, "-p", name]
    done = subprocess.run(words, cwd=TOP, stdin=subprocess.DEVNULL, stdout=subprocess.PIPE, stderr=subprocess.STDOUT, check=False)
    return done.stdout.decode("utf-8", "replace"), done.returncode


def counts_of(said: str, status: int) -> Counter[str]:
    """How many tests a file has, and how many of them did what; one that ended without a count is an error."""
    ran = re.findall(r"^Ran (\d+) tests? in ", said, re.M)
    found = Counter({kind: int(count) for kind, count in re.findall(r"(\w[\w ]*)=(\d+)", said.rstrip().rsplit("\n", 1)[-1]) if kind in KINDS})
    if not ran or (status and not found["failures"] + found["errors"] + found["unexpected successes"]):
        found["errors"] += 1
    found["ran"] = int(ran[-1]) if ran else 1
    return found


def main() -> int:
    """Runs all; returns the status."""
    given, begun, total = arguments(), time.monotonic(), Counter[str]()
    names = [os.path.basename(name) for name in given.file] or [name for name in os.listdir(TESTS) if re.fullmatch(r"test_\w+\.py", name)]
    names.sort(key=lambda name: (LONGEST.index(name) if name in LONGEST else len(LONGEST), name))
    with ThreadPoolExecutor(max(1, given.jobs)) as pool:
        for done in as_completed([pool.submit(run, name) for name in names]):
            said, status = done.result()
            print(said, end="", flush=True)
            total += counts_of(said, status)
    counts = ", ".join(f"{kind}={total[kind]}" for kind in KINDS if total[kind])
    failed = total["failures"] + total["errors"] + total["unexpected successes"] > 0
    print(f"{'-' * 70}\nRan {total['ran']} tests in {time.monotonic() - begun:.3f}s\n\n{'FAILED' if failed else 'OK'}" + (f" ({counts})" if counts else ""))
    return int(failed)


if __name__ == "__main__":
    sys.exit(main())
