#!/usr/bin/env python3
"""Runs the measurements and writes what they say into bench/RESULTS.md, with the commit, the machine and the program.

    bench/results.py [--short] [PROGRAM [JUDGE]]

The programs are the proved ones, crates/taskback/out/taskback and crates/taskcheck/out/taskcheck, or others that are named. All
takes some thirty minutes on a quiet machine. --short takes a minute, with small sizes: it shows that the scripts work, and the page says so.
"""
import datetime
import os
import re
import subprocess
import sys

TOP = os.path.dirname(os.path.dirname(os.path.abspath(__file__)))
PAGE = os.path.join(TOP, "bench", "RESULTS.md")
PROVED = os.path.join(TOP, "crates", "taskback", "out", "taskback")
PROVED_JUDGE = os.path.join(TOP, "crates", "taskcheck", "out", "taskcheck")

RACES = ["races.py", "--program", "PROGRAM", "--seconds", "1", "--tasks", "100000", "--most", "1000000"]
EDGES = ["races.py", "--program", "PROGRAM", "--seconds", "1", "--view", "edges", "--tasks", "10000"]

# What a script measures, and its words; PROGRAM and JUDGE stand for the paths of the programs. The third are those of a short run.
ROWS: list[tuple[str, list[str], list[str] | None]] = [
    ("Long rows of steps and undos", ["steps.py", "PROGRAM"], ["steps.py", "PROGRAM"]),
    ("One big session of each kind", ["sessions.py", "PROGRAM"], ["sessions.py", "PROGRAM", "siblings"]),
    ("How the cost grows with a session's size", ["growth.py", "--program", "PROGRAM"],
     ["growth.py", "--program", "PROGRAM", "--seconds", "0.05", "--most", "2000"]),
    ("What needs a step, and what it needs", ["needs.py", "PROGRAM"], ["needs.py", "PROGRAM", "500,1000"]),
    ("Rollbacks", ["rollbacks.py", "PROGRAM"], None),
    ("Causes of each step", ["causes.py", "PROGRAM", "2000,10000"], ["causes.py", "PROGRAM", "500"]),
    ("Races", RACES, RACES),
    ("Immediate needs of all steps", EDGES, EDGES),
    ("One worker and several", ["workers.py", "--program", "PROGRAM"], ["workers.py", "--program", "PROGRAM", "--rounds", "1"]),
    ("Deep tasks", ["levels.py", "--program", "PROGRAM", "4000", "16384"], ["levels.py", "--program", "PROGRAM", "1000"]),
    ("Recorded runs", ["runs.py", "--program", "JUDGE"], ["runs.py", "--program", "JUDGE", "--events", "100000", "--tasks", "1000", "--small", "100"]),
]


def said(*words: str) -> str:
    return subprocess.run(words, cwd=TOP, capture_output=True, text=True, check=True).stdout.strip()


def first_of(path: str, pattern: str) -> str:
    with open(path, encoding="utf-8") as file:
        found = re.search(pattern, file.read())
    return found[1].strip() if found else "unknown"


def head(program: str, short: bool) -> str:
    """What was measured, where, and beside how much other work."""
    kind = "the proved program" if os.path.realpath(program) == os.path.realpath(PROVED) else "another build than the proved one"
    changed = "" if not said("git", "status", "--porcelain", "--", "crates") else ", with changes in crates/"
    memory = int(first_of("/proc/meminfo", r"MemTotal: *(\d+)")) / 1e6
    lines = [
        "# Results", "",
        "Written by `bench/results.py`; what each script measures is in its first lines and in [README](README.md).", "",
        f"- Commit {said('git', 'rev-parse', '--short', 'HEAD')}{changed}, {datetime.date.today()}: {kind}.",
        f"- {os.cpu_count()} virtual cores, {first_of('/proc/cpuinfo', 'model name.*: (.*)')}, {memory:.0f} GB; load at the start {os.getloadavg()[0]:.1f}.",
    ]
    if short:
        lines += ["- **A short run, at small sizes and beside other work**: it shows that the scripts work, and no speed."]
    return "\n".join(lines)


def measured(title: str, asked: list[str], programs: dict[str, str]) -> tuple[str, bool]:
    """The output of a script, below its title."""
    words = [programs.get(it, it) for it in asked]
    done = subprocess.run([sys.executable, os.path.join(TOP, "bench", words[0]), *words[1:]], cwd=TOP, capture_output=True, text=True, check=False)
    print(f"{title}: status {done.returncode}", flush=True)
    shown = " ".join(["bench/" + words[0], *(it for it in asked[1:] if it not in programs)]).replace(" --program", "")
    text = done.stdout.rstrip() if done.returncode == 0 else f"failed: {done.stderr.strip().splitlines()[-1]}"
    return f"## {title}\n\n`{shown}`\n\n```text\n{text}\n```", done.returncode == 0


def main() -> None:
    words = sys.argv[1:]
    short = "--short" in words
    named = [it for it in words if it != "--short"]
    if len(named) > 2 or any(it.startswith("-") for it in named):
        sys.exit(__doc__.strip())
    program = os.path.abspath(named[0]) if named else PROVED
    judge = os.path.abspath(named[1]) if len(named) > 1 else PROVED_JUDGE
    for needed in (program, judge):
        if not os.access(needed, os.X_OK):
            sys.exit(f"no program at {needed}")
    parts = [head(program, short)]
    failed = 0
    for title, whole, small in ROWS:
        asked = small if short else whole
        if asked:
            text, right = measured(title, asked, {"PROGRAM": program, "JUDGE": judge})
            parts.append(text)
            failed += not right
    with open(PAGE, "w", encoding="utf-8") as file:
        file.write("\n\n".join(parts) + "\n")
    sys.exit(1 if failed else 0)


if __name__ == "__main__":
    main()
