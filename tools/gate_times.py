#!/usr/bin/env python3
"""Runs the gate, or the part of it that proves the crates named and those below them; stamps each of its
lines with the time since its start, and says at its end where the time went: a table of processor minutes
by crate and by kind of work.

    tools/gate_times.py [CRATE..]

What a crate took is read off /proc while the gate runs: each process below it is looked at twice a
second, and belongs to the crate that its command line or its folder names. What ends between two
looks is in no crate's row, but in the last line's total.
"""
import os
import re
import resource
import subprocess
import sys
import threading
import time
from collections.abc import Mapping, Sequence

TOP = os.path.dirname(os.path.dirname(os.path.abspath(__file__)))
KINDS = ("proof", "proof with tests", "edits", "runs")
TICKS = os.sysconf("SC_CLK_TCK")
LOOK_EVERY = 0.5

# What a process works on: a crate, where it names one, and a kind of work.
Work = tuple[str | None, str]


def read(path: str) -> bytes:
    """The bytes of a file below /proc, or none where the process has gone."""
    try:
        with open(path, "rb") as file:
            return file.read()
    except OSError:
        return b""


def parent_and_ticks(pid: int) -> tuple[int, int, int] | None:
    """A process's parent, its start (a later process may have its number), and its processor time in ticks."""
    fields = read(f"/proc/{pid}/stat").rpartition(b")")[2].split()
    if len(fields) < 20:
        return None
    return int(fields[1]), int(fields[19]), int(fields[11]) + int(fields[12])


def crate_and_kind(pid: int) -> Work:
    """What a process works on, by its words and its folder."""
    words = read(f"/proc/{pid}/cmdline").decode(errors="replace").split("\0")
    try:
        folder = os.readlink(f"/proc/{pid}/cwd")
    except OSError:
        folder = ""
    named = words[words.index("--crate-name") + 1] if "--crate-name" in words[:-1] else None
    if named and os.path.basename(folder).startswith("rt-edit-"):
        return named, "edits"
    if named:
        return named, "proof with tests" if "--test" in words else "proof"
    program = re.search(r"/rt-run-[^/]*/bin/(\w+?)(?:_tests)?$", " ".join(words).strip())
    return (program[1], "runs") if program else (None, "runs")


class Watch(threading.Thread):
    """Looks at the processes below one, again and again, and records what each has used."""

    def __init__(self, root: int) -> None:
        super().__init__(daemon=True)
        self.root, self.over = root, threading.Event()
        self.seen: dict[tuple[int, int], tuple[int, Work]] = {}

    def run(self) -> None:
        while not self.over.wait(LOOK_EVERY):
            self.look()

    def look(self) -> None:
        there = {int(it): parent_and_ticks(int(it)) for it in os.listdir("/proc") if it.isdigit()}
        found = {pid: stat for pid, stat in there.items() if stat}
        for pid, (_, start, ticks) in found.items():
            if self.is_below(pid, found):
                self.note((pid, start), ticks)

    def is_below(self, pid: int, found: Mapping[int, tuple[int, int, int]]) -> bool:
        while pid in found and pid != self.root:
            pid = found[pid][0]
        return pid == self.root

    def note(self, key: tuple[int, int], ticks: int) -> None:
        known = self.seen[key][1] if key in self.seen else None
        # a process names its crate only once it has become the prover
        if known is None or known[0] is None:
            known = crate_and_kind(key[0])
        self.seen[key] = ticks, known

    def minutes(self) -> dict[tuple[str, str], float]:
        """Processor minutes by crate and kind."""
        taken: dict[tuple[str, str], float] = {}
        for ticks, (crate, kind) in self.seen.values():
            if crate:
                taken[crate, kind] = taken.get((crate, kind), 0) + ticks / TICKS / 60
        return taken


def table(taken: Mapping[tuple[str, str], float], total: float) -> str:
    """The table in Markdown, crates in the order of crates.txt; `total` is of all processes, seen or not."""
    with open(f"{TOP}/crates.txt", encoding="utf-8") as file:
        crates = [line.split(":")[0].split()[0] for line in file if ":" in line and not line.startswith("#")]
    rows = ["| crate | " + " | ".join(KINDS) + " | all |", "|---" * (len(KINDS) + 2) + "|"]
    sums = dict.fromkeys(KINDS, 0.0)
    for crate in crates:
        parts = [taken.get((crate, kind), 0.0) for kind in KINDS]
        sums = {kind: sums[kind] + part for kind, part in zip(KINDS, parts)}
        rows.append(row(crate, [*parts, sum(parts)]))
    rows.append(row("all crates", [*sums.values(), sum(sums.values())]))
    rows.append(row("all that ran", [*[None] * len(KINDS), total]))
    return "\n".join(rows)


def row(name: str, minutes: Sequence[float | None]) -> str:
    shown = ["" if it is None or it < 0.05 else f"{it:.1f}" for it in minutes]
    return f"| {name} | " + " | ".join(shown) + " |"


def main() -> int:
    start = time.time()
    gate = subprocess.Popen(["rt", "ci", *sys.argv[1:]], cwd=TOP, stdin=subprocess.DEVNULL, stdout=subprocess.PIPE, stderr=subprocess.STDOUT, text=True, errors="replace")
    watch = Watch(gate.pid)
    watch.start()
    assert gate.stdout is not None
    for line in gate.stdout:
        sys.stdout.write("%7.1f  %s" % (time.time() - start, line))
        sys.stdout.flush()
    status = gate.wait()
    watch.over.set()
    watch.join()
    used = resource.getrusage(resource.RUSAGE_CHILDREN)
    seconds = used.ru_utime + used.ru_stime
    print(table(watch.minutes(), seconds / 60))
    print("%7.1f  end: status %d, %.0f s of processor, %.1f GB at most in one process"
          % (time.time() - start, status, seconds, used.ru_maxrss / 1e6))
    return status


if __name__ == "__main__":
    sys.exit(main())
