#!/usr/bin/env python3
"""Checks that no more lines of contracts and proofs are long, and that no crate grows past some 120 functions.

    tools/check_sizes.py [--list NAME] [--lower]

- Lines: those of a contract over 100 columns, and those of a proof over 160, but for its imports.
- Crates: those with more than 120 functions.

A count above its ceiling in tools/ceilings.txt fails; `--lower` writes those that fell. `--list NAME` lists what is counted.
"""
import collections
import glob
import os
import re
import sys
from typing import Iterator

from ceilings import TOP, Found, compare

CONTRACT, PROOF, FUNCTIONS = 100, 160, 120


def files_of(pattern: str) -> Iterator[tuple[str, list[str]]]:
    """The files that match, by their path below the repository, with their lines."""
    for path in sorted(glob.glob(os.path.join(TOP, pattern), recursive=True)):
        if "/out/" not in path:
            with open(path, encoding="utf-8") as file:
                yield os.path.relpath(path, TOP), file.read().split("\n")


def clauses(lines: list[str]) -> Iterator[tuple[int, str]]:
    """The lines of the clauses and of the ghost items of a source, each with its number."""
    depth = 0
    for number, line in enumerate(lines, 1):
        if depth > 0 or re.match(r"\s*(pub(\(\w+\))? )?(requires|ensures|ghost (?!use)\w+)\b.*\{", line):
            yield number, line
            depth += line.count("{") - line.count("}")


def long_lines() -> Found:
    contracts = [f"{path}:{number}: {len(line)} columns" for path, lines in files_of("crates/*/src/**/*.rt") for number, line in clauses(lines) if len(line) > CONTRACT]
    proofs = [f"{path}:{number}: {len(line)} columns" for path, lines in files_of("crates/*/proofs/**/*.antt")
              for number, line in enumerate(lines, 1) if len(line) > PROOF and not re.match(r"(pub )?use ", line)]
    return {("lines", "contract"): contracts, ("lines", "proof"): proofs}


def functions() -> Found:
    """The functions of each crate that has too many."""
    found: dict[str, list[str]] = collections.defaultdict(list)
    for path, lines in files_of("crates/*/src/**/*.rt"):
        for number, line in enumerate(lines, 1):
            made = re.match(r"\s*(pub(\(\w+\))? )?(unsafe )?fn (\w+)", line)
            if made:
                found[path.split("/")[1]].append(f"{path}:{number}: {made[4]}")
    return {("functions", crate): listed for crate, listed in found.items() if len(listed) > FUNCTIONS}


if __name__ == "__main__":
    sys.exit(compare(long_lines() | functions(), sys.argv))
