#!/usr/bin/env python3
"""Checks that no word of several meanings comes into more identifiers of the crates, and that comments can be read alone.

    tools/check_words.py [--list NAME] [--lower]

- Identifiers: how many of those in the crates have a word of `tools/words.py`'s list.
- Comments: how many begin with such a word, or as if the one above them were read first, as 'The same'. A function that is
  there for the prover alone says `// for the proof: WHY`, one that isn't to be inlined `// out of line: WHY`.

A count above its ceiling in tools/ceilings.txt fails; `--lower` writes those that fell. `--list NAME` lists what is counted.
"""
import collections
import glob
import os
import re
import sys
from typing import Iterator

from ceilings import Found, compare
from words import FIXED, TOP, WORDS, code_and_text, parts_of

# How a comment begins that can't be read without the one above it.
OPENINGS = ["The same", "Same", "As above", "As before", "Likewise", "Like", "And", "Those", "It", "Its", "They", "Their", "So many", "Stands apart", "It stands apart"]


def sources() -> Iterator[str]:
    for pattern in ("crates/**/*.rt", "crates/**/*.antt"):
        yield from (path for path in sorted(glob.glob(os.path.join(TOP, pattern), recursive=True)) if "/out/" not in path)


def comments(lines: list[str]) -> Iterator[tuple[int, str]]:
    """Each comment that has lines of its own, by the number and the text of its first one."""
    before = ""
    for number, line in enumerate(lines, 1):
        made = re.match(r"\s*(//[/!]?|--+)(?: +(.*))?$", line)
        marker = made[1] if made else ""
        if made and marker != before:
            yield number, made[2] or ""
        before = marker


def identifiers() -> Found:
    """The identifiers with each word, each with the file where it is most often."""
    where: dict[str, collections.Counter[str]] = collections.defaultdict(collections.Counter)
    for path in sources():
        for name in re.findall(r"[A-Za-z_]\w*", code_and_text(path)[0]):
            if name not in FIXED:
                where[name][os.path.relpath(path, TOP)] += 1
    found: Found = {("identifiers", word.forms[0]): [] for word in WORDS}
    for name, files in sorted(where.items()):
        for word in WORDS:
            if set(parts_of(name)) & set(word.forms):
                found["identifiers", word.forms[0]].append(f"{files.most_common(1)[0][0]}: {name}")
    return found


def openings() -> Found:
    """The comments that begin with a word of the lists."""
    words = {form: word.forms[0] for word in WORDS for form in word.forms}
    # the longest first, so that each comment counts once
    starts = sorted(OPENINGS, key=len, reverse=True)
    found: Found = {("comments", name): [] for name in [*OPENINGS, *(word.forms[0] for word in WORDS)]}
    for path in sources():
        with open(path, encoding="utf-8") as file:
            lines = file.read().split("\n")
        for number, text in comments(lines):
            first = re.split(r"[^a-z]", text.lower(), maxsplit=1)[0]
            begins = next((it for it in starts if re.match(it + r"\b(?!-)", text)), words.get(first, ""))
            if begins:
                found["comments", begins].append(f"{os.path.relpath(path, TOP)}:{number}: {text}")
    return found


if __name__ == "__main__":
    sys.exit(compare(identifiers() | openings(), sys.argv))
