#!/usr/bin/env python3
"""Counts words that have several meanings, in the crates, the front end and the documents, for docs/GLOSSARY.md.

    tools/words.py [--where WORD]

Each row is a word of the list below: how often it is in text (documents and comments), how many identifiers have it and how
often these occur, and its meanings, as far as a script can tell them: by the crates in which an identifier with it is. What
the notation, a reply, a refusal or a public type fixes isn't counted. `--where WORD` lists the identifiers with their files.
The status is always 0: `tools/check_words.py` is the test.
"""
import collections
import glob
import os
import re
import sys
from typing import Iterator, NamedTuple

TOP = os.path.dirname(os.path.dirname(os.path.abspath(__file__)))
READING = ("tb_model", "tb_read", "tb_plan", "tb_commands", "tb_plain")
TABLES = ("tb_store", "tb_cells", "tb_depend", "tb_excl", "tb_wait", "tb_ready", "tb_undo")
HISTORY = ("tb_places", "tb_steps", "tb_core", "tb_cause", "tb_lanes", "tb_order", "tb_roll", "tb_races")
RUN = ("tb_journal", "tb_control", "tb_next", "tb_live", "tb_work", "tb_team")

# How often an identifier is in each file, with the crate of the file.
Places = collections.Counter[tuple[str, str]]


class Word(NamedTuple):
    """A word in its forms, the words to use in its stead, and these by the crates where it is."""
    forms: tuple[str, ...]
    take: str
    by_crates: dict[tuple[str, ...], str]


WORDS = [
    Word(("place", "places"), "location; index; slot; write-once cell", {READING: "location", TABLES: "index, location", HISTORY: "index", RUN: "slot"}),
    Word(("number", "numbers"), "value; id; ordinal; code", {READING: "value, ordinal", TABLES: "id, ordinal", HISTORY: "id", RUN: "code"}),
    Word(("take", "takes", "taken"), "execute; depend on; take (a value)", {}),
    Word(("stand", "stands", "stood", "standing"), "is in; is at", {}),
    Word(("near", "behind", "beside", "elsewhere"), "hint; after; other", {}),
    Word(("room", "rooms"), "capacity; frame", {}),
    Word(("told", "tell", "tells"), "returns; reports", {}),
    Word(("ready", "readied"), "unended; runnable; prepared; reserve", {TABLES: "unended", HISTORY: "prepared", RUN: "runnable, reserve"}),
    Word(("keep", "keeps", "kept"), "block; retain", {}),
    Word(("apart",), "exclusive; out of line", {READING: "exclusive", TABLES: "exclusive", HISTORY: "exclusive", RUN: "out of line"}),
    Word(("entry", "entries"), "journal entry; stored step", {HISTORY: "stored step", RUN: "journal entry"}),
    Word(("cause", "causes"), "predecessor; cause (the view)", {}),
    Word(("floor",), "search start", {}),
    Word(("cone",), "dependents", {}),
    Word(("coming",), "next step", {}),
    Word(("strip",), "private block (fixed by a public type)", {}),
    Word(("seat", "seats"), "worker's slot (fixed by a public type)", {}),
]
# Identifiers that are fixed: types and variants of the public surface, words of the notation and of replies.
FIXED = set("""
    Place Ready Relation Apart CellTaken Seat seat seats Strip strip strip_around causes Causes apart Entry Stands
    ready Number tb_places tb_ready tb_cause BadNumber NotReady
    """.split())


def code_and_text(path: str) -> tuple[str, str]:
    """The identifiers of a source, and the words of its comments; texts between quotes are neither."""
    with open(path, encoding="utf-8") as file:
        source = file.read()
    if path.endswith(".md"):
        return "", re.sub(r"```.*?```|`[^`\n]*`", " ", source, flags=re.S)
    comment = {"rt": r"//[^\n]*", "antt": r"--[^\n]*"}.get(path.rsplit(".", 1)[1], r"#[^\n]*|\"\"\".*?\"\"\"")
    text = "\n".join(re.findall(comment, source, re.S if comment.startswith("#") else 0))
    code = re.sub(r'"(?:[^"\\\n]|\\.)*"', '""', re.sub(comment, "", source, flags=re.S if comment.startswith("#") else 0))
    return code, text


def parts_of(name: str) -> list[str]:
    """The words of an identifier, in small letters."""
    return [part.lower() for part in re.findall(r"[A-Z]?[a-z]+|[A-Z]+(?![a-z])", name)]


def sources() -> Iterator[tuple[str, str]]:
    """The files that are read, each with the crate or the folder that it belongs to."""
    for pattern in ("crates/**/*.rt", "crates/**/*.antt", "shell/**/*.py", "openmp/**/*.py", "docs/*.md", "*.md"):
        for path in sorted(glob.glob(os.path.join(TOP, pattern), recursive=True)):
            if "/out/" not in path:
                inner = os.path.relpath(path, TOP).split("/")
                yield path, inner[1] if inner[0] == "crates" else inner[0]


def counted() -> tuple[collections.Counter[str], dict[str, Places]]:
    """How often each word is in text, and where each identifier is."""
    text: collections.Counter[str] = collections.Counter()
    names: dict[str, Places] = collections.defaultdict(collections.Counter)
    for path, owner in sources():
        code, said = code_and_text(path)
        text.update(re.findall(r"[a-z]+", said.lower()))
        for name in re.findall(r"[A-Za-z_]\w*", code):
            if name not in FIXED:
                names[name][owner, os.path.relpath(path, TOP)] += 1
    return text, names


def by_meaning(word: Word, found: dict[str, Places]) -> str:
    """The occurrences of identifiers with the word, by what it means where they are."""
    count: collections.Counter[str] = collections.Counter()
    for places in found.values():
        for (owner, _), times in places.items():
            count[next((it for crates, it in word.by_crates.items() if owner in crates), "other")] += times
    return ", ".join(f"{meaning} {times}" for meaning, times in count.most_common()) if word.by_crates else ""


def main() -> None:
    wanted = sys.argv[sys.argv.index("--where") + 1] if "--where" in sys.argv else None
    text, names = counted()
    if not wanted:
        print("| word | in text | identifiers | occurrences | by the crates they are in | words to take |\n|---|---|---|---|---|---|")
    for word in WORDS:
        found = {name: where for name, where in names.items() if set(parts_of(name)) & set(word.forms)}
        if wanted in word.forms:
            for name, where in sorted(found.items()):
                print(f"{name}: " + ", ".join(f"{path} {times}" for (_, path), times in where.most_common(3)))
        elif not wanted:
            times = sum(sum(it.values()) for it in found.values())
            print(f"| {', '.join(word.forms)} | {sum(text[form] for form in word.forms)} | {len(found)} | {times} | {by_meaning(word, found)} | {word.take} |")


if __name__ == "__main__":
    main()
