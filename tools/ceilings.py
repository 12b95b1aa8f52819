"""Counts that may only fall. Each has its ceiling in tools/ceilings.txt, a line `KIND, NAME: COUNT`; a count above it fails."""
import os
import re

TOP = os.path.dirname(os.path.dirname(os.path.abspath(__file__)))
FILE = os.path.join(TOP, "tools", "ceilings.txt")
HEAD = "# Counts that may only fall. `--lower` of tools/check_words.py and tools/check_sizes.py writes those that fell.\n"

# What is counted, by its kind and its name: a line for each.
Found = dict[tuple[str, str], list[str]]
Counts = dict[tuple[str, str], int]


def ceilings() -> Counts:
    """The ceilings that the file has."""
    with open(FILE, encoding="utf-8") as file:
        lines = [re.fullmatch(r"(\w+), (.*): (\d+)\n", line) for line in file if not line.startswith("#")]
    return {(it[1], it[2]): int(it[3]) for it in lines if it}


def lower(most: Counts) -> None:
    """Writes the ceilings, without those that are 0."""
    with open(FILE, "w", encoding="utf-8") as file:
        file.write(HEAD)
        file.writelines(f"{kind}, {name}: {count}\n" for (kind, name), count in sorted(most.items()) if count)


def compare(found: Found, words: list[str]) -> int:
    """Does what the words of the command line ask for, and returns the status: lists, lowers, or compares."""
    if "--list" in words:
        name = words[words.index("--list") + 1]
        print("\n".join(it for (_, listed), lines in found.items() if listed == name for it in lines))
        return 0
    most, kinds = ceilings(), {kind for kind, _ in found}
    counts = {key: len(lines) for key, lines in found.items()}
    above = {key: count for key, count in sorted(counts.items()) if count > most.get(key, 0)}
    fell = {key: counts.get(key, 0) for key, count in most.items() if key[0] in kinds and counts.get(key, 0) < count}
    for (kind, name), count in above.items():
        print(f"{kind}, {name}: {count}, above the ceiling of {most.get((kind, name), 0)}; `{words[0]} --list '{name}'` lists them")
    if fell and "--lower" in words:
        lower(most | fell)
    elif fell:
        print("below their ceilings, so that --lower can write it: " + ", ".join(f"{name} {count}" for (_, name), count in sorted(fell.items())))
    print(f"{len(counts)} counts of {', '.join(sorted(kinds))}: {len(above)} above their ceilings")
    return 1 if above else 0
