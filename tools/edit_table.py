#!/usr/bin/env python3
"""Prints the must-fail edits as a table: each with the function whose body it turns, and how.

    tools/edit_table.py [GATE_LOG]

With the log of a gate (tools/ci_times.sh > GATE_LOG) a last column has what the prover could not show.
"""
import glob
import os
import re
import sys

TOP = os.path.dirname(os.path.dirname(os.path.abspath(__file__)))


def pairs_of(edit: str) -> tuple[str, str, str]:
    """The file and the first pair of texts of an edit."""
    with open(edit, encoding="utf-8") as file:
        lines = file.read().splitlines()
    found: dict[str, str] = {}
    for line in lines:
        word, _, rest = line.partition(":")
        found.setdefault(word, rest.strip())
    return found["file"], found["old"], found["new"]


def function_of(path: str, old: str) -> str:
    """The function, or the definition, in which the text is."""
    with open(path, encoding="utf-8") as file:
        before = file.read().partition(old)[0]
    words: list[str] = re.findall(r"^ *(?:pub(?:\([a-z]+\))? )?fn (\w+)", before, re.M)
    names: list[str] = re.findall(r"^(?:abbrev |pub |unfoldable |record |data )*(\w+) *:", before, re.M)
    return words[-1] if path.endswith(".rt") and words else names[-1] if names else ""


def refusals(log: str | None) -> dict[tuple[str, str], str]:
    """What the gate's log says of each edit."""
    said: dict[tuple[str, str], str] = {}
    if log:
        with open(log, encoding="utf-8", errors="replace") as file:
            for crate, name, why in re.findall(r"must-fail (\w+)/([\w.-]+)\.edit: refused, as it must be:? ?(.*)", file.read()):
                # the first goal that was left, or that of a proof file which no longer fits
                goal = re.search(r"\(`([\w-]+)", why) or re.search(r"`([\w+-]+)`", why)
                said[crate, name] = f"`{goal[1]}`" if goal else "what a proof file names is gone"
    return said


def short(text: str) -> str:
    text = text if len(text) <= 70 else text[:67] + "..."
    return "`" + text.replace("|", "\\|") + "`"


def main() -> None:
    said = refusals(sys.argv[1] if len(sys.argv) > 1 else None)
    print("| crate | edit | function | instead of | it has |" + (" not shown |" if said else ""))
    print("|---|---|---|---|---|" + ("---|" if said else ""))
    for edit in sorted(glob.glob(f"{TOP}/crates/*/must-fail/*.edit")):
        crate, name = edit.split("/")[-3], os.path.basename(edit)[:-5]
        path, old, new = pairs_of(edit)
        row = [crate, name, f"`{function_of(f'{TOP}/crates/{crate}/{path}', old)}`", short(old), short(new)]
        print("| " + " | ".join(row + ([said.get((crate, name), "")] if said else [])) + " |")


if __name__ == "__main__":
    main()
