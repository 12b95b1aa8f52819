#!/usr/bin/env python3
"""Writes the generated parts of docs/GATE.md, each between two marks `<!-- NAME -->` and `<!-- end of NAME -->`.

    tools/gate_page.py            the must-fail edits, from crates/*/must-fail
    tools/gate_page.py TIMES      also the table of costs, from what `tools/ci_times.sh > TIMES` wrote

The line above the table says of which commit and machine it is: run it where the gate ran, before the next commit.
"""
import glob
import os
import re
import subprocess
import sys

TOP = os.path.dirname(os.path.dirname(os.path.abspath(__file__)))
PAGE = os.path.join(TOP, "docs", "GATE.md")


def edits() -> str:
    """A row for each crate that has edits, in the order of crates.txt."""
    with open(os.path.join(TOP, "crates.txt"), encoding="utf-8") as file:
        crates = [line.split(":")[0].split()[0] for line in file if ":" in line and not line.startswith("#")]
    rows = ["| crate | edits |", "|---|---|"]
    count = 0
    for crate in crates:
        names = sorted(os.path.basename(it)[:-5] for it in glob.glob(f"{TOP}/crates/{crate}/must-fail/*.edit"))
        count += len(names)
        if names:
            rows.append(f"| {crate} | " + ", ".join(f"`{it}`" for it in names) + " |")
    return f"{count} edits:\n\n" + "\n".join(rows)


def machine() -> str:
    """The processors and the memory of this machine, in words."""
    with open("/proc/meminfo", encoding="ascii") as file:
        kilobytes = int(re.findall(r"MemTotal: *(\d+)", file.read())[0])
    return f"{os.cpu_count()} virtual cores, {kilobytes / 1e6:.0f} GB"


def said(*words: str) -> str:
    return subprocess.run(words, cwd=TOP, capture_output=True, text=True, check=True).stdout.strip()


def without_small(table: str) -> str:
    """The table with the crates that take less than four minutes in one row."""
    rows, small = [], []
    for row in table.split("\n"):
        taken = re.fullmatch(r"\| (tb_)?\w+ \|.* ([\d.]+) \|", row)
        if taken and float(taken[2]) < 4:
            small.append(float(taken[2]))
        else:
            rows.append(row)
    at = next((at for at, row in enumerate(rows) if row.startswith("| all ")), len(rows))
    if small:
        rows.insert(at, f"| {len(small)} others |  |  |  |  | {sum(small):.1f} |")
    return "\n".join(rows)


def costs(log: str) -> str:
    """The last table of the log, with what it was measured by."""
    with open(log, encoding="utf-8", errors="replace") as file:
        text = file.read()
    table = without_small(re.findall(r"^\| crate \|.*?(?=^[^|])", text, re.M | re.S)[-1].strip())
    passed = re.findall(r"(\d+ passed, \d+ failed)", text)[-1]
    end = re.findall(r"([\d.]+)  end: (.*)$", text, re.M)[-1]
    return (f"Commit {said('git', 'rev-parse', '--short', 'HEAD')}, {said('rt', 'version').split(' logic')[0]}, {machine()}: `{passed}`, "
            f"{float(end[0]) / 60:.0f} minutes by the clock ({end[1]}). In minutes of processor:\n\n{table}")


def put(name: str, text: str, page: str) -> str:
    """The page with this text between the two marks."""
    start, end = f"<!-- {name} -->", f"<!-- end of {name} -->"
    before, rest = page.split(start, 1)
    return f"{before}{start}\n{text}\n{end}{rest.split(end, 1)[1]}"


def main() -> None:
    with open(PAGE, encoding="utf-8") as file:
        page = file.read()
    page = put("edits", edits(), page)
    if len(sys.argv) > 1:
        page = put("costs", costs(sys.argv[1]), page)
    with open(PAGE, "w", encoding="utf-8") as file:
        file.write(page)


if __name__ == "__main__":
    main()
