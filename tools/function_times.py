#!/usr/bin/env python3
"""Says how many seconds of processor each function of a crate takes to prove, the dearest first.

    tools/function_times.py [--test] [--only FUNCTION] [--rows N] CRATE

The crate is proved from nothing, by one process, over the libraries that `rt lib` built below crates/*/out; nothing is
kept. A function's time has what it needs first in it, as the code that drops a type: what functions share is counted at
the first of them. The first row has the loading of the libraries too.
"""
import argparse
import os
import subprocess
import sys

TOP = os.path.dirname(os.path.dirname(os.path.abspath(__file__)))
KIT = "/opt/rattle"
TICKS = os.sysconf("SC_CLK_TCK")


def libraries() -> dict[str, list[str]]:
    """What each crate of crates.txt uses, the kit's libraries too."""
    found = {}
    with open(os.path.join(TOP, "crates.txt"), encoding="utf-8") as file:
        for line in file:
            head, colon, rest = line.partition("#")[0].partition(":")
            if colon:
                found[head.split()[0]] = rest.split()
    return found


def below(crate: str, libs: dict[str, list[str]]) -> list[str]:
    """The repository's own crates below this one."""
    found: list[str] = []
    for name in libs[crate]:
        if name in libs:
            found += [it for it in [*below(name, libs), name] if it not in found]
    return found


def command(crate: str, more: list[str]) -> list[str]:
    """The check of the crate over what is built."""
    libs = libraries()
    if crate not in libs:
        sys.exit(f"function_times: crates.txt has no crate {crate}")
    root = "src/main.rt" if os.path.exists(f"{TOP}/crates/{crate}/src/main.rt") else "src/lib.rt"
    words = [f"{KIT}/bin/rattle", "check", "--crate-name", crate, root]
    for name in sorted({*libs[crate], "std"}):
        words += ["--extern", f"{name}={rlib(name) if name in libs else f'{KIT}/rlibs/{name}.rlib'}"]
    words += ["-L", f"dependency={KIT}/rlibs"]
    for name in below(crate, libs):
        words += ["-L", f"dependency={os.path.dirname(rlib(name))}"]
    words += ["--antt-project", f"{KIT}/rattle/logic/antt-project.json", "--logic-built", f"{KIT}/logic_built"]
    return [*words, "--jobs", "1", "--progress", *more]


def rlib(crate: str) -> str:
    path = f"{TOP}/crates/{crate}/out/rlib/{crate}.rlib"
    if not os.path.isdir(path):
        sys.exit(f"function_times: {crate} isn't built: run `rt lib` in crates/{crate}")
    return path


def taken(pid: int, otherwise: float) -> float:
    """The processor time of a process so far, in seconds."""
    try:
        with open(f"/proc/{pid}/stat", encoding="ascii") as file:
            fields = file.read().rpartition(")")[2].split()
    except OSError:
        return otherwise
    return sum(int(it) for it in fields[11:15]) / TICKS


def main() -> int:
    parser = argparse.ArgumentParser(description="How long each function of a crate takes to prove.")
    parser.add_argument("crate")
    parser.add_argument("--test", action="store_true", help="with the crate's tests")
    parser.add_argument("--only", action="append", default=[], metavar="FUNCTION", help="this function and what it needs")
    parser.add_argument("--rows", type=int, default=30, help="so many of the dearest (30)")
    asked = parser.parse_args()
    more = ["--test"] * asked.test
    for name in asked.only:
        more += ["--only", name]
    rows, said, before = [], [], 0.0
    with subprocess.Popen(command(asked.crate, more), cwd=f"{TOP}/crates/{asked.crate}",
                          stdout=subprocess.PIPE, stderr=subprocess.STDOUT, text=True) as child:
        assert child.stdout is not None
        for line in child.stdout:
            now = taken(child.pid, before)
            if line.startswith("checked "):
                rows.append((now - before, line.split()[1].rstrip(",")))
                before = now
            else:
                said.append(line.rstrip())
    for seconds, name in sorted(rows, reverse=True)[:asked.rows]:
        print(f"{seconds:8.1f}  {name}")
    print(f"{sum(row[0] for row in rows):8.1f}  all {len(rows)}")
    if child.returncode:
        print("\n".join(said[-20:]))
    return child.returncode


if __name__ == "__main__":
    sys.exit(main())
