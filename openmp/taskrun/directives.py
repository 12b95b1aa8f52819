"""`omp loop`, which clang 14 has each thread do whole: the compiler is given `for` in its place, which says the same where
the loop binds to a parallel region. The file keeps its name and its lines."""

import json
import os
import re
import subprocess

# From this version on clang shares out the iterations itself.
SHARES_OUT = 17
DIRECTIVE = re.compile(r"^(?P<pragma>[ \t]*#[ \t]*pragma[ \t]+omp[ \t]+)loop\b(?P<clauses>(?:[^\\\n]|\\\n)*)", re.M)
BIND = re.compile(r"\bbind[ \t]*\([ \t]*(\w+)[ \t]*\)")
STANDS_FOR = {"parallel": "for", "teams": "distribute"}


def shares_out(compiler: str) -> bool:
    """Whether this clang does."""
    told = subprocess.run([compiler, "-dumpversion"], capture_output=True, text=True, check=False).stdout
    return int(told.partition(".")[0] or 0) >= SHARES_OUT


def with_shares(found: re.Match[str]) -> str:
    """The directive in other words; that of a loop that each thread does whole stays."""
    bind = BIND.search(found["clauses"])
    name = STANDS_FOR.get(bind[1] if bind else "parallel")
    return found[0] if name is None else found["pragma"] + name + BIND.sub("", found["clauses"])


def words_for_loops(compiler: str, sources: list[str], options: list[str], folder: str) -> list[str]:
    """The compiler's words that put changed texts in the place of those of these files that have such a directive; the
    folder keeps them. A text that the compiler refuses, since the loop binds to another region, stays as it is."""
    roots = []
    for number, source in enumerate(sources):
        try:
            with open(source, encoding="utf-8", errors="surrogateescape") as file:
                text = file.read()
        except OSError:
            continue
        changed = DIRECTIVE.sub(with_shares, text)
        if changed == text or shares_out(compiler):
            continue
        made = os.path.join(folder, f"loops{number}" + os.path.splitext(source)[1])
        with open(made, "w", encoding="utf-8", errors="surrogateescape") as file:
            file.write(changed)
        root = {"type": "file", "name": os.path.abspath(source), "external-contents": made}
        trial = [compiler, "-fopenmp", "-w", "-fsyntax-only", *options, *overlay([root], folder, "trial"), source]
        if subprocess.run(trial, capture_output=True, check=False).returncode == 0:
            roots.append(root)
    return overlay(roots, folder, "loops") if roots else []


def overlay(roots: list[dict[str, str]], folder: str, name: str) -> list[str]:
    """The compiler's words for these files."""
    path = os.path.join(folder, name + ".yaml")
    with open(path, "w", encoding="utf-8") as file:
        json.dump({"version": 0, "use-external-names": False, "roots": roots}, file)
    return ["-ivfsoverlay", path]
