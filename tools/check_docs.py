#!/usr/bin/env python3
"""Checks that what the documents name is there.

    tools/check_docs.py

- Each link leads to a file, and to a heading where it names one.
- Each `name` between backquotes that looks like a name of the crates (a module, function, type, definition, clause,
  file or must-fail edit) is declared there, or is a word of the notation, or of a command.
- In docs/PROVED.md each call of a table is public in a crate that its part names, or a type there, and each clause is a
  clause of one of these calls, a fact of the type, or a definition in the crate's specs.
- docs/GATE.md names all must-fail edits, and no others.

Each fault is a line `FILE:LINE: WHY`. Status 1 where there is one.
"""
import glob
import os
import re
import sys

TOP = os.path.dirname(os.path.dirname(os.path.abspath(__file__)))
# Documents whose every name is checked. Of the others only the links are.
NAMING = ["PROVED", "DEFINITIONS", "GATE", "ARCHITECTURE", "DECISIONS", "CAUSAL_CONSISTENCY", "RACES", "CONTRIBUTING", "GLOSSARY"]
# Words of the languages, of libraries, and of commands other than the program.
KNOWN = set("""
    requires ensures ghost use pub fn match let if else while unreachable malloc smallvec indexmap slab once_cell clap thiserror itoa arrayvec
    OnceBox OnceLock Vec Option Result Ok Err None Some Global AllocError Display From Rc std Mutex SmallVec IndexMap
    rt git make python3 clang gdb rr callgrind date invariant view Value Model inline never auto tactic using
    mypy ruff flake8 unittest dpkg debootstrap main
    """.split())


def text_of(path: str) -> str:
    with open(os.path.join(TOP, path), encoding="utf-8") as file:
        return file.read()


def files_of(pattern: str) -> list[str]:
    """The files below the repository that match, without what was built."""
    found = glob.glob(os.path.join(TOP, pattern), recursive=True)
    return sorted(os.path.relpath(it, TOP) for it in found if "/out/" not in it)


def is_made(path: str) -> bool:
    """Whether a build makes the file, so that a fresh clone lacks it."""
    return any(part in ("out", ".cache") for part in path.split("/"))


class Contract:
    """One function of a crate: its type, if it has one, and its clauses."""

    def __init__(self, owner: str, name: str, public: bool) -> None:
        self.owner, self.name, self.public = owner, name, public
        self.clauses: set[str] = set()


def contracts_of(text: str) -> tuple[list[Contract], set[tuple[str, str]]]:
    """The functions of a source file, in its order, and the facts of its types."""
    found: list[Contract] = []
    facts: set[tuple[str, str]] = set()
    owner = ""
    for line in text.split("\n"):
        opened = re.match(r"(?:pub )?(?:impl|trait|struct|enum)(?:<[^{]*?>)?\s+(?:\w+ for )?(\w+)", line)
        if opened and not line.startswith(" "):
            owner = opened[1]
        if line.startswith("}"):
            owner = ""
        made = re.match(r" *(pub(?:\(\w+\))? )?fn (\w+)", line)
        if made:
            found.append(Contract(owner, made[2], bool(made[1])))
        clause = re.match(r" *ensures(?: (\w+))? \{", line)
        if clause and found:
            found[-1].clauses.add(clause[1] or "ensures")
        fact = re.match(r" *(?:pub(?:\(\w+\))? )?ghost (\w+)\s*[:=]", line)
        if fact:
            facts.add((owner, fact[1]))
    return found, facts


def declared_in(text: str, is_source: bool) -> set[str]:
    """The names that a file declares: the more of its words count the fewer right names are refused."""
    if is_source:
        made = re.findall(r"\b(?:fn|struct|enum|trait|mod|type|const|ghost|ensures|requires|impl)\s+(\w+)", text)
        return set(made) | set(re.findall(r"^\s*(?:pub(?:\(\w+\))? )?(\w+)(?:,|:| \{|\(|<)", text, re.M))
    made = re.findall(r"^\s*(?:abbrev |pub |unfoldable |record |data |mod )+([^\s:]+)", text, re.M)
    made += re.findall(r"^\s*([^\s:(){}]+) :", text, re.M)
    return set(made) | set(re.findall(r"^([^\s:]+) .*=", text, re.M))


class Crates:
    """What the crates declare."""

    def __init__(self) -> None:
        self.names: set[str] = set()
        self.contracts: dict[str, list[Contract]] = {}
        self.facts: dict[str, set[tuple[str, str]]] = {}
        self.specs: dict[str, set[str]] = {}
        for path in files_of("crates/**/*.rt") + files_of("crates/**/*.antt"):
            self.read(path, path.split("/")[1])
        self.edits = {os.path.basename(it)[:-5]: it.split("/")[1] for it in files_of("crates/*/must-fail/*.edit")}
        self.crates = {it.split(":")[0].split()[0] for it in text_of("crates.txt").splitlines() if ":" in it and not it.startswith("#")}
        self.names |= set(self.edits) | self.crates

    def read(self, path: str, crate: str) -> None:
        text, is_source = text_of(path), path.endswith(".rt")
        declared = declared_in(text, is_source)
        self.names |= declared | {os.path.basename(path).rsplit(".", 1)[0]}
        if "/specs/" in path:
            self.specs.setdefault(crate, set()).update(declared)
        if is_source and "/src/" in path:
            found, facts = contracts_of(text)
            self.contracts.setdefault(crate, []).extend(found)
            self.facts.setdefault(crate, set()).update(facts)
        if is_source:
            # words of commands and replies are texts in the sources
            for said in re.findall(r'"((?:[^"\\]|\\.)*)"', text):
                self.names |= set(re.findall(r"[A-Za-z_]+", said))


def words_of_the_notation() -> set[str]:
    """Words between backquotes, and in blocks, of the pages that say what is typed."""
    found: set[str] = set()
    for page in ("NOTATION", "COMMANDS", "SHELL", "OPENMP", "RUNS", "TUTORIAL"):
        path = f"docs/{page}.md"
        if os.path.exists(os.path.join(TOP, path)):
            for span in re.findall(r"```.*?```|`[^`\n]+`", text_of(path), re.S):
                found |= set(re.findall(r"[A-Za-z_]+", span))
    return found


def anchors(path: str) -> set[str]:
    heads = re.findall(r"^#+ (.*)$", text_of(path), re.M)
    return {re.sub(r"[^\w\- ]", "", re.sub(r"\]\([^)]*\)", "]", head).lower()).replace(" ", "-") for head in heads}


class Check:
    """Counts what was looked at, and reports what isn't there."""

    def __init__(self) -> None:
        self.crates, self.words = Crates(), words_of_the_notation() | KNOWN
        self.faults: list[str] = []
        self.links = self.named = self.rows = 0

    def fault(self, page: str, line: int, why: str) -> None:
        self.faults.append(f"{page}:{line}: {why}")

    def check_links(self, page: str) -> None:
        for number, line in enumerate(text_of(page).split("\n"), 1):
            for link in re.findall(r"\]\(([^)\s]+)\)", re.sub(r"`[^`]*`", "", line)):
                self.check_link(page, number, link)

    def check_link(self, page: str, number: int, link: str) -> None:
        self.links += 1
        if re.match(r"\w+:", link):
            return
        path, _, anchor = link.partition("#")
        aim = os.path.normpath(os.path.join(os.path.dirname(page), path)) if path else page
        if not os.path.exists(os.path.join(TOP, aim)):
            self.fault(page, number, f"no such file: {link}")
        elif anchor and anchor not in anchors(aim):
            self.fault(page, number, f"no such heading: {link}")

    def check_names(self, page: str) -> None:
        text = re.sub(r"```.*?```", lambda it: "\n" * it[0].count("\n"), text_of(page), flags=re.S)
        for number, line in enumerate(text.split("\n"), 1):
            for span in re.findall(r"`([^`]+)`", line):
                self.check_span(page, number, span)

    def check_span(self, page: str, number: int, span: str) -> None:
        if re.search(r"\b[A-Z_]{3,}\b", span):
            return
        if " " in span:
            span = span.split(" ")[0]
            if not re.match(r"(\./|tools/|bench/|openmp/)", span):
                return
        if re.fullmatch(r"(\./)?[\w.*/-]+/[\w.*/-]*|[\w-]+\.(antt|rt|py|sh|md|edit)", span):
            self.named += 1
            if not is_made(span) and not self.is_file(page, span):
                self.fault(page, number, f"no such file: `{span}`")
        elif re.fullmatch(r"[A-Za-z_][\w-]*(::[A-Za-z_][\w-]*)*(<\w+>)?", span):
            self.named += 1
            for part in re.sub(r"<\w+>", "", span).split("::"):
                if not self.is_named(part):
                    self.fault(page, number, f"nothing is named `{part}`")

    def is_named(self, part: str) -> bool:
        """Whether the name is declared or known; one that begins or ends with a dash is for names that end or begin so."""
        if part.endswith("_"):
            return any(it.startswith(part) for it in self.crates.names)
        return part in self.crates.names or part in self.words or part.startswith("_") and any(it.endswith(part) for it in self.crates.names)

    @staticmethod
    def is_file(page: str, span: str) -> bool:
        span = span.removeprefix("./")
        roots = ["", os.path.dirname(page), "crates/*", "crates/**", "bench", "tools", "docs"]
        return any(glob.glob(os.path.join(TOP, root, span), recursive=True) for root in roots)

    def check_edits(self, page: str) -> None:
        """The edits that the page lists, one row a crate, are those that are there."""
        listed: dict[str, str] = {}
        for row in re.findall(r"^\| `?(\w+)`? \| (`[a-z_`, ]+`) \|$", text_of(page), re.M):
            listed.update({name: row[0] for name in re.findall(r"`(\w+)`", row[1])})
        for name in sorted(set(listed.items()) ^ set(self.crates.edits.items())):
            self.fault(page, 0, f"the edit {name[1]}/{name[0]} is {'missing here' if name[0] in self.crates.edits else 'not there'}")

    def check_rows(self, page: str) -> None:
        """The tables of promises: promise | call | clause | tested besides, below a line `Crates: ..`."""
        crates: list[str] = []
        for number, line in enumerate(text_of(page).split("\n"), 1):
            if line.startswith(("#", "Crates: ")):
                crates = [it for it in re.findall(r"`(\w+)`", line) if it in self.crates.crates]
            cells = [it.strip() for it in re.split(r"(?<!\\)\|", line)]
            if len(cells) == 4 and cells[0] not in ("promise", "---") and crates:
                self.check_row(page, number, crates, cells[1], cells[2])

    def check_row(self, page: str, number: int, crates: list[str], calls: str, clauses: str) -> None:
        self.rows += 1
        contracts: list[Contract] = []
        types: set[str] = set()
        for call in re.findall(r"`([^`]+)`", calls):
            owner, _, name = call.rpartition("::")
            owner = owner.rpartition("::")[2]
            found = [it for crate in crates for it in self.crates.contracts.get(crate, [])
                     if it.name == name and it.owner == owner and (it.public or owner)]
            contracts += found
            types |= {call} if not found and name[0].isupper() else set()
            if not found and not name[0].isupper():
                self.fault(page, number, f"no public call `{call}` in {', '.join(crates)}")
        known = {clause for it in contracts for clause in it.clauses}
        known |= {fact for crate in crates for owner, fact in self.crates.facts.get(crate, ()) if owner in types}
        for clause in re.findall(r"`([^`]+)`", clauses):
            if clause not in known and not any(clause in self.crates.specs.get(crate, ()) for crate in crates):
                self.fault(page, number, f"no clause or definition `{clause}` of {calls}")


def main() -> int:
    check = Check()
    pages = [it for it in ("README.md", "CHANGELOG.md", "CONTRIBUTING.md") if os.path.exists(os.path.join(TOP, it))]
    pages += files_of("docs/*.md") + files_of("bench/*.md") + files_of("*/README.md")
    for page in sorted(set(pages)):
        check.check_links(page)
        if os.path.basename(page)[:-3] in NAMING:
            check.check_names(page)
    check.check_rows("docs/PROVED.md")
    check.check_edits("docs/GATE.md")
    print("\n".join(check.faults + [f"{check.links} links, {check.named} names and {check.rows} rows were looked at, {len(check.faults)} faults"]))
    return 1 if check.faults else 0


if __name__ == "__main__":
    sys.exit(main())
