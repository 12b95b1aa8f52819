"""Where in the sources a place of the program is: file and line, and the expression that stands there."""

import os
import re
import shutil
import subprocess
from collections.abc import Collection, Iterable
from typing import NamedTuple

IDENTIFIER = re.compile(r"[A-Za-z_]\w*")
DIRECTIVE = re.compile(r"[ \t]*#[ \t]*pragma[ \t]+omp\b")
STATEMENTS = ("return", "if", "while", "for", "else", "do", "case")
LONGEST = 40
SYSTEM = ("/usr/", "/opt/")
LONGEST_STATEMENT = 40   # lines


class Place(NamedTuple):
    """A line of a source, and its column (0: not known)."""

    file: str
    line: int
    column: int

    def __str__(self) -> str:
        return f"{os.path.basename(self.file)}:{self.line}" if self.line else "a place without a line"


NOWHERE = Place("", 0, 0)


def symbolizer() -> list[str] | None:
    """The command that tells source lines, or None."""
    for name in ("llvm-symbolizer-14", "llvm-symbolizer"):
        if shutil.which(name):
            return [name, "--relative-address", "--functions=none", "--inlining=false"]
    return ["addr2line"] if shutil.which("addr2line") else None


def find_places(program: str, addresses: Iterable[int]) -> dict[int, Place]:
    """A Place for each of these return addresses, counted from where the program is loaded."""
    command = symbolizer()
    wanted = sorted(address for address in addresses if address > 0)
    if not command or not wanted:
        return {}
    # The call stands in front of its return address.
    asked = "".join(f"{address - 1:#x}\n" for address in wanted)
    done = subprocess.run([*command, "-e", program], input=asked, capture_output=True, text=True,
                          errors="replace", check=False)
    told = [line for line in done.stdout.splitlines() if line]
    if len(told) != len(wanted):
        return {}
    return dict(zip(wanted, map(read_place, told)))


def why_no_lines(program: str, addresses: Iterable[int]) -> str | None:
    """Why none of these has a line; None where none is asked for."""
    if not any(address > 0 for address in addresses):
        return None
    if not symbolizer():
        return "no llvm-symbolizer and no addr2line is here"
    if not os.path.exists(program):
        return f"{program} isn't there any more"
    return f"{program} was stripped, or is another program than the one that ran"


def read_place(told: str) -> Place:
    """A line of the symbolizer's: `file:line:column`, or `file:line` with remarks."""
    found = re.match(r"(.*?):(\d+)(?::(\d+))?(?: .*)?$", told)
    if not found or found[1] == "??":
        return NOWHERE
    return Place(found[1], int(found[2]), int(found[3] or 0))


class Sources:
    """The places of one program and the text that stands there."""

    def __init__(self, program: str, places: Collection[int]) -> None:
        self._places = find_places(program, places)
        self.why_none = None if any(place.line for place in self._places.values()) else why_no_lines(program, places)
        self._texts: dict[str, list[str]] = {}
        self._names: dict[int, str] = {}

    def place(self, address: int) -> Place:
        """The Place of a return address."""
        return self._places.get(address, NOWHERE)

    def expression(self, address: int) -> str:
        """What is read or written there, in the words of the source; `memory` where that can't be told."""
        if address not in self._names:
            place = self.place(address)
            lines = self.lines(place.file) if place.line else []
            line = lines[place.line - 1] if 0 < place.line <= len(lines) else ""
            self._names[address] = expression_at(line, place.column) or self.reduced(address) or "memory"
        return self._names[address]

    def is_own(self, address: int) -> bool:
        """Whether the program's own sources have the place, and not a header of the system."""
        place = self.place(address)
        return bool(place.line) and not place.file.startswith(SYSTEM)

    def is_call(self, address: int) -> bool:
        """Whether a function's name stands there, in front of its arguments."""
        place = self.place(address)
        lines = self.lines(place.file) if place.line else []
        line = lines[place.line - 1] if 0 < place.line <= len(lines) else ""
        return bool(re.match(r"[\w.>:<,-]*[\w>]\s*\(", line[max(place.column - 1, 0):]))

    def argument(self, address: int, is_written: bool) -> str:
        """What the library's function that is called there writes, its first argument, or reads: the last one that is
        no literal and no format."""
        place = self.place(address)
        lines = self.lines(place.file) if place.line else []
        line = lines[place.line - 1] if 0 < place.line <= len(lines) else ""
        begin = line.find("(", max(place.column - 1, 0))
        end = matching(line, begin) if begin >= 0 else 0
        if not end:
            return "memory"
        arguments = [name for name in names_in(":" + line[begin + 1:end - 1]) if IDENTIFIER.match(name.lstrip("&*"))]
        # Which of its arguments a scan writes isn't known here.
        if not arguments or (is_written and re.match(r"\w*scanf\b", line[max(place.column - 1, 0):])):
            return "memory"
        return arguments[0].lstrip("&") if is_written else arguments[-1].lstrip("&")

    def directive(self, address: int) -> str:
        """The text of the directive there, with the lines that go on from it."""
        place = self.place(address)
        lines = self.lines(place.file) if place.line else []
        text = ""
        for line in lines[place.line - 1:] if place.line else []:
            text += line.rstrip("\\")
            if not line.endswith("\\"):
                break
        return text

    def items(self, address: int) -> list[str]:
        """The names in the depend clauses of the directive there, in their order."""
        text = self.directive(address)
        return [name for clause in re.finditer(r"\bdepend\s*\(", text)
                for name in names_in(text[clause.end():matching(text, clause.end() - 1) - 1])]

    def reduced(self, address: int) -> str:
        """The variable that the directive there reduces, if it is one: which of several is put together can't be told."""
        text = self.directive(address)
        if not DIRECTIVE.match(text):
            return ""
        names = [name for clause in re.finditer(r"\b(?:task_|in_)?reduction\s*\(", text)
                 for name in names_in(":" + text[clause.end():matching(text, clause.end() - 1) - 1].partition(":")[2])]
        return names[0] if len(names) == 1 and IDENTIFIER.fullmatch(names[0]) else ""

    def statement(self, address: int) -> str:
        """The statement that the directive there stands in front of: up to its semicolon, or its closing brace."""
        place = self.place(address)
        lines = self.lines(place.file) if place.line else []
        at = place.line - 1
        while 0 <= at < len(lines) and (lines[at].endswith("\\") or lines[at].lstrip().startswith("#")):
            at += 1
        text = "\n".join(lines[at:at + LONGEST_STATEMENT]) if place.line else ""
        depth = 0
        for number, letter in enumerate(text):
            depth += (letter in "{([") - (letter in "})]")
            if depth <= 0 and letter in ";}":
                return text[:number + 1]
        return text

    def lines(self, file: str) -> list[str]:
        """Those of a source; none where it can't be read."""
        if file not in self._texts:
            try:
                with open(file, encoding="utf-8", errors="replace") as text:
                    self._texts[file] = text.read().splitlines()
            except OSError:
                self._texts[file] = []
        return self._texts[file]


def names_in(clause: str) -> list[str]:
    """The names in `TYPE: NAME, NAME`; a comma within brackets parts none."""
    names, depth = [""], 0
    for letter in clause.partition(":")[2]:
        depth += (letter in "([") - (letter in ")]")
        if letter == "," and depth == 0:
            names.append("")
        else:
            names[-1] += letter
    return [shortened(name) for name in names]


def postfix_expressions(text: str, name: str) -> list[str]:
    """The expressions in the text that begin with this name."""
    return [postfixed(text, found.start()) for found in re.finditer(rf"(?<![\w.>]){re.escape(name)}\b", text)]


def expression_at(line: str, column: int) -> str:
    """The expression at this column: the one that begins there, or the one in front of an operator that assigns."""
    if not 0 < column <= len(line):
        return ""
    at = column - 1
    freed = re.match(r"(?:omp_)?(?:free|realloc)\s*\(\s*|delete\s*(?:\[\s*\])?\s*", line[at:])
    if freed:
        at += freed.end()
    assigned = re.match(r"(?:[-+*/%&|^]|<<|>>)?=(?!=)|\+\+|--", line[at:])
    if assigned:
        is_in_front = assigned[0] in ("++", "--") and re.match(r"\s*[A-Za-z_(]", line[at + 2:])
        before = "" if is_in_front else expression_before(line[:at].rstrip())
        if before and before not in STATEMENTS:
            return before
        at += len(assigned[0])
    if re.match(r"\w+::", line[at:]):
        return ""
    if line[at:at + 1] in ("*", "&") or line[at:at + 1] == "(":
        return prefixed(line, at)
    return postfixed(line, at)


def prefixed(line: str, at: int) -> str:
    """`*p`, `(*p).x`: the stars, or the pair of brackets, with what follows."""
    if line[at] == "(":
        end = matching(line, at)
        return shortened(line[at:after_postfixes(line, end)]) if end else ""
    stars = at
    while line[at:at + 1] in ("*", "&"):
        at += 1
    rest = prefixed(line, at) if line[at:at + 1] == "(" else postfixed(line, at)
    return shortened(line[stars:at] + rest) if rest else ""


def postfixed(line: str, at: int) -> str:
    """A name with its indexes and members."""
    name = IDENTIFIER.match(line, at)
    if not name or name[0] in STATEMENTS:
        return ""
    end = after_postfixes(line, name.end())
    if line[:at].rstrip().endswith(("->", ".")):
        return shortened(expression_before(line[:name.end()]) + line[name.end():end])
    return shortened(line[at:end])


def after_postfixes(line: str, at: int) -> int:
    """The end of the indexes and members that begin here."""
    while True:
        rest = line[at:]
        member = re.match(r"\s*(?:->|\.)\s*[A-Za-z_]\w*", rest)
        if member:
            at += member.end()
        elif rest[:1] == "[" and matching(line, at):
            at = matching(line, at)
        else:
            return at


def matching(line: str, at: int) -> int:
    """The column behind the bracket that closes the one here, or 0."""
    depth = 0
    for number in range(at, len(line)):
        if line[number] in "([":
            depth += 1
        elif line[number] in ")]":
            depth -= 1
            if depth == 0:
                return number + 1
    return 0


def expression_before(text: str) -> str:
    """The expression that this text ends with: what an assignment stands after."""
    at = len(text)
    while at > 0:
        if text[at - 1] in ")]":
            at = opening(text, at)
            if at < 0:
                return ""
        elif re.match(r"\w", text[at - 1]):
            while at > 0 and re.match(r"\w", text[at - 1]):
                at -= 1
        else:
            return ""
        if text[:at].endswith("->"):
            at -= 2
        elif text[:at].endswith("."):
            at -= 1
        elif text[at] not in "[(" or text[at] == "(":
            break
    while text[:at].endswith("*") and not re.search(r"\w\s*\**$", text[:at]):
        at -= 1
    return shortened(text[at:])


def opening(text: str, end: int) -> int:
    """Where the bracket opens that the text up to here closes, or -1."""
    depth = 0
    for number in range(end - 1, -1, -1):
        if text[number] in ")]":
            depth += 1
        elif text[number] in "([":
            depth -= 1
            if depth == 0:
                return number
    return -1


def shortened(expression: str) -> str:
    """In printable ASCII, without blanks, and of a bearable length."""
    text = "".join(letter for letter in expression if 32 < ord(letter) < 127)
    return text if len(text) <= LONGEST else text[:LONGEST - 2] + ".."
