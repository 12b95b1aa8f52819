"""Lines as C and other languages have them, and what the notation has in their place."""

import re
from collections.abc import Callable, Sequence

# How the notation writes comparisons that it hasn't; the numbers are the two sides.
TURNED = {"=": "{0} == {1}", ">": "{1} < {0}", ">=": "{1} <= {0}"}
NUMBERED = "so a number that a task keeps is a register, `let rK A`, and one that tasks share is a cell, `cell C V` in front of the bodies"
# Words of C and of other languages, and what the notation has in their place.
WORDS = {
    "for": "while A CMP B .. end, with a `let` in front and one at its end", "do": "while A CMP B .. end",
    **dict.fromkeys(("int", "long", "unsigned", "auto", "const", "int64_t", "var", "double", "float"), f"nothing: numbers have no names, {NUMBERED}"),
    **dict.fromkeys(("void", "def", "func", "function", "begin", "proc"), "body NAME COUNT, the count of its parameters: r0 has the first"),
    "return": "end", "}": "end", "};": "end", "{": "nothing: a block begins with its line and ends with `end`", "endif": "end", "done": "end",
    "printf": "print VAL", "puts": "print VAL", "cout": "print VAL", "echo": "print VAL", "write": "store ADDR VAL", "read": "load rK ADDR",
    "spawn": "task NAME ARG..", "async": "task NAME ARG..", "call": "task NAME ARG..", "wait": "taskwait", "join": "taskwait", "sync": "taskwait",
    "barrier": "taskwait", "group": "taskgroup", "elif": "else, and an `if` in it with an `end` of its own",
    "global": "cells N", "single": "nothing: the root is one task", "parallel": "nothing: the root is one task",
    "critical": "nothing: `depend mutexinoutset C` on the lines of two tasks keeps them apart", "atomic": "nothing: each load and each store is one step",
}
OPERAND = r"(-?[0-9]+|r[0-9]+)"
CLAUSE = re.compile(r"depend\s*\(\s*(\w+)\s*:\s*([^)]*)\)")
CALLED = re.compile(r"(?:task\s+)?([A-Za-z_]\w*)\s*\(([^()]*)\)\s*(.*?);?")
TESTED = re.compile(rf"(if|while)\s*\(?\s*({OPERAND}|true)\s*(?:(==|!=|<=|<|>=|>|=)\s*{OPERAND})?\s*\)?\s*(?:[{{:;]|then|do)?")
TEST_OF_TASK = re.compile(rf"(task .* if) (?:\(\s*)?{OPERAND}\s*(?:(==|!=|<=|<|>=|>|=)\s*{OPERAND})?(?:\s*\))?;?")
ADDRESSES = re.compile(rf"depend (\w+) ({OPERAND}(?:\s*,\s*{OPERAND})+)")
INDEXED = re.compile(r"[A-Za-z_]\w*\[\s*(\w+)\s*\]")
REGISTER = re.compile(r"r[0-9]+")


def of_comment(line: str) -> str | None:
    """A comment of C."""
    found = re.fullmatch(r"(.*?)\s*(?://+|/\*+)\s*(.*?)\s*(?:\*/)?", line)
    if not found:
        return None
    return (found[1] + "  " if found[1] else "") + f"# {found[2]}".rstrip()


def of_clauses(line: str) -> str | None:
    """Clauses as C has them."""
    def spelled(found: re.Match[str]) -> str:
        return " ".join(f"depend {found[1]} {place.strip() or 'ADDR'}" for place in found[2].split(","))
    mended = ADDRESSES.sub(spelled, CLAUSE.sub(spelled, line))
    return " ".join(mended.replace(";", " ").split()) if mended != line else None


def of_test(line: str) -> str | None:
    """A test with brackets, without blanks, of a number alone, or with a comparison that the notation hasn't."""
    task = TEST_OF_TASK.fullmatch(line)
    if task:
        start, first, compared, second = task.groups()
        return f"{start} " + (TURNED.get(compared, "{0} " + compared + " {1}").format(first, second) if compared else f"{first} != 0")
    found = TESTED.fullmatch(line)
    if not found:
        return None
    word, first, _, compared, second = found.groups()
    if compared is None:
        return f"{word} 0 == 0" if first == "true" else f"{word} {first} != 0"
    return f"{word} " + TURNED.get(compared, "{0} " + compared + " {1}").format(first, second)


def of_else(line: str) -> str | None:
    """A test after an `else`, or brackets around it."""
    found = re.fullmatch(r"\}?\s*else\s*(if\b.*|\{?)", line)
    if not found:
        return None
    return f"else, and in the next line {of_test(found[1]) or found[1]}, which has an `end` of its own" if found[1].startswith("if") else "else"


def of_cell(line: str) -> str | None:
    """A cell in brackets, as an array has it."""
    stored = re.fullmatch(INDEXED.pattern + r"\s*=\s*" + OPERAND + ";?", line)
    if stored:
        return f"store {stored[1]} {stored[2]}"
    loaded = re.fullmatch(r"(?:let\s+|load\s+)?(r[0-9]+)\s*=?\s*" + INDEXED.pattern + ";?", line)
    if loaded:
        return f"load {loaded[1]} {loaded[2]}"
    found = INDEXED.search(line)
    return f"load rK {found[1]}, and in the next line {INDEXED.sub('rK', line, count=1)}" if found and found[0] != line else None


def of_assignment(line: str) -> str | None:
    """A number that is assigned."""
    changed = re.fullmatch(r"([A-Za-z_]\w*)\s*(\+\+|--|[+*-]=)\s*(\w*);?", line)
    if changed:
        name = changed[1] if REGISTER.fullmatch(changed[1]) else "rK"
        return f"let {name} {name} {changed[2][0]} {changed[3] or '1'}"
    given = re.fullmatch(r"(?:let\s+)?([A-Za-z_]\w*)\s*=\s*([^=].*?);?", line)
    if not given:
        return None
    if REGISTER.fullmatch(given[1]):
        return f"let {given[1]} {given[2]}"
    return f"let rK {given[2]}, or where tasks share it store C {given[2]}"


def of_call(line: str) -> str | None:
    """A task with its arguments in brackets."""
    called = CALLED.fullmatch(line)
    if not called or called[1] in WORDS or called[1] in ("depend", "if", "while"):
        return None
    given = called[2].replace(",", " ").split()
    if called[1] in ("print", "load", "store", "taskwait", "taskgroup"):
        return " ".join([called[1], *given])
    return " ".join(["task", called[1], *given, *called[3].split()])


def of_body(line: str) -> str | None:
    """A body whose parameters have names."""
    found = re.fullmatch(r"body\s+(\w+)[\s(]+([A-Za-z_][\w\s,]*)\)?\s*\{?", line)
    if not found:
        return None
    # With commas a type may stand in front of each name.
    count = len(found[2].split("," if "," in found[2] or "(" in line else None))
    return f"body {found[1]} {count}, whose argument{'s are r0 to r' + str(count - 1) if count > 1 else ' is r0'}"


def of_word(line: str) -> str | None:
    """A word that the notation hasn't."""
    words = line.split()
    return WORDS.get(re.split(r"[(:;]", words[0])[0] or words[0])


def of_signs(line: str) -> str | None:
    """Commas and semicolons, which the notation hasn't."""
    return " ".join(re.sub("[,;]", " ", line).split())


RULES: Sequence[Callable[[str], str | None]] = (of_comment, of_clauses, of_test, of_else, of_cell, of_assignment, of_word, of_body, of_call, of_signs)


def in_the_notation(line: str) -> str | None:
    """What the notation has in place of a line of another language; None where nothing is known of it."""
    plain = " ".join(line.split())
    return next((found for rule in RULES if (found := rule(plain)) and found != plain), None)
