"""What is said of a refused program: the line, a mark below the word at fault, why, and what the line should look like."""

import difflib
import re
from collections.abc import Callable, Iterable, Sequence

from shell.console import counted
from shell.foreign import in_the_notation, of_comment
from shell.protocol import words_of

FORMS = {
    "cells": "cells N", "cell": "cell C V", "body": "body NAME COUNT, the count of its parameters", "let": "let rK A   or   let rK A OP B, where OP is + - *",
    "load": "load rK ADDR", "store": "store ADDR VAL", "print": "print VAL", "taskwait": "taskwait   or   taskwait depend TYPE ADDR",
    "task": "task NAME ARG.. depend TYPE ADDR", "taskgroup": "taskgroup",
    "if": "if A CMP B, where CMP is == != < <=", "while": "while A CMP B, where CMP is == != < <=",
    "else": "else", "end": "end",
}

FAULTS = {
    "NoCells": "the program begins with a line `cells N`", "BadNumber": "a number or a register is expected",
    "CellRange": "the program has no such cell", "UnknownWord": "no such word here",
    "UnknownBody": "no body has this name", "Arity": "too few words, or too many",
    "Nesting": "this line can't be here, or a block is still open", "NoMain": "no body is named main",
    "Duplicate": "this is given twice", "Register": "the registers are r0 to r15",
    "TooLarge": "more than the program allows", "NotText": "a byte that is no text",
    "DependType": "the types are in, out, inout, mutexinoutset and inoutset",
}

TYPES = ("in", "out", "inout", "mutexinoutset", "inoutset")
# How many words follow each word, where it is one number.
WANTED = {"cells": 1, "cell": 2, "body": 2, "load": 2, "store": 2, "print": 1, "taskgroup": 0, "if": 3, "while": 3, "else": 0, "end": 0}
# So many names of bodies are listed.
MOST_NAMES = 8
OPENERS = ("body", "if", "while", "taskgroup")
REGISTER = re.compile(r"r([0-9]|1[0-5])")


def is_number(word: str) -> bool:
    """Whether a word is a number."""
    return re.fullmatch(r"-?[0-9]+", word) is not None


def is_operand(word: str) -> bool:
    """Whether a word is a number, or spelled as a register."""
    return is_number(word) or re.fullmatch(r"r[0-9]+", word) is not None


# Which word is at fault

def first_where(words: Sequence[str], indexes: Iterable[int], wrong: Callable[[str], bool]) -> int | None:
    """The first of these indexes whose word is wrong."""
    return next((index for index in indexes if index < len(words) and wrong(words[index])), None)


def number_at_fault(words: Sequence[str]) -> int | None:
    """Which word should be a number and is none."""
    word = words[0]
    if word in ("cells", "cell", "body"):
        indexes = (2,) if word == "body" else (1, 2)
        return first_where(words, indexes, lambda given: not is_number(given) or (word != "cell" and given.startswith("-")))
    of_word: dict[str, tuple[int, ...]] = {"let": (2, 4), "load": (2,), "store": (1, 2), "print": (1,), "if": (1, 3), "while": (1, 3)}
    if word == "task":
        stop = next((at for at, given in enumerate(words) if given in ("depend", "if")), len(words))
        found = first_where(words, range(2, stop), lambda given: not is_operand(given))
        return found if found is not None else item_at_fault(words)
    if word == "taskwait":
        return item_at_fault(words)
    return first_where(words, of_word.get(word, ()), lambda given: not is_operand(given))


def items_at(words: Sequence[str]) -> list[int]:
    """The indexes of `depend`."""
    return [at for at, given in enumerate(words) if given == "depend"]


def item_at_fault(words: Sequence[str]) -> int | None:
    """Which word should be the address of a clause, and is none."""
    return first_where(words, [at + 2 for at in items_at(words)], lambda given: not is_operand(given) and given != "all")


def type_at_fault(words: Sequence[str]) -> int | None:
    """Which word should be the type of a clause, and isn't one that it may have."""
    types = types_of(words[0])
    found = first_where(words, [at + 1 for at in items_at(words)], lambda given: given not in types)
    if found is not None:
        return found
    return next((at + 2 for at in items_at(words) if words[at + 2:at + 3] == ["all"] and words[at + 1] not in ("out", "inout")), None)


def types_of(word: str) -> tuple[str, ...]:
    """The types that a clause of this line may have."""
    return tuple(kind for kind in TYPES if word != "taskwait" or kind != "mutexinoutset")


def clause_at_fault(words: Sequence[str]) -> int | None:
    """Which word should begin a clause of a task or a taskwait, or compare in its test, and doesn't."""
    at = next((at for at, given in enumerate(words) if at and given in ("depend", "if")), 1 if words[0] == "taskwait" else len(words))
    while words[at:at + 1] == ["depend"]:
        at += 3
    if words[at:at + 1] == ["if"]:
        at += 2
    return at if at < len(words) else None


def unknown_at_fault(words: Sequence[str]) -> int | None:
    """Which word is unknown."""
    if words[0] not in FORMS:
        return 0
    if words[0] in ("task", "taskwait"):
        return clause_at_fault(words)
    index = {"let": 3, "if": 2, "while": 2, "body": 1}.get(words[0])
    return index if index is not None and index < len(words) else None


def register_at_fault(words: Sequence[str]) -> int | None:
    """Which word should be a register."""
    bad = first_where(words, range(1, len(words)), lambda given: bool(re.fullmatch(r"r[0-9]+", given)) and not REGISTER.fullmatch(given))
    return bad if bad is not None else (1 if len(words) > 1 else None)


def word_at_fault(words: Sequence[str], kind: str) -> int | None:
    """The index of the word at fault; None where that isn't known."""
    if not words:
        return None
    by_kind = {"BadNumber": number_at_fault, "UnknownWord": unknown_at_fault, "Register": register_at_fault, "DependType": type_at_fault}
    if kind in by_kind:
        return by_kind[kind](words)
    if kind in ("UnknownBody", "CellRange", "Duplicate"):
        return 1 if len(words) > 1 and words[0] != "cells" else 0
    return 0 if kind in ("Nesting", "NoCells") else None


# Why

def open_blocks(lines: Sequence[str], number: int) -> list[tuple[int, str]]:
    """The blocks that are open in front of a line, each with its own line and its first words, from the outermost."""
    stack: list[tuple[int, str]] = []
    for at, line in enumerate(lines[:number - 1], 1):
        words = words_of(line)
        if words and words[0] in OPENERS:
            stack.append((at, " ".join(words[:2]) if words[0] == "body" else words[0]))
        elif words[:1] == ["end"] and stack:
            stack.pop()
    return stack


def lacking(lines: Sequence[str], number: int) -> str:
    """Which block perhaps lacks its `end`, where another one's stands further left than that block begins; empty where none does."""
    stack: list[tuple[int, int, str]] = []
    for at, line in enumerate(lines[:number - 1], 1):
        words, left = words_of(line), len(line) - len(line.lstrip())
        if words and words[0] in OPENERS:
            stack.append((left, at, words[0]))
        elif words[:1] == ["end"] and stack:
            begun, where, word = stack.pop()
            if left < begun:
                return f"; by its place the `end` of line {at} isn't that of the `{word}` of line {where}, which lacks its own"
    return ""


def nesting_words(lines: Sequence[str], number: int, words: Sequence[str]) -> str:
    """Why a line can't be where it is, or what is open at the end of the text."""
    opened = open_blocks(lines, number)
    innermost = f"`{opened[-1][1]}` of line {opened[-1][0]}" if opened else ""
    if not words:
        return f"an `end` is missing: the {innermost} is still open{lacking(lines, number)}" if opened else FAULTS["Nesting"]
    if words[0] == "body" and opened:
        return f"an `end` is missing in front of this line: the {innermost} is still open{lacking(lines, number)}"
    if words[0] == "end" and not opened:
        return "no block is open here for this `end`"
    if words[0] == "else":
        return f"this `else` has no `if`: the innermost block is the {innermost}" if opened else "this `else` has no `if`"
    if words[0] in ("cells", "cell"):
        return "cells come before the first body"
    return FAULTS["Nesting"] if opened else "a statement is in a body: `body NAME PARAMETERS` comes first"


def parameters_of(lines: Sequence[str], name: str) -> int | None:
    """How many parameters a body has; None where that isn't known."""
    for words in map(words_of, lines):
        if words[:2] == ["body", name] and len(words) == 3 and is_number(words[2]):
            return int(words[2])
    return None


def arity_words(lines: Sequence[str], words: Sequence[str]) -> str:
    """How many words a line should have, and how many it has."""
    word, given = words[0], len(words) - 1
    if words[:2] == ["body", "main"] and given == 2:
        return "main takes no parameters: `body main 0`"
    if word == "task" and given:
        stop = next((at for at, part in enumerate(words) if part in ("depend", "if")), len(words))
        wanted = parameters_of(lines, words[1])
        if wanted is not None and wanted != stop - 2:
            return f"body {words[1]} takes {counted(wanted, 'argument')}, and {stop - 2} {'is' if stop == 3 else 'are'} given"
    if word == "let":
        return f"let wants 2 words after it, or 4, and {given} {'is' if given == 1 else 'are'} there"
    if word in WANTED:
        return f"{word} wants {counted(WANTED[word], 'word')} after it, and {given} {'is' if given == 1 else 'are'} there"
    return FAULTS["Arity"]


def there_are(names: Sequence[str]) -> str:
    """The first of these names, after what was said."""
    shown = [*names[:MOST_NAMES], *["others"] * (len(names) > MOST_NAMES)]
    return ": there " + (f"is {shown[0]} alone" if len(shown) == 1 else f"are {', '.join(shown[:-1])} and {shown[-1]}") if shown else ""


def meaning_of(kind: str, lines: Sequence[str], number: int, words: Sequence[str]) -> str:
    """Why the line is refused."""
    if kind == "Nesting":
        return nesting_words(lines, number, words)
    if kind == "Arity" and words:
        return arity_words(lines, words)
    if kind == "DependType" and words:
        if type_at_fault(words) is not None and words[type_at_fault(words) or 0] == "all":
            return "`all` has the type out or inout"
        types = types_of(words[0])
        return f"the types{' of a taskwait' if words[0] == 'taskwait' else ''} are {', '.join(types[:-1])} and {types[-1]}"
    if kind == "UnknownWord" and words and words[0] in ("task", "taskwait") and (at := clause_at_fault(words)) is not None:
        return "the comparisons are ==, !=, < and <=" if words[at - 2] == "if" else "a clause is `depend TYPE ADDR`, or at the end of a task `if A CMP B`"
    if kind == "UnknownBody":
        return FAULTS[kind] + there_are([parts[1] for parts in map(words_of, lines) if parts[:1] == ["body"] and len(parts) > 1])
    if kind == "NoMain":
        close = next((line_words[1] for line_words in map(words_of, lines) if line_words[:1] == ["body"] and len(line_words) > 1 and line_words[1].lower() == "main"), None)
        return FAULTS[kind] + (f"; the name is written `main`, and not `{close}`" if close else "")
    return FAULTS.get(kind, kind)


# What the line should look like

def with_type_first(words: Sequence[str]) -> str | None:
    """The line where a clause has its cell in front of its type."""
    turned = list(words)
    for at in items_at(words):
        if len(words) > at + 2 and words[at + 2] in TYPES and is_operand(words[at + 1]):
            turned[at + 1:at + 3] = [words[at + 2], words[at + 1]]
    return " ".join(turned) if turned != list(words) else None


def should_be(words: Sequence[str], line: str | None = None) -> str | None:
    """What a faulty line should look like."""
    if not words:
        return None
    line = " ".join(words) if line is None else line
    if list(words[:2]) == ["body", "main"]:
        return "body main 0"
    if words[0] in ("store", "print") and len(words) >= 4 and words[-2] in "+-*" and is_operand(words[-1]) and is_operand(words[-3]):
        return f"let rK {' '.join(words[-3:])}, and in the next line {' '.join(words[:-3])} rK"
    found = with_type_first(words) or in_the_notation(line)
    if found:
        return found
    lower = words[0].lower()
    if words[0] != lower and lower in FORMS:
        return " ".join([lower, *words[1:]])
    if words[0] not in FORMS:
        close = difflib.get_close_matches(words[0], FORMS, 1)
        return FORMS[close[0]] if close else None
    return FORMS[words[0]]


def nearest_body(lines: Sequence[str], words: Sequence[str]) -> str | None:
    """The line with the body that it may mean, where the one that it names isn't there."""
    bodies = [parts[1] for parts in map(words_of, lines) if parts[:1] == ["body"] and len(parts) > 1]
    close = difflib.get_close_matches(words[1], bodies, 1) if len(words) > 1 else []
    return " ".join([words[0], close[0], *words[2:]]) if close else None


def form_of(kind: str, lines: Sequence[str], words: Sequence[str], line: str) -> str | None:
    """What the line should look like; None where nothing can be said."""
    if kind == "UnknownBody":
        return nearest_body(lines, words)
    if kind == "NoCells":
        return of_comment(line) or "cells N, in front of the first body"
    if kind in ("BadNumber", "UnknownWord", "Arity", "Register", "DependType"):
        return should_be(words, line)
    return None


def fault_lines(name: str, text: str, number: int, kind: str) -> list[str]:
    """A refused program: its line, a mark below the word at fault, and what it should look like."""
    lines = text.split("\n")
    there = 1 <= number <= len(lines)
    words = words_of(lines[number - 1]) if there else []
    meaning = meaning_of(kind, lines, number, words)
    if not words:
        return [f"{name}:{number}: {meaning} ({kind})"]
    line = lines[number - 1].replace("\t", " ").strip()
    head = f"{name}:{number}: "
    shown = [head + line]
    index = word_at_fault(words, kind)
    if index is not None:
        starts = [found.start() for found in re.finditer(r"[^ \r]+", line)]
        shown.append(" " * (len(head) + starts[index]) + "^" * len(words[index]))
    shown.append(f"  {meaning} ({kind})")
    form = form_of(kind, lines, words, line)
    return shown + ([f"  it should look like: {form}"] if form else [])
