"""What the scope of a directive calls a place that a function names which the task calls."""

import re

from .finding import Finding, Side
from .places import Sources, matching, names_in

HEADER = re.compile(r"\b(\w+)\s*\(([^()]*)\)\s*(?:const\s*|noexcept\s*|override\s*)*\{")
NO_FUNCTIONS = ("if", "for", "while", "switch", "catch", "return", "sizeof")


def scope_name(finding: Finding, side: Side) -> str | None:
    """Of the side's name what stands in the task's own lines, or is known everywhere; None where that can't be told."""
    name, sources = finding.name_of(side), finding.sources
    root = re.search(r"[A-Za-z_]\w*", name)
    if name == "memory" or not root or is_in_task(sources, side):
        return None if name == "memory" else name
    found = function_around(sources, side.own)
    if not found:
        return name
    function, parameters, body = found
    if root[0] in parameters:
        return argument(sources.statement(side.actor.place), function, parameters.index(root[0]))
    is_local = re.search(rf"[\w>*&]\s*[ *&]\s*{root[0]}\s*(?:=|;|,|\[|\)|:|\{{)", re.sub(r"\breturn\b", "", body))
    return None if is_local else name


def is_in_task(sources: Sources, side: Side) -> bool:
    """Whether the step is in the statement behind the task's directive."""
    step, directive = sources.place(side.own), sources.place(side.actor.place)
    end = directive.line + sources.directive(side.actor.place).count("\n") + sources.statement(side.actor.place).count("\n") + 1
    return step.file == directive.file and directive.line <= step.line <= end


def function_around(sources: Sources, address: int) -> tuple[str, list[str], str] | None:
    """(name, parameters, text up to the step) of the function that the place is in, or None."""
    place = sources.place(address)
    text = "\n".join(sources.lines(place.file)[:place.line])
    headers = [found for found in HEADER.finditer(text) if found[1] not in NO_FUNCTIONS]
    if not headers:
        return None
    last = headers[-1]
    parameters = [(re.findall(r"[A-Za-z_]\w*", one) or [""])[-1] for one in last[2].split(",")]
    return last[1], parameters, text[last.end():]


def argument(text: str, function: str, number: int) -> str | None:
    """The argument of that number in the one call of the function in the text, or None."""
    calls = [found.end() - 1 for found in re.finditer(rf"(?<![\w.>]){re.escape(function)}\s*\(", text)]
    if len(calls) != 1:
        return None
    end = matching(text, calls[0])
    arguments = names_in(":" + text[calls[0] + 1:end - 1]) if end else []
    if number >= len(arguments) or not re.fullmatch(r"&?[A-Za-z_][\w.\[\]>+*-]*", arguments[number]):
        return None
    name = arguments[number]
    return name[1:] if name.startswith("&") else name if "[" in name else f"*{name}" if re.fullmatch(r"\w+", name) else None
