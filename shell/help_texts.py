"""The commands of the shell: how each is written, what it does, and what an unknown word may have meant."""

import difflib
import re
import textwrap
from collections.abc import Sequence
from typing import NamedTuple


class Help(NamedTuple):
    """How a command is written, what it does, and an example."""

    usage: str
    text: str
    example: str


HELP = {
    "step": Help("step [T [N]]", "the next step of task T, or N of them; alone: of the least task that can step", "step 0.1 3"),
    "run": Help("run [-v] [N]", "up to N steps, each of the least task that can step; Ctrl-C stops it; -v shows all lines", "run 20"),
    "go": Help("go [-v] [[W] N]", "as run, but stops at breakpoints; W workers execute the steps, one where W isn't given", "go 4 100"),
    "finish": Help("finish [T]", "steps task T until it ends or has to wait", "finish 0.1"),
    "until": Help("until T#K", "runs until step T#K is executed", "until 0.2#4"),
    "random": Help("random SEED [N]", "up to N steps, each of any task that can step; a seed gives the same steps again", "random 7 20"),
    "last": Help("last [N]", "up to N steps, each of the task with the greatest name", "last 5"),
    "back": Help("back [N]", "undoes the newest step, or the N newest", "back"),
    "rs": Help("rs [-f] T", "takes back the newest step of task T; asks where others need it, -f doesn't ask", "rs 0.1"),
    "rc": Help("rc", "takes the newest steps back, up to the breakpoint before", "rc"),
    "undo": Help("undo T#K", "takes a step back, where nothing needs it", "undo 0.1#4"),
    "roll": Help("roll T#K", "takes a step back with all that need it", "roll 0.1#4"),
    "rolltask": Help("rolltask T", "takes back the start of task T with all that need it", "rolltask 0.1"),
    "rollcell": Help("rollcell C", "takes back the last store to cell C with all that need it", "rollcell 0"),
    "rollprint": Help("rollprint", "takes back the last print with all that need it", "rollprint"),
    "redo": Help("redo [T#K]", "executes the steps again that the newest undo or roll took back; or T#K of them with what it needs", "redo"),
    "keep": Help("keep T#K", "takes back all that step T#K doesn't need", "keep 0.1#4"),
    "at": Help("at T#K | at N | at now", "looks at the state after step T#K, or after N steps, without taking anything back", "at 0.1#4"),
    "break": Help("break task T | cell C | body NAME | print | fault | line L  [if EXPR]", "where go stops, after the step", "break line 12 if r0 > 3"),
    "watch": Help("watch EXPR", "go and rc stop where the value of EXPR changes", "watch r2 of 0.1"),
    "clear": Help("clear N | clear sN | clear line L", "takes a breakpoint away", "clear 1"),
    "breaks": Help("breaks", "the breakpoints", "breaks"),
    "print": Help("print EXPR", "the value of an expression over registers, cells, arguments and counts of steps", "print r0 + c[3]"),
    "display": Help("display [EXPR]", "shows EXPR after each command that steps; alone: shows all of them", "display c[0]"),
    "undisplay": Help("undisplay N", "shows the Nth expression no more", "undisplay 1"),
    "list": Help("list [T|LINE|BODY]", "the source, with marks where tasks are", "list 0.1"),
    "tasks": Help("tasks", "all tasks, and at what line they are", "tasks"),
    "task": Help("task T", "a task's registers, groups and items", "task 0.1"),
    "cells": Help("cells", "the cells that aren't 0", "cells"),
    "out": Help("out", "what was printed", "out"),
    "ready": Help("ready", "the tasks that can step", "ready"),
    "waits": Help("waits", "the tasks that can't step, and for whom they wait", "waits"),
    "deps": Help("deps T", "the siblings that task T depends on, or excludes", "deps 0.2"),
    "hist": Help("hist", "the steps of the history, from the oldest", "hist"),
    "why": Help("why T#K", "the steps that a step needs", "why 0#4"),
    "who": Help("who T#K", "the steps that need a step", "who 0.1#4"),
    "races": Help("races", "steps that luck alone ordered, by pairs of lines, with the clause that is missing", "races"),
    "causes": Help("causes T#K", "the steps that a step needs at once, and for what", "causes 0#6"),
    "edges": Help("edges", "for each step of the history the steps that it needs at once, and for what", "edges"),
    "flip": Help("flip [N]", "both outcomes of race N: as it came, and the other way round, to their ends", "flip 1"),
    "compare": Help("compare FILE", "whether the session of FILE did the same, but for the order of independent steps", "compare other.session"),
    "graph": Help("graph [-f] [FILE]", "the tasks as a tree with their order; to FILE as Graphviz draws it (.svg, .png), or .dot", "graph tasks.svg"),
    "lanes": Help("lanes [-f] [T#K] [FILE]", "the history, a lane a task; what roll T#K would take is shaded; to FILE as SVG", "lanes 0.1#4"),
    "slide": Help("slide [-f] [T#K] FILE", "the history as one SVG of 16:9 for a lecture, a bar a task; what roll T#K would take is shaded", "slide talk.svg"),
    "page": Help("page [-f] FILE", "all that was done, as one page for a browser: program, history, tasks, races", "page race.html"),
    "serve": Help("serve [PORT]", "the page live for a browser on this machine: a click steps, undoes, rolls back; Ctrl-C ends it", "serve"),
    "info": Help("info VIEW", "a view by any beginning of its name, as `i ta` for `tasks`", "i tasks"),
    "save": Help("save [-f] FILE", "writes the session so far, which gives the same replies; -f replaces a file without asking", "save race.session"),
    "source": Help("source [FILE]", "plays the commands of FILE; alone: the next command of the session file that was opened", "source more.session"),
    "set": Help("set [NAME on|off]", "run-breaks: run stops at breakpoints too; pager: long replies stop at each full screen", "set run-breaks on"),
    "restart": Help("restart", "starts anew; breakpoints are kept", "restart"),
    "trim": Help("trim [N]", "starts anew with the steps of the history alone, without the N newest: the journal has room again", "trim"),
    "limit": Help("limit N", "gives the journal room for N entries: starts anew and does the same again", "limit 200000"),
    "help": Help("help [COMMAND]", "this list, or one command with an example", "help step"),
    "quit": Help("quit", "ends the shell, as Ctrl-D does", "quit"),
}

# Where a section of the list of commands begins.
SECTIONS = {"step": "Forwards", "back": "Backwards", "at": "The past", "break": "Stops and values", "list": "What there is",
            "why": "Why, and how else", "graph": "Pictures and the page", "info": "The session and the shell"}

ABBREVIATIONS = {"s": "step", "r": "run", "b": "break", "u": "undo", "i": "info", "l": "list", "c": "go", "p": "print",
                 "continue": "go", "q": "quit", "exit": "quit", "h": "help", "f": "finish"}

# The commands that the program has too, and answers itself.
OF_THE_PROGRAM = ("step", "run", "go", "undo", "roll", "rolltask", "rollcell", "rollprint", "break", "clear", "breaks", "tasks", "task", "cells",
                  "out", "ready", "waits", "deps", "hist", "why", "who", "races", "causes", "edges")

# What other debuggers call it; the last word in capitals stands for what was typed after theirs.
ELSEWHERE = {"next": "step", "n": "step", "ni": "step", "si": "step", "stepi": "step", "nexti": "step", "delete": "clear N", "d": "clear N", "disable": "clear N",
             "bt": "task T", "backtrace": "task T", "thread": "task T", "where": "tasks", "threads": "tasks", "locals": "task T",
             "reverse-continue": "rc", "reverse-step": "rs T", "reverse-next": "rs T", "reverse-stepi": "rs T", "rn": "rs T", "rsi": "rs T",
             "reverse-finish": "rolltask T", "restart-frame": "rolltask T",
             "x": "print c[0]", "inspect": "print EXPR", "until-line": "break line L", "tbreak": "break line L",
             "tb": "break line L", "advance": "break line L", "condition": "break line L if EXPR", "rwatch": "watch EXPR",
             "awatch": "watch EXPR", "start": "step 0", "kill": "restart", "frame": "list T", "up": "list T", "down": "list T", "disassemble": "list T", "disas": "list T",
             "set-var": "roll T#K", "load": "source FILE", "open": "source FILE", "checkpoint": "save FILE",
             "seek": "at N", "when": "hist", "history": "hist", "show": "set", "define": "source FILE", "?": "help", "apropos": "help"}
# What other debuggers can and this one can't, with what there is in its place.
ABSENT = {"jump": "where a task is follows from its steps: `until T#K` runs up to one, `roll T#K` goes back to one",
          "enable": "a breakpoint is there or isn't: `clear N` takes it away, and `break` makes it again",
          "ignore": "a condition may count: `break line L if steps(0.1) > 4`",
          "commands": "`display EXPR` shows a number after each command that steps",
          "call": "bodies are run by tasks alone: `step T`",
          "shell": "no other program is run from here: Ctrl-Z goes to the system's shell, and `fg` there comes back",
          "ptype": "all registers and cells are numbers of 64 bits: `print EXPR` shows one",
          "record": "every step is recorded: `back`, `roll` and `rc` take steps back"}
ABSENT.update({"goto": ABSENT["jump"], "whatis": ABSENT["ptype"], "!": ABSENT["shell"]})
PLACE = re.compile(r" (T|N|L|FILE|EXPR)$")
FITS = {"T": r"0(\.[1-9][0-9]*)*", "N": r"s?[0-9]+", "L": r"[0-9]+", "FILE": r".+", "EXPR": r".+"}
KINDS = ("task", "cell", "body", "print", "fault", "line")


def expanded(word: str) -> list[str]:
    """The commands that a word may stand for: one by its name or abbreviation, or all that begin so."""
    if word in HELP:
        return [word]
    if word in ABBREVIATIONS:
        return [ABBREVIATIONS[word]]
    return [name for name in HELP if name.startswith(word)]


def break_meant(words: Sequence[str], bodies: Sequence[str]) -> str | None:
    """What a `break` without a kind may have meant."""
    if len(words) < 2:
        return None
    rest, word = " ".join(words[1:]), words[1]
    if re.fullmatch(r"[0-9]+(:[0-9]+)?|[^\s:]+\.[a-z]+:[0-9]+", word):
        return f"break line {rest}"
    if re.fullmatch(r"[0-9]+(\.[0-9]+)+", word):
        return f"break task {rest}"
    if word in bodies:
        return f"break body {rest}"
    cell = re.fullmatch(r"c\[([0-9]+)\]", word)
    if cell:
        return " ".join(["break cell", cell[1], *words[2:]])
    close = difflib.get_close_matches(word, KINDS, 1)
    return " ".join(["break", close[0], *words[2:]]) if close else None


def from_elsewhere(word: str, rest: str) -> str:
    """What another debugger's command may have meant, with what was typed after it where that fits."""
    found = ELSEWHERE[word]
    if word == "condition":
        # The number of its breakpoint comes first.
        rest = rest.partition(" ")[2]
    place = PLACE.search(found)
    if place:
        return found[:place.start() + 1] + rest if re.fullmatch(FITS[place[1]], rest) else found
    if found == "step" and re.fullmatch(r"[1-9][0-9]*", rest):
        return f"step T {rest}"
    if word == "x" and re.fullmatch(r"[0-9]+", rest):
        return f"print c[{rest}]"
    return f"{found} {rest}" if rest and found in HELP else found


def meant(words: Sequence[str], bodies: Sequence[str]) -> str:
    """What is said of an unknown command."""
    # As other debuggers have it: a format after a slash.
    word, slash, _ = words[0].partition("/")
    fitting = expanded(word)
    if slash and len(fitting) == 1:
        return f"did you mean `{' '.join([fitting[0], *words[1:]])}`?"
    if len(fitting) > 1:
        other = f"; or did you mean `{from_elsewhere(word, ' '.join(words[1:]))}`?" if word in ELSEWHERE else ""
        return "ambiguous: " + ", ".join(fitting) + other
    if word in ABSENT:
        return ABSENT[word]
    if fitting == ["break"]:
        found = break_meant(words, bodies)
    elif word in ELSEWHERE:
        found = from_elsewhere(word, " ".join(words[1:]))
    else:
        swapped = [word[:at] + word[at:at + 2][::-1] + word[at + 2:] for at in range(len(word) - 1)]
        close = difflib.get_close_matches(word, HELP, 1)
        # A shorter word is less likely than two letters that changed places.
        if not close or len(close[0]) < len(word):
            close = [other for other in swapped if other in HELP] or close
        found = " ".join([close[0], *words[1:]]) if close else None
        if close == ["break"]:
            found = break_meant(["break", *words[1:]], bodies) or found
    if found is None and len(fitting) == 1:
        # A command whose second word is none of its kinds.
        return f"{HELP[fitting[0]].usage}, for example: {HELP[fitting[0]].example}"
    return f"did you mean `{found}`?" if found else "no such command; `help` lists them"


def instead(word: str) -> str:
    """What there is in place of a word for which help is asked, after that there is no such command; empty where nothing is known."""
    if word in ABSENT:
        return f"; {ABSENT[word]}"
    if word in ELSEWHERE:
        return f"; here it is `{ELSEWHERE[word]}`"
    close = difflib.get_close_matches(word, HELP, 1)
    return f"; did you mean `help {close[0]}`?" if close else "; `help` lists them"


def help_list(columns: int) -> list[str]:
    """All commands, each with what it does beside it, in so many columns."""
    width = max(len(entry.usage) for name, entry in HELP.items() if name != "break")
    lines = []
    for name, entry in HELP.items():
        if name in SECTIONS:
            lines.append(SECTIONS[name])
        shown = entry.usage if len(entry.usage) <= width else entry.usage.split(" ")[0] + " ..."
        lines += textwrap.wrap(entry.text, max(columns, width + 24), initial_indent=f"  {shown:<{width}}  ", subsequent_indent=" " * (width + 4))
    return lines + ["Enter repeats the last step. `help COMMAND` gives an example."]


def help_of(name: str) -> list[str]:
    """One command, with an example."""
    entry = HELP[name]
    short = [key for key, value in ABBREVIATIONS.items() if value == name]
    lines = [entry.usage, f"  {entry.text}", f"  for example: {entry.example}"]
    return lines + ([f"  short: {', '.join(short)}"] if short else [])
