"""The program as a child: commands go in one at a time, and each reply is read by its own counts."""

import contextlib
import re
import subprocess
import tempfile
import threading
from collections.abc import Iterator, Sequence
from typing import ClassVar

LONGEST_LINE = 1024
BLANKS = re.compile(r"[ \t\r]+")
# Halves of characters, as JSON can have them; those from U+DC80 to U+DCFF stand for bytes that are no text.
HALVES = re.compile("[\ud800-\udc7f\udd00-\udfff]")


class Refused(Exception):
    """The program text was refused: its first faulty line, and the name of the fault."""

    def __init__(self, line: int, kind: str) -> None:
        super().__init__(f"line {line}: {kind}")
        self.line = line
        self.kind = kind


class Ended(Exception):
    """The program ended, or couldn't be started: its status, and what it wrote on standard error."""

    def __init__(self, status: int, said: str) -> None:
        super().__init__(said or f"the program ended with status {status}")
        self.status = status
        self.said = said


class Cut(Ended):
    """The program was ended by Ctrl-C while its reply was awaited."""


def words_of(line: str) -> list[str]:
    """The words of a line in front of its comment."""
    words: list[str] = []
    for word in BLANKS.split(line):
        if word.startswith("#"):
            break
        if word:
            words.append(word)
    return words


def is_digits(word: str) -> bool:
    """Whether a word is digits alone, and not more than a line has place for."""
    return word.isascii() and word.isdigit() and len(word) <= LONGEST_LINE


def whole(line: str) -> str:
    """A line that can be written as one: what has no bytes is replaced, and a line feed is a blank."""
    return HALVES.sub("\ufffd", line.replace("\n", " "))


def is_too_long(line: str) -> bool:
    """Whether the program answers this line by `error line`, whatever its words are; one without words has no reply."""
    return len(line.encode("utf-8", "surrogateescape")) > LONGEST_LINE


def has_reply(line: str) -> bool:
    """Whether the program answers this line: one without words has no reply, however long it is."""
    return bool(words_of(line))


def count_of(line: str, word: str) -> int | None:
    """K where the line is `word K`, else None."""
    parts = line.split(" ")
    if len(parts) == 2 and parts[0] == word and parts[1].isdigit():
        return int(parts[1])
    return None


class Program:
    """One running program, which has accepted its text."""

    # The program whose reply is awaited now, and whether it may be cut.
    awaited: "ClassVar[Program | None]" = None
    may_be_cut: ClassVar[bool] = True
    # A signal, or another thread, cuts while a reply is awaited, and at no other time.
    _turn: "ClassVar[threading.RLock]" = threading.RLock()

    def __init__(self, path: str, text: str, options: Sequence[str] = ()) -> None:
        self._said = tempfile.TemporaryFile()
        self._last_words = ""
        self.is_cut = False
        try:
            # A session of its own: Ctrl-C at the terminal is for the shell alone.
            self._child = subprocess.Popen(
                [path, *options], stdin=subprocess.PIPE, stdout=subprocess.PIPE,
                stderr=self._said, start_new_session=True)
        except OSError as fault:
            self._said.close()
            raise Ended(3, f"can't start {path}: {fault.strerror}") from fault
        if text and not text.endswith("\n"):
            text += "\n"
        try:
            self._write(text + "---\n")
            self.ask("tasks")
        except Ended as ended:
            faulty = re.match(r"taskback: line (\d+): (\w+)", ended.said)
            if ended.status == 1 and faulty:
                raise Refused(int(faulty[1]), faulty[2]) from None
            raise

    @classmethod
    def cut(cls) -> None:
        """Ends the program whose reply is awaited, where there is one."""
        with cls._turn:
            if cls.awaited and cls.may_be_cut:
                cls.awaited.is_cut = True
                cls.awaited._child.kill()

    @classmethod
    @contextlib.contextmanager
    def uncut(cls) -> Iterator[None]:
        """What is asked for within it isn't cut."""
        cls.may_be_cut = False
        try:
            yield
        finally:
            cls.may_be_cut = True

    def ask(self, command: str) -> list[str]:
        """The lines of the reply to one command; none where the line is empty. Raises Cut where it was cut."""
        return self.ask_all([command])[0] if has_reply(command) else []

    def ask_all(self, commands: Sequence[str]) -> list[list[str]]:
        """The replies to some commands, each of which has one; they are sent together, so there are few of them."""
        Program.awaited = self
        try:
            # No count says where the reply to a faulty `cells` ends, so a faulty command is sent after it, whose reply is known.
            self._write("".join(command + "\n" + "step\n" * self._is_cells(command) for command in commands))
            replies = [self._lines_of(command) for command in commands]
        finally:
            with Program._turn:
                Program.awaited = None
        if self.is_cut:
            raise self._ended()
        return replies

    @staticmethod
    def _is_cells(command: str) -> bool:
        return words_of(command)[:1] == ["cells"]

    def _lines_of(self, command: str) -> list[str]:
        words = words_of(command)
        word = words[0] if words else ""
        if word == "cells":
            return self._cells()
        first = self._read()
        lines = [first]
        if first.startswith(("error ", "refused ")):
            return lines
        if word in ("run", "go"):
            while not lines[-1].startswith("ran "):
                lines.append(self._read())
        elif word == "task":
            while count_of(lines[-1], "items") is None:
                lines.append(self._read())
            self._read_more(lines, count_of(lines[-1], "items") or 0)
        elif word in ("roll", "rolltask", "rollcell", "rollprint"):
            self._read_more(lines, count_of(first, "rolled") or 0)
        elif word not in ("step", "undo", "break", "clear"):
            self._read_more(lines, count_of(first, word) or 0)
        return lines

    def _cells(self) -> list[str]:
        """The reply counts the program's cells and not its own lines: a faulty command ends it."""
        lines = [self._read()]
        while True:
            line = self._read()
            if line == "error count":
                return lines
            lines.append(line)

    def _read_more(self, lines: list[str], count: int) -> None:
        for _ in range(count):
            lines.append(self._read())

    def _write(self, text: str) -> None:
        assert self._child.stdin is not None
        try:
            self._child.stdin.write(text.encode("utf-8", "surrogateescape"))
            self._child.stdin.flush()
        except (OSError, ValueError):
            raise self._ended() from None

    def _read(self) -> str:
        assert self._child.stdout is not None
        line = self._child.stdout.readline()
        if not line.endswith(b"\n"):
            raise self._ended()
        return line[:-1].decode("utf-8", "surrogateescape")

    def _ended(self) -> Ended:
        status = self.close()
        return (Cut if self.is_cut else Ended)(status, self._last_words)

    def close(self) -> int:
        """Ends the child, and returns its status."""
        if self._said.closed:
            return int(self._child.returncode or 0)
        for stream in (self._child.stdin, self._child.stdout):
            assert stream is not None
            try:
                stream.close()
            except OSError:
                pass
        try:
            status = self._child.wait(timeout=5)
        except subprocess.TimeoutExpired:
            self._child.kill()
            status = self._child.wait()
        self._said.seek(0)
        self._last_words = self._said.read().decode("utf-8", "replace").strip()
        self._said.close()
        return status
