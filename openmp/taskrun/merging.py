"""Puts the parts of a run text together: the events of all threads, in the order of their stamps.

A part is `cells N`, then any `cell I V`, then a line `STAMP EVENT` for each event. The stamps of all parts together are 0, 1, 2
and so on, each once, and rise in each part. One line of each part is in memory at a time.
"""

import contextlib
import heapq
import re
from collections.abc import Iterator
from typing import BinaryIO, NamedTuple

STAMPED = re.compile(rb"[ \t\r]*([0-9]{1,20})[ \t\r]+([^ \t\r#].*)\n", re.DOTALL)
# An event's longest line, and its stamp.
LONGEST = 65535 + 32
BLANKS = b" \t\r\n"


class BadPart(Exception):
    """A part can't be merged: its path, the line, and why."""

    def __init__(self, path: str, line: int, why: str) -> None:
        super().__init__(f"{path}:{line}: {why}")


class Stamped(NamedTuple):
    """An event by its stamp: where its line is, and the line without the stamp."""
    stamp: int
    path: str
    line: int
    event: bytes


class Part:
    """The file of one thread, read once from its beginning to its end."""

    def __init__(self, path: str, file: BinaryIO) -> None:
        self.path, self.file, self.line = path, file, 0
        self.first: bytes | None = None     # the line of the first event, once it was read
        self.count = self._count()

    def fault(self, why: str) -> BadPart:
        return BadPart(self.path, self.line, why)

    def _read(self) -> bytes:
        """The next line, nothing at the end."""
        self.line += 1
        try:
            return self.file.readline(LONGEST + 1)
        except OSError as fault:
            raise self.fault(f"can't be read: {fault.strerror}") from fault

    def _next(self) -> bytes | None:
        """The next line with words, or None at the end."""
        while text := self._read():
            if not text.endswith(b"\n"):
                raise self.fault("the line is too long" if len(text) > LONGEST else "the last line isn't whole: its writer was cut off")
            if text.strip(BLANKS)[:1] not in (b"", b"#"):
                return text
        return None

    def _count(self) -> bytes:
        """The words of the first line."""
        text = self._next()
        if text is None or text.split()[0] != b"cells":
            raise self.fault("the first line isn't `cells N`")
        return b" ".join(text.split(b"#")[0].split())

    def cells(self) -> Iterator[bytes]:
        """The lines of first values, which come before the events."""
        while (text := self._next()) is not None and text.split()[0] == b"cell":
            yield text
        self.first = text

    def events(self) -> Iterator[Stamped]:
        """The events, by rising stamps."""
        newest, text = -1, self.first
        while text is not None:
            found = STAMPED.fullmatch(text)
            if not found:
                raise self.fault("no stamp, or no event after it")
            stamp = int(found[1])
            if stamp <= newest:
                raise self.fault(f"stamp {stamp} after stamp {newest}")
            newest = stamp
            yield Stamped(stamp, self.path, self.line, found[2] + b"\n")
            text = self._next()


def in_order(parts: list[Part]) -> Iterator[bytes]:
    """The events of all parts; a stamp that no part has, or two, is a fault where it is seen."""
    due, newest = 0, None
    for it in heapq.merge(*(part.events() for part in parts)):
        if newest and it.stamp == newest.stamp:
            raise BadPart(it.path, it.line, f"stamp {it.stamp} is at {newest.path}:{newest.line} too")
        if it.stamp != due:
            raise BadPart(it.path, it.line, f"stamp {it.stamp}, but no part has stamp {due}: a part is missing, or a writer failed")
        due, newest = due + 1, it
        yield it.event


def merged(paths: list[str]) -> Iterator[bytes]:
    """The lines of the run text. Raises BadPart, or OSError where a part can't be read."""
    with contextlib.ExitStack() as opened:
        parts = [Part(path, opened.enter_context(open(path, "rb"))) for path in paths]
        for part in parts:
            if part.count != parts[0].count:
                raise part.fault(f"another count of cells than that of {parts[0].path}")
        yield parts[0].count + b"\n"
        for part in parts:
            yield from part.cells()
        yield from in_order(parts)
