"""Messages of the Debug Adapter Protocol as they go over a stream: a header with a length, and then JSON."""

import json
import re
import sys
from typing import Any, BinaryIO

Message = dict[str, Any]

LONGEST_HEADER = 4096
LONGEST_MESSAGE = 4 * 1024 * 1024
LENGTH = re.compile(rb"content-length:[ \t]*([0-9]{1,12})[ \t]*", re.I)


class Broken(Exception):
    """What came over the stream is no message, so nothing that follows can be read either."""


def read_header(stream: BinaryIO) -> int | None:
    """The length that a header gives; None at the end of the stream."""
    length, read = None, 0
    while True:
        line = stream.readline(LONGEST_HEADER)
        read += len(line)
        if not line and not read:
            return None
        if not line.endswith(b"\n") or read > LONGEST_HEADER:
            raise Broken("the header of a message has no end" if line else "the stream ends in a header")
        text = line.rstrip(b"\r\n")
        if not text:
            if length is None:
                raise Broken("a message has no Content-Length")
            return length
        found = LENGTH.fullmatch(text)
        if found:
            length = int(found[1])
        elif b":" not in text:
            raise Broken(f"no header: {text[:60].decode('ascii', 'replace')}")


def finite(text: str) -> float:
    """A number with a point or an exponent; one that is too great is the greatest, since JSON can't say another."""
    greatest = sys.float_info.max
    return min(greatest, max(-greatest, float(text)))


def no_number(text: str) -> float:
    """`NaN` and `Infinity`, which Python reads, are no JSON."""
    raise ValueError(text)


def read_message(stream: BinaryIO) -> Message | None:
    """The next message; None at the end of the stream. Raises Broken."""
    length = read_header(stream)
    if length is None:
        return None
    if length > LONGEST_MESSAGE:
        raise Broken(f"a message of {length} bytes is too long")
    data = stream.read(length)
    if len(data) < length:
        raise Broken(f"a message of {length} bytes ends after {len(data)}")
    try:
        message = json.loads(data.decode("utf-8"), parse_float=finite, parse_constant=no_number)
    except (ValueError, RecursionError):
        raise Broken("a message isn't JSON, or its length is wrong") from None
    if not isinstance(message, dict):
        raise Broken("a message is no object")
    return message


def write_message(stream: BinaryIO, message: Message) -> None:
    """Writes a message."""
    data = json.dumps(message, separators=(",", ":")).encode("ascii")
    stream.write(b"Content-Length: %d\r\n\r\n" % len(data) + data)
    stream.flush()
