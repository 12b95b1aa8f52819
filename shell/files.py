"""Writes files under another name first, and renames them; and says whether one may be replaced without asking."""

import os
import stat
import tempfile
from collections.abc import Callable

# How files begin that the shell itself draws: these are replaced without asking.
DRAWN = (b"<!DOCTYPE html>\n<html lang=\"en\">\n<head>\n<meta charset=\"utf-8\">\n<meta name=\"generator\" content=\"Taskback\">",
         b"digraph tasks {\n", b"<svg xmlns=\"http://www.w3.org/2000/svg\" role=\"img\" ")


def is_foreign(path: str) -> bool:
    """Whether there is a file that the shell didn't draw."""
    try:
        if not stat.S_ISREG(os.stat(path).st_mode):
            return False
        with open(path, "rb") as file:
            head = file.read(400)
    except OSError:
        return False
    return bool(head) and not head.startswith(DRAWN)


def replace_by(path: str, write: Callable[[str], None]) -> None:
    """Has a new file written in the same folder, and renames it to the old one; what is no plain file is written to as it is.

    Raises OSError where it can't; then the old file is as it was.
    """
    real = os.path.realpath(path)
    there = os.path.exists(real)
    if there and not os.path.isfile(real):
        if os.path.isdir(real):
            raise IsADirectoryError(21, "Is a directory")
        write(real)
        return
    base, ending = os.path.splitext(os.path.basename(real))
    handle, temporary = tempfile.mkstemp(suffix=ending, prefix=f".{base[:40]}.", dir=os.path.dirname(real) or ".")
    os.close(handle)
    try:
        write(temporary)
        os.chmod(temporary, stat.S_IMODE(os.stat(real).st_mode) if there else 0o666 & ~umask())
        os.replace(temporary, real)
    except BaseException:
        os.unlink(temporary)
        raise


def umask() -> int:
    """Which rights new files don't get."""
    mask = os.umask(0)
    os.umask(mask)
    return mask


def write_bytes(path: str, data: bytes) -> None:
    """Writes bytes as a file; raises OSError."""
    def write(there: str) -> None:
        with open(there, "wb") as file:
            file.write(data)
    replace_by(path, write)


def write_text(path: str, text: str) -> None:
    """Writes a text as a file; raises OSError."""
    write_bytes(path, text.encode("utf-8", "surrogateescape"))
