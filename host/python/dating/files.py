"""Files that are written whole or not at all, and lines that are read within bounds."""

from __future__ import annotations

import os
import tempfile
from collections.abc import Iterator
from typing import BinaryIO, NamedTuple

LONGEST_LINE = 65536
"""The most bytes of a line; a longer one is no request."""
LARGEST_FILE = 64 << 20
"""The most bytes of a file that is read whole."""

# Where names stand for what is open already.
_DEVICES = ("/dev/", "/proc/")
_BYTE_ORDER_MARK = b"\xef\xbb\xbf"


class Line(NamedTuple):
    """A line of a file: its number from 1, its text without its end, and whether it was too long, when the text is its beginning."""

    number: int
    text: str
    too_long: bool


def written(path: str, text: bytes) -> None:
    """Writes a file beside, syncs it, and puts it in the place of the old one: after a failure the old one is as it was."""
    if path.startswith(_DEVICES) or os.path.exists(path) and not os.path.isfile(path):
        # A device or a pipe takes what is written; a folder raises.
        with open(os.open(path, os.O_WRONLY | os.O_APPEND), "wb") as file:
            file.write(text)
        return
    path = os.path.realpath(path)
    folder = os.path.dirname(path)
    descriptor, beside = tempfile.mkstemp(prefix=f".{os.path.basename(path)[:200]}.", dir=folder)
    try:
        with os.fdopen(descriptor, "wb") as file:
            file.write(text)
            file.flush()
            os.fchmod(file.fileno(), _mode(path))
            os.fsync(file.fileno())
        os.replace(beside, path)
    except BaseException:
        os.unlink(beside)
        raise
    opened = os.open(folder, os.O_RDONLY | os.O_DIRECTORY)
    try:
        os.fsync(opened)
    finally:
        os.close(opened)


def _mode(path: str) -> int:
    """The permissions of the file that is there, or those of a new one."""
    try:
        return os.stat(path).st_mode & 0o777
    except FileNotFoundError:
        mask = os.umask(0)
        os.umask(mask)
        return 0o666 & ~mask


def lines(file: BinaryIO) -> Iterator[Line]:
    """The lines of a file, one after the other, in memory for one line alone. Bytes that are no text stand as surrogates."""
    number = 0
    while line := file.readline(LONGEST_LINE + 2):
        number += 1
        if number == 1:
            line = line.removeprefix(_BYTE_ORDER_MARK)
        ended = line.endswith(b"\n")
        text = line.removesuffix(b"\n").removesuffix(b"\r")
        too_long = len(text) > LONGEST_LINE
        while not ended and (more := file.readline(LONGEST_LINE)):
            ended = more.endswith(b"\n")
        yield Line(number, text[:LONGEST_LINE].decode("utf-8", "surrogateescape"), too_long)


def whole(path: str) -> bytes:
    """All of a file, if it is not too large; without the mark that some editors put at the beginning."""
    with open(path, "rb") as file:
        text = file.read(LARGEST_FILE + 1)
    if len(text) > LARGEST_FILE:
        raise OSError(None, f"it has over {LARGEST_FILE >> 20} MB", path)
    return text.removeprefix(_BYTE_ORDER_MARK)


def named(path: str) -> str:
    """A name of a file, for showing."""
    return "".join(c if c.isprintable() else "?" for c in path)


def because(error: OSError) -> str:
    """Why a file could not be read or written."""
    return error.strerror or str(error)
