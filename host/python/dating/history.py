"""A history as text: every accepted call in order, one a line, and the register that they make.

    dating register history 1
    open 9  # 2026-11-16T16:40:02Z 4be63bd1
    add 5 t 2  # 2026-11-16T16:40:09Z 90f86b5e
    do unlock 0, add 8 m 0  # 2026-11-16T16:41:30Z 05b2d3c7

The first line names the format and its version. Then comes a call as it is typed, and as a remark its time and a check over this line and all before it, by
which a line that is changed, put in or taken out is told. Calls that are made all or none stand on one line, after `do`. `settle` is where undo stops: at the
end of a file that was read. There is no other line, and only what ends with a line feed is in the history.
"""

from __future__ import annotations

import ctypes
import re
import time
from array import array
from zlib import crc32

from . import calls
from .questions import State
from .refusal import Cause, Refusal
from .register import MOST_HELD, fresh
from .terms import KINDS, UNDO, Edit

FORMAT = "dating register history"
VERSION = 1
HEAD = f"{FORMAT} {VERSION}\n".encode()

_REMARK = b"  # "
# Of a check: eight figures, and the blank before them.
_CHECK = 9
_KINDS = {word.encode(): kind << 40 for word, kind in KINDS.items()}
_LETTERS = {bytes([ord("a") + label]): label << 16 for label in range(26)}
_MOST = 65535
# The most bytes of a call, which are far more than any has that is written.
_LONGEST = 100
_STAMP = "%Y-%m-%dT%H:%M:%SZ"
# The most of a line that is shown.
_SHOWN = 100


class Damaged(Exception):
    """A file that is no whole history: where, why, and the text there. Nothing of it is opened for writing."""

    def __init__(self, path: str, line: int, text: str, why: str) -> None:
        super().__init__(path, line, text, why)
        self.path, self.line, self.text, self.why = path, line, text, why

    def __str__(self) -> str:
        shown = self.text if len(self.text) <= _SHOWN else self.text[:_SHOWN] + ".."
        shown = "".join(c if c.isprintable() else "?" for c in shown)
        return f"{self.path}, line {self.line:,}: {self.why}\n  {shown}"


class Journal:
    """The lines of a history, and what they make: the words of the register, and how far undo reaches."""

    def __init__(self, path: str = "") -> None:
        self.path = path
        self.state: State = calls.words(calls.STATE_WORDS)
        self.reach: int | None = None
        self.check = 0
        self.lines: list[bytes] = []
        """The lines after the first, without their line feeds."""

    def sealed(self, call: str, remark: str = "") -> bytes:
        """The line of a call that is made now, with its line feed; nothing is taken yet."""
        front = f"{call}{_REMARK.decode()}{time.strftime(_STAMP, time.gmtime())}{f' {remark}' if remark else ''}".encode()
        return b"%s %08x\n" % (front, crc32(front, self.check))

    def take(self, line: bytes, state: State, reach: int | None) -> None:
        """Takes a sealed line, and what it makes."""
        self.lines.append(line[:-1])
        self.check = int(line[-_CHECK:], 16)
        self.state, self.reach = state, reach

    def read(self, text: bytes) -> None:
        """Takes the lines of a history, after its first, up to the last line feed; or raises `Damaged`, and has taken none."""
        lines = text.split(b"\n")[:-1]
        replay = _Replay(self)
        for line in lines:
            replay.line(line)
        replay.made()
        self.lines += lines
        self.state, self.reach, self.check = replay.state, replay.reach, replay.check

    def latest(self, most: int) -> list[tuple[str, str]]:
        """The latest calls, the last first: each as it was typed, and its time."""
        found: list[tuple[str, str]] = []
        for line in self.lines[: -most - 1 : -1]:
            call, _, remark = line.decode().partition(_REMARK.decode())
            found.append((call, remark[:20]))
        return found

    def since(self, mark: str) -> list[tuple[str, str]] | None:
        """The calls after the line that a mark names, the last first; none if there is no such line with this check."""
        found = re.fullmatch(r"(\d{1,9})-([0-9a-f]{8})", mark)
        lines = int(found[1]) if found else len(self.lines) + 1
        if found is None or lines > len(self.lines):
            return None
        check = self.lines[lines - 1][1 - _CHECK :].decode() if lines else f"{0:08x}"
        return self.latest(len(self.lines) - lines) if found[2] == check else None


class _Replay:
    """Lines made one after the other. Edits are gathered, and made by one call of the engine for each run of them."""

    def __init__(self, journal: Journal) -> None:
        self.path, self.check, self.reach = journal.path, journal.check, journal.reach
        self.state = type(journal.state).from_buffer_copy(journal.state)
        self.number = len(journal.lines) + 1
        # The gathered edits, and the line of each.
        self.words, self.places = array("Q"), array("I")
        self.text: dict[int, bytes] = {}
        self.begun: list[bytes] = []

    def damaged(self, line: bytes, why: str, number: int | None = None) -> Damaged:
        return Damaged(self.path, self.number if number is None else number, line.decode(errors="replace"), why)

    def line(self, line: bytes) -> None:
        self.number += 1
        self.begun.append(line)
        front = line[:-_CHECK]
        call, remark, _ = front.partition(_REMARK)
        if not remark:
            raise self.damaged(line, "no call of a history, or one without its time and check")
        self.check = crc32(front, self.check)
        if b" %08x" % self.check != line[-_CHECK:]:
            raise self.damaged(line, "its check does not hold: this line, or one before it, was changed, put in or taken out")
        if call.startswith(b"do "):
            for part in call[3:].split(b", "):
                self.call(line, part)
        else:
            self.call(line, call)

    def call(self, line: bytes, call: bytes) -> None:
        words = call.split(b" ") if len(call) <= _LONGEST else []
        if len(words) == 4 and words[0] in (b"add", b"remove") and words[1].isdigit() and words[3].isdigit() and words[2] in _LETTERS:
            self.edit(line, _KINDS[words[0]] | min(int(words[1]), _MOST) << 24 | _LETTERS[words[2]] | min(int(words[3]), _MOST))
        elif len(words) == 2 and words[1].isdigit() and words[0] in (b"lock", b"unlock", b"withdraw", b"reinstate"):
            self.edit(line, _KINDS[words[0]] | min(int(words[1]), _MOST) << 24)
        elif call == b"undo":
            self.edit(line, UNDO << 40)
        elif len(words) == 2 and words[0] == b"open" and words[1].isdigit():
            self.made()
            try:
                self.state, self.reach = fresh(int(words[1])), None
            except Refusal as refusal:
                raise self.damaged(line, str(refusal)) from None
        elif call == b"close":
            self.made()
            answer = calls.close_up(self.state, (ctypes.c_uint16 * calls.size(self.state))())
            if answer:
                raise self.damaged(line, str(Refusal(answer)))
            self.reach = None
        elif call == b"settle":
            self.made()
            self.reach = 0
        else:
            raise self.damaged(line, "no call of a history")

    def edit(self, line: bytes, word: int) -> None:
        if self.reach is not None:
            if word == UNDO << 40:
                if self.reach == 0:
                    raise self.damaged(line, str(Refusal(Cause.NONE_HELD)))
                self.reach -= 1
            elif self.reach < MOST_HELD:
                self.reach += 1
        self.words.append(word)
        self.places.append(self.number)

    def made(self) -> None:
        """Makes the gathered edits."""
        if not self.words:
            return
        lent = (ctypes.c_uint64 * len(self.words)).from_buffer(self.words)
        refused = calls.refused_at(calls.apply_all(self.state, lent))
        del lent
        if refused is not None:
            number = self.places[refused[0]]
            line = self.begun[number - (self.number - len(self.begun)) - 1]
            raise self.damaged(line, str(Refusal(refused[1])), number)
        self.words, self.places = array("Q"), array("I")


def version_of(line: bytes) -> int | None:
    """The version that a first line names; none if it is no history's."""
    found = re.fullmatch(rf"{FORMAT} (\d{{1,9}})\r?".encode(), line)
    return int(found[1]) if found else None


def line_of(edits: list[Edit]) -> str:
    """The call of edits that are made all or none."""
    return str(edits[0]) if len(edits) == 1 else "do " + ", ".join(map(str, edits))
