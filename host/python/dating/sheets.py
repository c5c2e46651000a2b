"""Sheets: a register as the requests that make it again, for exchange. A sheet begins with a line that says so, and ends with its counts, to which reading
holds it.

    # sheet of a dating register, version 1
    open 4
    add 0 a 1
    lock 1
    # 4 records, 1 link, 1 locked, 0 withdrawn
"""

from __future__ import annotations

import re
from typing import NamedTuple

from .questions import Questions
from .refusal import Refusal
from .register import Register
from .terms import KINDS, Edit

FORMAT = "# sheet of a dating register, version"
VERSION = 1
_LINK = re.compile(r"(add) ([0-9]{1,9}) ([a-z]) ([0-9]{1,9})")
_RECORD = re.compile(r"(lock|withdraw) ([0-9]{1,9})")


class Fault(NamedTuple):
    """A line that is refused or is no line of what is read: its number, its text, and why."""

    line: int
    text: str
    why: str


class NoSheet(Exception):
    """What is read is no whole sheet: the faults, at least one."""

    def __init__(self, faults: list[Fault]) -> None:
        super().__init__(faults)
        self.faults = faults

    def __str__(self) -> str:
        return "\n".join(f"line {fault.line}, {fault.text}: {fault.why}" for fault in self.faults)


class Sheet(NamedTuple):
    """What a sheet says: the number of records, and the edits."""

    n: int
    edits: list[Edit]

    def register(self) -> Register:
        """The register; undo does not reach into it."""
        made = Register(self.n)
        made.apply(self.edits)
        made._reach = 0
        return made


def edits(register: Questions) -> list[Edit]:
    """The edits that make the register again once it is opened: links by letter, then by the records; locks; withdrawn records."""
    return [
        *(Edit.add(*link) for link in register.links()),
        *map(Edit.lock, register.locked()),
        *map(Edit.withdraw, register.withdrawn()),
    ]


def text(register: Questions) -> str:
    """The sheet of a register.

    >>> register = Register(3)
    >>> register.add(0, "a", 1)
    >>> print(text(register), end="")
    # sheet of a dating register, version 1
    open 3
    add 0 a 1
    # 3 records, 1 links, 0 locked, 0 withdrawn
    """
    lines = [f"{FORMAT} {VERSION}", f"open {register.size}", *map(str, edits(register)), _counts(register)]
    return "".join(f"{line}\n" for line in lines)


def _counts(register: Questions) -> str:
    return f"# {register.size} records, {len(register.links())} links, {len(register.locked())} locked, {len(register.withdrawn())} withdrawn"


def is_sheet(first: str) -> bool:
    """Whether a first line says that a sheet follows."""
    return first.startswith(FORMAT)


def read(written: str) -> Sheet:
    """What a sheet says; NoSheet with every faulty line if it is not whole.

    >>> sheet = read(text(Register(3)))
    >>> sheet.n, sheet.edits
    (3, [])
    """
    lines = written.split("\n")
    if lines[0].rstrip("\r") != f"{FORMAT} {VERSION}":
        why = f"a sheet of another version; this program reads version {VERSION}" if is_sheet(lines[0]) else "no first line of a sheet"
        raise NoSheet([Fault(1, lines[0], why)])
    made: Register | None = None
    found: list[Edit] = []
    faults: list[Fault] = []
    counts = ""
    number = 0
    for number, line in enumerate((line.rstrip("\r") for line in lines[1:-1]), 2):
        counts = line if line.startswith("#") else ""
        if counts or not line:
            continue
        if made is None:
            made = _opened(number, line)
        elif line.startswith("open"):
            faults.append(Fault(number, line, "a sheet opens one register"))
        else:
            faults += _taken(made, found, number, line)
    if made is None:
        raise NoSheet([Fault(number, lines[-1], "the sheet opens no register: it is cut")])
    if faults:
        raise NoSheet(faults)
    if counts != _counts(made):
        cut = "the sheet was cut or changed: its last line does not say what is in it"
        raise NoSheet([Fault(len(lines) - 1, lines[-1] or counts or lines[-2], f"{cut}, {_counts(made)[2:]}")])
    return Sheet(made.size, found)


def _opened(number: int, line: str) -> Register:
    try:
        if not re.fullmatch(r"open [0-9]{1,9}", line):
            raise NoSheet([Fault(number, line, "a sheet begins with open N")])
        return Register(int(line[5:]))
    except Refusal as refusal:
        raise NoSheet([Fault(number, line, str(refusal))]) from None


def _taken(made: Register, found: list[Edit], number: int, line: str) -> list[Fault]:
    """Makes the edit of a line, or tells what is wrong with it."""
    if link := _LINK.fullmatch(line):
        edit = Edit.add(int(link[2]), link[3], int(link[4]))
    elif record := _RECORD.fullmatch(line):
        edit = Edit(KINDS[record[1]], int(record[2]))
    else:
        return [Fault(number, line, "no line of a sheet, which has open, add, lock and withdraw")]
    try:
        made.apply(edit)
    except Refusal as refusal:
        return [Fault(number, line, str(refusal))]
    found.append(edit)
    return []
