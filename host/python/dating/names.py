"""Names of records and of letters, from a file; they are shown beside numbers, and taken where a record is typed. They are never in the register.

    # a record or a letter, then its name
    2 tie beam
    5 A-1
    t is of timber
"""

from __future__ import annotations

import re
from collections.abc import Sequence

from .files import because, named, whole
from .sheets import Fault
from .texts import shown

_LINE = re.compile(r"([0-9]{1,9}|[a-z])[ \t]+(\S.*?)[ \t]*")
_LONGEST = 60


class NoNames(Exception):
    """A file of names that cannot be taken: its faults, each with its line."""

    def __init__(self, path: str, faults: list[Fault]) -> None:
        super().__init__(path, faults)
        self.path, self.faults = path, faults

    def __str__(self) -> str:
        return "\n".join(f"{named(self.path)}, line {fault.line}, {shown(fault.text)}: {fault.why}" for fault in self.faults)


class Names:
    """Names of records and of letters."""

    def __init__(self) -> None:
        self.records: dict[int, str] = {}
        self.letters: dict[str, str] = {}
        self._numbers: dict[str, int] = {}

    @classmethod
    def read(cls, path: str) -> Names:
        """The names of a file; OSError if it cannot be read, NoNames if a line is faulty."""
        names, faults = cls(), []
        for number, line in enumerate(whole(path).decode("utf-8", "surrogateescape").split("\n"), 1):
            line = line.strip()
            if line and not line.startswith("#") and (why := names._take(line)):
                faults.append(Fault(number, line, why))
        if faults:
            raise NoNames(path, faults)
        return names

    def _take(self, line: str) -> str:
        """Takes a line, or says why not."""
        found = _LINE.fullmatch(line)
        if not found:
            return "a line is a record's number or a letter, a blank, and its name"
        key, name = found[1], found[2]
        if not name.isprintable() or '"' in name or len(name) > _LONGEST:
            return f'a name has at most {_LONGEST} printable characters, and no "'
        if key.isdigit():
            return self._take_record(int(key), name)
        if key in self.letters:
            return f"the letter {key} has a name already"
        self.letters[key] = name
        return ""

    def _take_record(self, record: int, name: str) -> str:
        if record in self.records:
            return f"record {record} has a name already"
        if name.isdigit():
            return "a name of figures alone would be taken for a number"
        if name in self._numbers:
            return f"record {self._numbers[name]} has this name already"
        self.records[record] = name
        self._numbers[name] = record
        return ""

    def number(self, name: str) -> int | None:
        """The record of this name."""
        return self._numbers.get(name)

    def record(self, record: int) -> str:
        """A record's number, with its name where it has one."""
        return f"{record} ({self.records[record]})" if record in self.records else str(record)

    def letter(self, letter: str) -> str:
        """A letter, with its name where it has one."""
        return f"{letter} ({self.letters[letter]})" if letter in self.letters else letter

    def renumbered(self, numbers: Sequence[int | None]) -> Names:
        """The names after the numbers have closed up."""
        names = Names()
        names.letters = self.letters
        for record, name in self.records.items():
            new = numbers[record] if record < len(numbers) else None
            if new is not None:
                names._take_record(new, name)
        return names

    def text(self) -> str:
        """The names as the lines of a file."""
        lines = [f"{record} {name}" for record, name in sorted(self.records.items())]
        return "".join(f"{line}\n" for line in [*lines, *(f"{letter} {name}" for letter, name in sorted(self.letters.items()))])

    def __bool__(self) -> bool:
        return bool(self.records or self.letters)


def unread(path: str, error: OSError) -> str:
    """That a file cannot be read."""
    return f"{named(path)} cannot be read: {because(error)}"
