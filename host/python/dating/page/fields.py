"""What was typed into the page's fields, read by the shell's own reader of words."""

from __future__ import annotations

from collections.abc import Mapping

from ..names import Names
from ..shell.words import Fault, Words
from ..terms import UNDO, Edit

MOST_EDITS = 1000
"""The most lines of a draft."""
_LONGEST = 200


class Fields:
    """The fields of a form, by name; each is text."""

    def __init__(self, given: Mapping[str, str], names: Names) -> None:
        self.given, self.names = given, names

    def text(self, key: str, label: str) -> str:
        """What stands in a field, without blanks around it; the label is how people know it."""
        found = self.given.get(key, "").strip()
        if not found:
            raise Fault(f"{label} is empty")
        return found

    def record(self, key: str, label: str) -> int:
        """A record, by its number or its name."""
        return read_record(self.text(key, label), label, self.names)

    def records(self, key: str, label: str) -> list[int]:
        """Records with commas or blanks between them, or none."""
        found = self.given.get(key, "").replace(",", " ")
        words, records = Words(found, self.names), []
        while words.rest:
            records.append(words.record(label))
        return records

    def number(self, key: str, least: int, most: int, otherwise: int) -> int:
        """A number within bounds that the page itself sets."""
        typed = self.given.get(key, "")
        if not typed:
            return otherwise
        if not (typed.isascii() and typed.isdigit() and len(typed) < 10 and least <= int(typed) <= most):
            raise Fault(f"{key} is a number from {least} to {most}")
        return int(typed)


def read_record(typed: str, label: str, names: Names) -> int:
    """A record, by its number or its name; blanks may stand in a name."""
    words = Words(f'"{typed}"' if " " in typed and '"' not in typed else typed, names)
    record = words.record(label)
    words.end()
    return record


def read_edit(line: str, names: Names) -> Edit:
    """A line of a draft."""
    if len(line) > _LONGEST:
        raise Fault(f"a line of a draft has at most {_LONGEST} characters")
    words = Words(line, names)
    edit = words.edit()
    if edit.kind == UNDO:
        raise Fault("undo is no line of a draft: it stands with the latest edits, and tells what it would take back")
    words.end()
    return edit
