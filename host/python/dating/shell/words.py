"""The words of a typed line, and what is wrong with them."""

from __future__ import annotations

import re

from ..names import Names
from ..terms import KINDS, UNDO, Edit, Tie
from ..texts import is_figures, number_of, quoted

BLANKS = " \t\r"
_ABOVE_RECORDS = 65535
_MOST_RINGS = (1 << 31) - 1


class Fault(Exception):
    """Why a line is no request, in words."""


class Words:
    """What is still to be read of a line: words with blanks between them."""

    def __init__(self, line: str, names: Names | None = None) -> None:
        self.rest = line.strip(BLANKS)
        self.names = names or Names()

    def next(self) -> str | None:
        """The next word, if there is one; in quotation marks it may have blanks."""
        if not self.rest:
            return None
        found = re.match(r'"([^"]*)"(?=[ \t\r,]|$)|[^ \t\r]+', self.rest)
        assert found is not None
        self.rest = self.rest[found.end() :].lstrip(BLANKS)
        return found[0]

    def word(self, name: str) -> str:
        """The next word, which the request calls by this name."""
        word = self.next()
        if word is None:
            raise Fault(f"{name} is missing")
        return word

    def number(self, name: str) -> int:
        """A number. One too large is the greatest there is, which the engine refuses too."""
        word = self.word(name)
        if not is_figures(word):
            raise _no_number(name, word)
        return min(number_of(word), _ABOVE_RECORDS)

    def record(self, name: str) -> int:
        """A record, by its number or its name."""
        if not self.names.records:
            return self.number(name)
        before = self.rest
        word = self.word(name)
        if is_figures(word):
            self.rest = before
            return self.number(name)
        known = self.names.number(word.strip('"'))
        if known is None:
            raise Fault(f"{name} is a record's number or name, not {quoted(word)}")
        return known

    def rings(self, name: str) -> int:
        """A number of rings, which may be negative. One too large either way is the outermost there is, which the engine refuses too."""
        word = self.word(name)
        size = word[1:] if word[:1] in ("-", "+") else word
        if not is_figures(size):
            raise _no_number(name, word)
        return min(_MOST_RINGS, number_of(size)) * (-1 if word.startswith("-") else 1)

    def letter(self, name: str) -> str:
        """One character; whether it is a letter from a to z is for the engine to say."""
        word = self.word(name)
        if len(word) != 1:
            raise Fault(f"{name} is one letter from a to z, not {quoted(word)}")
        return word

    def expression(self, name: str = "EXPRESSION") -> str:
        """The rest of the line. Blanks in an expression are for the engine to refuse."""
        rest, self.rest = self.rest, ""
        if not rest:
            raise Fault(f"{name} is missing")
        return rest

    def end(self, hint: str = "") -> None:
        """That nothing is left."""
        word = self.next()
        if word is not None:
            raise Fault(f"{quoted(word)} is a word too many{hint}")

    def edit(self) -> Edit:
        """An edit or undo."""
        word = self.word("EDIT")
        if word not in KINDS:
            raise Fault(f"EDIT is add, remove, lock, unlock, withdraw, reinstate or undo, not {quoted(word)}")
        return self.edited(word)

    def edited(self, word: str) -> Edit:
        """The edit of this word."""
        kind = KINDS[word]
        if kind == UNDO:
            return Edit(kind)
        if word in ("add", "remove"):
            return Edit(kind, self.record("FROM"), self.letter("LETTER"), self.record("TO"))
        return Edit(kind, self.record("RECORD"))

    def edits(self) -> list[Edit]:
        """Edits with commas between them; what follows the last is left."""
        edits = []
        while True:
            # A comma may stand against the word before it.
            front, comma, back = self.rest.partition(",")
            part = Words(front, self.names) if comma and _is_edit(front) else self
            edits.append(part.edit())
            if part is self:
                return edits
            part.end(": a comma stands between edits")
            self.rest = back.lstrip(BLANKS)

    def tie(self) -> Tie:
        """A tie, which is all that is left."""
        tie = Tie(self.record("FIRST"), self.record("SECOND"), self.rings("LEAST"), self.rings("MOST"))
        self.end(": a comma stands between ties")
        return tie


def _is_edit(text: str) -> bool:
    """Whether an edit may stand before a comma; an expression has none."""
    words = text.split()
    return bool(words) and words[0] in KINDS


def _no_number(name: str, word: str) -> Fault:
    threes = word.split(",")
    grouped = len(threes[0]) <= 3 and all(len(three) == 3 for three in threes[1:])
    hint = ""
    if grouped and is_figures("".join(threes)):
        hint = f": type {''.join(threes)}"
    elif word.startswith("-") and is_figures(word[1:]):
        hint = ": records are numbered from 0"
    return Fault(f"{name} is a number, not {quoted(word)}{hint}")
