"""The requests by word: how each is typed, what it does, and an example, which a test holds to what is answered; from `help.txt`."""

from __future__ import annotations

from pathlib import Path
from typing import NamedTuple

from ..texts import quoted

PROMPT = "dating> "
"""What stands before a typed line, on a terminal and in examples."""

# The most characters of an unknown word that are looked at.
_LONGEST = 20

# What people type for a request that has another word.
_ALSO = {
    "exit": "quit",
    "bye": "quit",
    "delete": "remove",
    "insert": "add",
    "new": "open",
    "status": "show",
    "count": "total",
    "save": "sheet",
    "load": "read",
    "print": "page",
    "next": "more",
    "log": "history",
    "path": "chain",
    "csv": "import",
    "?": "help",
}


class Entry(NamedTuple):
    """A request, or another thing that help is given on."""

    word: str
    form: str
    """How it is typed."""
    about: str
    example: list[str]

    def sample(self) -> str:
        """A line that asks for it, the first of its example."""
        typed = (line.removeprefix(PROMPT) for line in self.example if line.startswith(PROMPT))
        return next((line for line in typed if line.startswith(self.word)), self.word)

    def told(self) -> str:
        """How it is typed, with a line for example if something follows the word."""
        if self.form == self.word:
            return f"  it is typed: {self.word}"
        return f"  it is typed: {self.form}\n  for example: {self.sample()}"

    def text(self) -> str:
        """All of it."""
        return "\n".join([self.form, self.about, "Example, in the house of examples/surveyor.txt:", *(f"  {line}" for line in self.example)])


def _read() -> tuple[str, dict[str, Entry]]:
    overview, *sections = Path(__file__).with_name("help.txt").read_text("utf-8").split("\n== ")
    entries = {}
    for section in sections:
        form, rest = section.split("\n", 1)
        about, example = rest.split("\n--\n")
        word = form.split(" ")[0]
        entries[word] = Entry(word, form, about, example.rstrip("\n").split("\n"))
    return overview, entries


OVERVIEW, _ENTRIES = _read()
EXPRESSION = _ENTRIES.pop("expression")
REQUESTS = _ENTRIES


def topic(word: str) -> Entry | None:
    """What help is given on by this word."""
    return EXPRESSION if word in ("expression", "expressions", "EXPRESSION") else REQUESTS.get(word)


def nearest(word: str) -> Entry:
    """The request that was most likely meant by a word that is none: help, if more than half of the word would have to change for any other."""
    word = word.lower()[:_LONGEST]
    if word in _ALSO:
        return REQUESTS[_ALSO[word]]
    for entry in REQUESTS.values():
        if entry.word.startswith(word):
            return entry
    changes = {entry.word: _distance(word, entry.word) for entry in REQUESTS.values()}
    near = min(changes, key=lambda other: changes[other])
    return REQUESTS[near if 2 * changes[near] <= len(word) else "help"]


def unknown(word: str) -> str:
    """That a word is no request."""
    near = nearest(word).word
    return f"{quoted(word)} is not known; {'help lists the requests' if near == 'help' else f'the nearest request is {near}, and help lists all'}"


def _distance(word: str, other: str) -> int:
    """The fewest characters to put in, take out, exchange or swap with the next that make one word of the other."""
    rows = [list(range(len(other) + 1))]
    for i in range(1, len(word) + 1):
        row = [i]
        for j in range(1, len(other) + 1):
            least = min(rows[i - 1][j - 1] + (word[i - 1] != other[j - 1]), rows[i - 1][j] + 1, row[j - 1] + 1)
            if i > 1 and j > 1 and word[i - 1] == other[j - 2] and word[i - 2] == other[j - 1]:
                least = min(least, rows[i - 2][j - 2] + 1)
            row.append(least)
        rows.append(row)
    return rows[-1][-1]
