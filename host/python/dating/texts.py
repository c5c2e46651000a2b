"""Words and lines of answers: counts, lists of records, chains as people draw them, and lines broken at a fixed width."""

from __future__ import annotations

from collections.abc import Callable, Iterable, Iterator

from .items import Link, Steps

WIDTH = 78
"""The most columns of a line that is broken, on a pipe as on a terminal, so that an answer is the same on both."""

_INDENT = "    "
# The most characters of a typed word that are shown again.
_SHOWN = 40

Named = Callable[[int], str]
"""How a record is shown: its number, with its name where there is one."""


def is_figures(word: str) -> bool:
    """Whether a word is a number as it is typed: figures from 0 to 9 alone."""
    return word.isascii() and word.isdigit()


def number_of(figures: str) -> int:
    """The number of some figures; of more than twelve that count, one that is too large for all."""
    some = figures.lstrip("0")
    return int(some or "0") if len(some) <= 12 else 10**12


def count(number: int, one: str) -> str:
    """How many there are.

    >>> count(0, "pair"), count(1, "pair"), count(1000, "pair")
    ('no pairs', '1 pair', '1,000 pairs')
    """
    return f"no {one}s" if number == 0 else f"1 {one}" if number == 1 else f"{number:,} {one}s"


def filled(pieces: Iterable[str]) -> str:
    """Pieces with a blank between them, broken into lines of at most `WIDTH` columns where they are short enough; no line feed at the end."""
    lines: list[str] = []
    line = ""
    for piece in pieces:
        if not line:
            line = piece
        elif len(line) + 1 + len(piece) <= WIDTH:
            line += " " + piece
        else:
            lines.append(line)
            line = _INDENT + piece
    return "\n".join([*lines, line])


def runs(records: Iterable[int]) -> Iterator[tuple[int, int]]:
    """Runs of records that follow one another, first and last.

    >>> list(runs([0, 2, 3, 4, 9]))
    [(0, 0), (2, 4), (9, 9)]
    """
    first = last = None
    for record in records:
        if first is None or last is None:
            first = record
        elif last + 1 != record:
            yield first, last
            first = record
        last = record
    if first is not None and last is not None:
        yield first, last


def run(first: int, last: int) -> str:
    """`5`, or `5 to 9`."""
    return str(first) if first == last else f"{first} to {last}"


def listed(head: str, records: Iterable[int], named: Named = str) -> str:
    """Records after a head, broken into lines. Those that follow one another are said together if they have no names.

    >>> listed("locked:", [0, 2, 3, 4, 9])
    'locked: 0, 2 to 4, 9'
    """
    pieces = []
    for first, last in runs(records):
        plain = all(named(record) == str(record) for record in range(first, last + 1))
        pieces += [run(first, last)] if plain and last - first != 1 else [named(record) for record in range(first, last + 1)]
    return filled([head, *(piece + "," for piece in pieces[:-1]), *pieces[-1:]])


def chain(steps: Steps, named: Named = str) -> str:
    """A chain as people draw it, broken into lines."""
    drawn = (f"-{step.letter}-> {named(step.reached)}" if step.forward else f"<-{step.letter}- {named(step.reached)}" for step in steps)
    length = f"({count(len(steps), 'step')})" if len(steps) else "(0 steps)"
    return filled([named(steps.start), *drawn, length])


def link(drawn: Link, named: Named = str) -> str:
    """A link as people draw it: `5 -t-> 2`."""
    return f"{named(drawn.from_)} -{drawn.letter}-> {named(drawn.to)}"


def shown(text: str) -> str:
    """What was typed, for showing: what is no text, and what would move a terminal's cursor, as a question mark.

    >>> shown("a\\x1b[2J\\udcff\\tb")
    'a?[2J??b'
    """
    return "".join(c if c.isprintable() else "?" for c in text)


def quoted(word: str) -> str:
    """A typed word in quotation marks, cut if it is long."""
    safe = shown(word)
    return f'"{safe[:_SHOWN]}{".." if len(safe) > _SHOWN else ""}"'
