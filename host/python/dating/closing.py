"""The list of new numbers that a closing up gives, in runs."""

from __future__ import annotations

from collections.abc import Sequence

from .texts import runs

Moved = tuple[int, int, "int | None"]
"""A run of old numbers, first and last, and the new number of the first; none if they are withdrawn."""


def moved(numbers: Sequence[int | None]) -> list[Moved]:
    """The runs of old numbers that moved as one, or were withdrawn.

    >>> moved([0, None, 1, 2])
    [(0, 0, 0), (1, 1, None), (2, 3, 1)]
    """
    in_use = [record for record, new in enumerate(numbers) if new is not None]
    gone = [record for record, new in enumerate(numbers) if new is None]
    found: list[Moved] = [(first, last, numbers[first]) for first, last in runs(in_use)]
    return sorted(found + [(first, last, None) for first, last in runs(gone)], key=lambda run: run[0])


def short(numbers: Sequence[int | None]) -> str:
    """The list in short.

    >>> short([0, None, 1, 2])
    '0 0, 1 gone, 2-3 1-2'
    """
    pieces = []
    for first, last, new in moved(numbers):
        pieces.append(f"{_span(first, last)} {'gone' if new is None else _span(new, new + last - first)}")
    return ", ".join(pieces)


def _span(first: int, last: int) -> str:
    return str(first) if first == last else f"{first}-{last}"
