"""What people pass, as the engine takes it.

A value that the engine's types do not hold is passed as one that they hold and that the engine
refuses with the same number. So the causes keep their order, and nothing is wrapped around. What
stands for an integer elsewhere in Python (`__index__`) does so here.
"""

from __future__ import annotations

from operator import index
from typing import Union

Expression = Union[str, bytes]
"""A path expression, as text or as its bytes."""

_ABOVE_RECORDS = 65535
_NO_LABEL = 255
_LEAST, _MOST = -(1 << 31), (1 << 31) - 1


def whole(given: int) -> int:
    """What stands for an integer; text does not, as it comes from the cells of a sheet."""
    try:
        return index(given)
    except TypeError:
        raise TypeError(f"a number is an int, not {type(given).__name__}") from None


def number(given: int) -> int:
    """A record, a size or a kind of two bytes; for any other, and for True and False, 65,535, which
    is no record's, no size and no kind (2, 1, 15).
    """
    value = _ABOVE_RECORDS if isinstance(given, bool) else whole(given)
    return value if 0 <= value <= _ABOVE_RECORDS else _ABOVE_RECORDS


def rings(given: int) -> int:
    """A limit of a tie, of four bytes; for any other the nearest that they hold, which is outside
    every tie (19).
    """
    return max(_LEAST, min(_MOST, whole(given)))


def label(letter: str) -> int:
    """0 to 25 for a to z; 255, which is no label (3), for any other text."""
    if not isinstance(letter, str):
        raise TypeError(f"a letter is a str, not {type(letter).__name__}")
    return ord(letter) - ord("a") if len(letter) == 1 and "a" <= letter <= "z" else _NO_LABEL


def text(given: Expression) -> bytes:
    """The bytes of an expression or of pages. Those of a character that is not ASCII are outside
    the grammar.
    """
    if isinstance(given, str):
        return given.encode("utf-8", "surrogatepass")
    if isinstance(given, bytes):
        return given
    raise TypeError(f"text is a str or bytes, not {type(given).__name__}")


def wanted(most: int | None) -> int | None:
    """How many items are wanted at most; none for all of them."""
    if most is not None and index(most) < 0:
        raise ValueError(f"there are no {index(most)} items")
    return None if most is None else index(most)
