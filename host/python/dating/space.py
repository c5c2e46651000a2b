"""How much space calls need, for n from 1 to 1,024; for any other n, which the engine refuses,
none.
"""

from __future__ import annotations

import ctypes

from . import calls

MAX_RECORDS = 1024
"""The most records of a register; words of pairs, steps and links count by it."""
MAX_LINKS = 4096
"""The most links of a register."""


def tree_words(n: int) -> int:
    """D, the words of the longest tree: 4 × (s² − 1) / 3 bits, where s is the smallest power of two
    that is at least n, and at least 2.

    >>> tree_words(1024), tree_words(64), tree_words(1), tree_words(0)
    (21846, 86, 1, 0)
    """
    if _in_range(n) == 0:
        return 0
    side = max(2, 1 << (n - 1).bit_length())
    return -(-(4 * (side * side - 1) // 3) // 64)


def tree_work(n: int) -> int:
    """The words of work for a tree operation, or a pair question by trees."""
    return 32 * tree_words(n)


def rows_work(n: int) -> int:
    """The words of work for a pair question by rows of bits.

    >>> rows_work(1), rows_work(65), rows_work(1024), rows_work(1025)
    (32, 4160, 524288, 0)
    """
    return 32 * _in_range(n) * -(-_in_range(n) // 64)


def chain_work(n: int) -> int:
    """The words of work for a chain question, generations or offsets."""
    return 64 * _in_range(n)


def support_work(n: int) -> int:
    """The words of work for sole support."""
    return tree_work(n) + chain_work(n)


def most_pairs(n: int) -> int:
    """The length of a list that has room for every answer to a pair question."""
    return _in_range(n) ** 2


def room(n: int, wanted: int | None) -> int:
    """The length of a list for as many pairs as are wanted, or for all that there can be."""
    return most_pairs(n) if wanted is None else min(wanted, most_pairs(n))


def longest_chain(n: int) -> int:
    """The length of a list that has room for every chain."""
    return 63 * _in_range(n)


def _in_range(n: int) -> int:
    return n if 1 <= n <= MAX_RECORDS else 0


class Space:
    """Memory that is lent to one call after another, and grows with what they need."""

    __slots__ = ("_work", "_list")

    def __init__(self) -> None:
        self._work = calls.work(0)
        self._list = calls.words(0)

    def work(self, words: int) -> ctypes.Array[ctypes.c_uint64]:
        """At least so many words of work."""
        if len(self._work) < words:
            self._work = calls.work(words)
        return self._work

    def list(self, words: int) -> ctypes.Array[ctypes.c_uint32]:
        """A list of at least so many words."""
        if len(self._list) < words:
            self._list = calls.words(words)
        return self._list
