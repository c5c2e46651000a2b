"""Sets of pairs as k2-trees, and their algebra."""

from __future__ import annotations

import ctypes
from array import array
from collections.abc import Iterable, Iterator
from typing import Any

from . import calls
from .arguments import number, wanted
from .calls import counted
from .items import Pairs, copied
from .refusal import Cause, Refusal
from .space import MAX_RECORDS, room, tree_words, tree_work

# A word above those of all pairs, which is refused as an end above 1,023 would be (2).
_NO_PAIR = (1 << 32) - 1


class Tree:
    """A set of pairs of records below n, as the words of its k2-tree. It never changes.

    >>> links = Tree(4, [(0, 1), (1, 2)])
    >>> joined = links.closure()
    >>> list(joined), len(joined)
    ([(0, 1), (0, 2), (1, 2)], 3)
    >>> list(joined - links), list(links @ links), list(links.transpose() | links @ links)
    ([(0, 2)], [(0, 2)], [(0, 2), (1, 0), (2, 1)])

    The other operand of an operation is read as a tree of pairs below the n of the first, and
    refused with 11 if it is none.
    """

    __slots__ = ("_n", "_words")

    def __init__(self, n: int, pairs: Iterable[tuple[int, int]] = ()) -> None:
        """The tree of some pairs, in any order and with repeats."""
        self._n = number(n)
        lent = [_word(from_, to) for from_, to in pairs]
        self._words = self._made(calls.tree_make, (ctypes.c_uint32 * len(lent))(*lent))

    @classmethod
    def of_words(cls, n: int, words: Iterable[int]) -> Tree:
        """A tree of these words; they are refused with 11 if they are not well formed.

        >>> Tree.of_words(4, Tree(4, [(0, 1)]).words()) == Tree(4, [(0, 1)])
        True
        """
        if isinstance(words, (str, bytes, bytearray)):
            raise TypeError(f"words are numbers, not {type(words).__name__}")
        tree = cls.__new__(cls)
        tree._n = number(n)
        try:
            tree._words = array("Q", words)
        except OverflowError:
            raise Refusal(Cause.TREE) from None
        len(tree)
        return tree

    @property
    def n(self) -> int:
        """Below which the records are."""
        return self._n

    def words(self) -> array[int]:
        """Of 64 bits. Bit 0 is the lowest of the first word; the empty set has no words."""
        return self._words[:]

    def pairs(self, most: int | None = None) -> Pairs:
        """The pairs; with `most`, only so many of them, the smallest."""
        written = calls.words(room(self._n, wanted(most)))
        total = counted(calls.tree_list(self._n, self._lent(), written, calls.work(tree_work(self._n))))
        return Pairs(copied(written, total), total)

    def __iter__(self) -> Iterator[tuple[int, int]]:
        return iter(self.pairs())

    def __len__(self) -> int:
        return self.pairs(most=0).total

    def union(self, other: Tree) -> Tree:
        """The pairs in either; also `a | b`."""
        return self._with(calls.tree_union, other)

    def intersection(self, other: Tree) -> Tree:
        """The pairs in both; also `a & b`."""
        return self._with(calls.tree_intersection, other)

    def difference(self, other: Tree) -> Tree:
        """The pairs in the first and not in the second; also `a - b`."""
        return self._with(calls.tree_difference, other)

    def product(self, other: Tree, inverted: bool = False, other_inverted: bool = False) -> Tree:
        """The pairs (x, z) with (x, y) in the first and (y, z) in the second for some y; also `a @
        b`. An operand that is inverted is read with its pairs exchanged, and its transpose is not
        written.

        >>> parents = Tree(4, [(0, 2), (1, 2), (2, 3)])
        >>> list(parents.product(parents, other_inverted=True))
        [(0, 0), (0, 1), (1, 0), (1, 1), (2, 2)]
        """
        return self._new(calls.tree_product, self._lent(), int(bool(inverted)), _tree(other)._lent(), int(bool(other_inverted)))

    def transpose(self) -> Tree:
        """Each pair exchanged."""
        return self._new(calls.tree_transpose, self._lent())

    def closure(self) -> Tree:
        """The pairs joined by one or more pairs, one after the other."""
        return self._new(calls.tree_closure, self._lent())

    def __or__(self, other: Tree) -> Tree:
        return self.union(other) if isinstance(other, Tree) else NotImplemented

    def __and__(self, other: Tree) -> Tree:
        return self.intersection(other) if isinstance(other, Tree) else NotImplemented

    def __sub__(self, other: Tree) -> Tree:
        return self.difference(other) if isinstance(other, Tree) else NotImplemented

    def __matmul__(self, other: Tree) -> Tree:
        return self.product(other) if isinstance(other, Tree) else NotImplemented

    def __eq__(self, other: object) -> bool:
        if not isinstance(other, Tree):
            return NotImplemented
        return (self._n, self._words) == (other._n, other._words)

    def __hash__(self) -> int:
        return hash((self._n, self._words.tobytes()))

    def __repr__(self) -> str:
        return f"<Tree: below {self._n:,}, {len(self):,} pairs>"

    def _lent(self) -> ctypes.Array[ctypes.c_uint64]:
        return (ctypes.c_uint64 * len(self._words)).from_buffer_copy(self._words)

    def _with(self, call: calls.Call, other: Tree) -> Tree:
        return self._new(call, self._lent(), _tree(other)._lent())

    def _new(self, call: calls.Call, *operands: Any) -> Tree:
        tree = type(self).__new__(type(self))
        tree._n = self._n
        tree._words = tree._made(call, *operands)
        return tree

    def _made(self, call: calls.Call, *operands: Any) -> array[int]:
        """The words that a call makes of operands."""
        written = calls.work(tree_words(self._n))
        count = counted(call(self._n, *operands, written, calls.work(tree_work(self._n))))
        return copied(written, count)


def _word(from_: int, to: int) -> int:
    ends = number(from_), number(to)
    return ends[0] * MAX_RECORDS + ends[1] if max(ends) < MAX_RECORDS else _NO_PAIR


def _tree(other: Tree) -> Tree:
    if not isinstance(other, Tree):
        raise TypeError(f"the other operand is a Tree, not {type(other).__name__}")
    return other
