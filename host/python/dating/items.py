"""What answers consist of: pairs, steps and links, read from the words that the engine wrote.

An answer is a sequence. It has a copy of those words, four bytes each, and never changes; an item
is made when it is asked for.
"""

from __future__ import annotations

import ctypes
from array import array
from bisect import bisect_left
from collections.abc import Iterator, Sequence
from itertools import repeat
from operator import index
from typing import Any, NamedTuple, TypeVar, overload

from .space import MAX_RECORDS

T = TypeVar("T", covariant=True)

# The items of an answer that its `repr` shows.
_SHOWN = 6


class Link(NamedTuple):
    """A link between two records."""

    from_: int
    letter: str
    to: int

    def __str__(self) -> str:
        return f"{self.from_} {self.letter} {self.to}"


class Step(NamedTuple):
    """A step of a chain: a link crossed forward or against its sense.

    >>> str(Step("a", True, 1)), str(Step("b", False, 3))
    ('a + 1', 'b - 3')
    """

    letter: str
    forward: bool
    reached: int

    def __str__(self) -> str:
        return f"{self.letter} {'+' if self.forward else '-'} {self.reached}"


class Answer(Sequence[T]):
    """The items of an answer."""

    __slots__ = ("_words",)

    def __init__(self, words: array[int]) -> None:
        self._words = words

    def _item(self, word: int) -> T:
        raise NotImplementedError

    def words(self) -> array[int]:
        """The words as the engine wrote them."""
        return self._words[:]

    def __len__(self) -> int:
        return len(self._words)

    @overload
    def __getitem__(self, at: int) -> T: ...

    @overload
    def __getitem__(self, at: slice) -> list[T]: ...

    def __getitem__(self, at: int | slice) -> T | list[T]:
        if isinstance(at, slice):
            return [self._item(word) for word in self._words[at]]
        return self._item(self._words[at])

    def __iter__(self) -> Iterator[T]:
        return map(self._item, self._words)

    def __eq__(self, other: object) -> bool:
        if not isinstance(other, Answer) or type(other) is not type(self):
            return NotImplemented
        return self._key() == other._key()

    def __hash__(self) -> int:
        return hash(self._key())

    def _key(self) -> tuple[Any, ...]:
        """What tells answers apart."""
        return (self._words.tobytes(),)

    def __repr__(self) -> str:
        shown = ", ".join(map(repr, self[:_SHOWN]))
        return f"<{type(self).__name__}: {len(self):,}{': ' if self._words else ''}{shown}{', ..' if len(self) > _SHOWN else ''}>"


class Pairs(Answer[tuple[int, int]]):
    """Pairs of records, from and to, ascending, each once.

    >>> from dating import Register
    >>> register = Register(3)
    >>> register.add(0, "a", 1)
    >>> register.add(1, "a", 2)
    >>> pairs = register.pairs("a+")
    >>> pairs
    <Pairs: 3: (0, 1), (0, 2), (1, 2)>
    >>> len(pairs), pairs[0], (0, 2) in pairs, (2, 0) in pairs
    (3, (0, 1), True, False)
    >>> for from_, to in pairs:
    ...     print(from_, to)
    0 1
    0 2
    1 2
    """

    __slots__ = ("total",)

    total: int
    """How many there are in all. `len` is less where a question was asked for fewer."""

    def __init__(self, words: array[int], total: int) -> None:
        super().__init__(words)
        self.total = total

    def _item(self, word: int) -> tuple[int, int]:
        return divmod(word, MAX_RECORDS)

    def __iter__(self) -> Iterator[tuple[int, int]]:
        return map(divmod, self._words, repeat(MAX_RECORDS))

    def __contains__(self, pair: Any) -> bool:
        try:
            from_, to = map(index, pair)
        except (TypeError, ValueError):
            return False
        if not (0 <= from_ < MAX_RECORDS and 0 <= to < MAX_RECORDS):
            return False
        word = from_ * MAX_RECORDS + to
        at = bisect_left(self._words, word)
        return at < len(self._words) and self._words[at] == word

    def _key(self) -> tuple[Any, ...]:
        return (self._words.tobytes(), self.total)


class Steps(Answer[Step]):
    """The steps of a chain, in their order; as text, the chain as people draw it.

    >>> from dating import Register
    >>> register = Register(4)
    >>> register.add(0, "a", 1)
    >>> register.add(3, "b", 1)
    >>> chain = register.chain(0, 3, "a/^b")
    >>> print(chain)
    0 -a-> 1 <-b- 3 (2 steps)
    >>> chain.start, len(chain), chain[1], [str(step) for step in chain]
    (0, 2, Step(letter='b', forward=False, reached=3), ['a + 1', 'b - 3'])

    A chain of no steps is a chain too, and true, so that `if register.chain(..)` asks whether there
    is one:

    >>> print(register.chain(2, 2, "a*"), bool(register.chain(2, 2, "a*")), register.chain(2, 3, "a*"))
    2 (0 steps) True None
    """

    __slots__ = ("start",)

    start: int
    """The record at which the chain begins."""

    def __init__(self, start: int, words: array[int]) -> None:
        super().__init__(words)
        self.start = start

    def _item(self, word: int) -> Step:
        spelt, reached = divmod(word, MAX_RECORDS)
        return Step(_letter(spelt // 2), spelt % 2 == 0, reached)

    def __bool__(self) -> bool:
        return True

    def __str__(self) -> str:
        drawn = "".join(f" -{step.letter}-> {step.reached}" if step.forward else f" <-{step.letter}- {step.reached}" for step in self)
        return f"{self.start}{drawn} ({len(self):,} step{'' if len(self) == 1 else 's'})"

    def __repr__(self) -> str:
        return f"<Steps: {self}>"

    def _key(self) -> tuple[Any, ...]:
        return (self._words.tobytes(), self.start)


class Links(Answer[Link]):
    """The links of a register, ascending by letter, then from, then to.

    >>> from dating import Register
    >>> register = Register(3)
    >>> register.add(1, "b", 2)
    >>> register.add(2, "a", 2)
    >>> [str(link) for link in register.links()]
    ['2 a 2', '1 b 2']
    """

    __slots__ = ()

    def _item(self, word: int) -> Link:
        spelt, to = divmod(word, MAX_RECORDS)
        label, from_ = divmod(spelt, MAX_RECORDS)
        return Link(from_, _letter(label), to)


def _letter(label: int) -> str:
    return chr(ord("a") + label % 26)


def copied(words: ctypes.Array[Any], count: int) -> array[int]:
    """The first words of a lent space, or all of them if they are fewer, copied."""
    copy = array("Q" if ctypes.sizeof(words._type_) == 8 else "I")
    # A view of no words cannot be cast.
    if min(count, len(words)) > 0:
        copy.frombytes(memoryview(words).cast("B")[: count * copy.itemsize])
    return copy
