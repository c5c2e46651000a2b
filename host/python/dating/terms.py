"""What calls are asked with and answered by, by name: edits, generations, ties, limits."""

from __future__ import annotations

from operator import index
from typing import NamedTuple

from .arguments import label, number
from .items import Link, Steps

ADD, REMOVE, LOCK, UNLOCK, UNDO, WITHDRAW, REINSTATE = 2, 3, 4, 5, 6, 10, 11
"""The kinds of edits and undo, as the program's frames number them."""

KINDS = {"add": ADD, "remove": REMOVE, "lock": LOCK, "unlock": UNLOCK, "undo": UNDO, "withdraw": WITHDRAW, "reinstate": REINSTATE}
"""The kinds by the words that are typed."""
_WORDS = {kind: word for word, kind in KINDS.items()}
_OPPOSITE = {ADD: REMOVE, REMOVE: ADD, LOCK: UNLOCK, UNLOCK: LOCK, WITHDRAW: REINSTATE, REINSTATE: WITHDRAW}


class Edit(NamedTuple):
    """An edit or undo by name, for `Register.apply` and `Register.preview`.

    >>> Edit.add(0, "a", 1)
    Edit(kind=2, from_=0, letter='a', to=1)
    >>> print(Edit.add(0, "a", 1), Edit.lock(3), Edit.undo(), sep="; ")
    add 0 a 1; lock 3; undo
    """

    kind: int
    """As the program's frames number it."""
    from_: int = 0
    """Or the record, of an edit that has one alone."""
    letter: str = "a"
    to: int = 0

    @classmethod
    def add(cls, from_: int, letter: str, to: int) -> Edit:
        """As `Register.add`."""
        return cls(ADD, from_, letter, to)

    @classmethod
    def remove(cls, from_: int, letter: str, to: int) -> Edit:
        """As `Register.remove`."""
        return cls(REMOVE, from_, letter, to)

    @classmethod
    def lock(cls, record: int) -> Edit:
        """As `Register.lock`."""
        return cls(LOCK, record)

    @classmethod
    def unlock(cls, record: int) -> Edit:
        """As `Register.unlock`."""
        return cls(UNLOCK, record)

    @classmethod
    def undo(cls) -> Edit:
        """As `Register.undo`."""
        return cls(UNDO)

    @classmethod
    def withdraw(cls, record: int) -> Edit:
        """As `Register.withdraw`."""
        return cls(WITHDRAW, record)

    @classmethod
    def reinstate(cls, record: int) -> Edit:
        """As `Register.reinstate`."""
        return cls(REINSTATE, record)

    @property
    def word(self) -> str:
        """The word by which it is typed; empty for an unknown kind."""
        return _WORDS.get(self.kind, "")

    @property
    def has_link(self) -> bool:
        """Whether it is of a link, and not of a record alone."""
        return self.kind in (ADD, REMOVE)

    @property
    def link(self) -> Link:
        """The link that it is of."""
        return Link(self.from_, self.letter, self.to)

    @property
    def opposite(self) -> Edit:
        """The edit that takes it back."""
        return self._replace(kind=_OPPOSITE[self.kind])

    def packed(self) -> int:
        """The word of a history: the kind in bits 40 and up, from or the record in 24 to 39, the label in 16 to 23, to in 0 to 15."""
        return number(self.kind) << 40 | number(self.from_) << 24 | label(self.letter) << 16 | number(self.to)

    def __str__(self) -> str:
        if self.kind == UNDO:
            return self.word
        return f"{self.word} {index(self.from_)} {self.letter} {index(self.to)}" if self.has_link else f"{self.word} {index(self.from_)}"


class Generations(NamedTuple):
    """The answer to `Register.generations`: numbers, or a loop."""

    numbers: dict[int, int] | None
    """The length of the longest run of links that ends at each record in use; none if some record
    can return to itself.
    """
    loop: Steps | None
    """The first of the shortest loops of the smallest record that can return to itself, from that
    record on; none if no record can.
    """


class Tie(NamedTuple):
    """The second record begins at least `least` and at most `most` rings after the first, each from
    −20,000 to 20,000.
    """

    first: int
    second: int
    least: int
    most: int


class Limits(NamedTuple):
    """How many rings a record begins after the base: the narrowest limits that hold in every
    placing that meets all ties.
    """

    least: int
    most: int
