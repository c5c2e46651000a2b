"""Why a call was refused."""

from __future__ import annotations

from enum import IntEnum


class Cause(IntEnum):
    """The cause of a refusal, with the engine's number for it.

    >>> Cause.LOCKED
    <Cause.LOCKED: 4>
    >>> Cause.LOCKED.meaning
    'an end of the link, or the record to withdraw, is locked'
    """

    SIZE = 1
    RECORD = 2
    LABEL = 3
    LOCKED = 4
    ALREADY = 5
    ABSENT = 6
    FULL = 7
    NONE_HELD = 8
    GRAMMAR = 9
    LIMITS = 10
    TREE = 11
    WORK = 12
    LIST = 13
    FRAME = 14
    KIND = 15
    NOT_OPENED = 16
    TOUCHED = 17
    WITHDRAWN = 18
    TIE = 19
    ANCHORS = 20
    NONE_IN_USE = 21

    @property
    def meaning(self) -> str:
        """What the number means, in the words of `host/src/refusal.rs`."""
        return _MEANINGS[self]


_MEANINGS = {
    Cause.SIZE: "the number of records is outside 1 to 1,024",
    Cause.RECORD: "a record is not below the number of records",
    Cause.LABEL: "the label is above 25: it is no letter from a to z",
    Cause.LOCKED: "an end of the link, or the record to withdraw, is locked",
    Cause.ALREADY: "the link is present, or the record is locked or withdrawn, already",
    Cause.ABSENT: "the link is absent, the record is not locked, or the record to reinstate is in use",
    Cause.FULL: "4,096 links are present",
    Cause.NONE_HELD: "no edit is held that could be undone",
    Cause.GRAMMAR: "the expression is outside the grammar",
    Cause.LIMITS: "the expression is over 256 bytes, 63 letters or 8 deep",
    Cause.TREE: "the tree is not well formed",
    Cause.WORK: "the work is shorter than stated",
    Cause.LIST: "the chain, the loop, the tree, the numbers, the records, the offsets or the pages are longer than the space for them",
    Cause.FRAME: "the frame is broken, or the bytes are not the pages of the expression",
    Cause.KIND: "the kind is unknown",
    Cause.NOT_OPENED: "no register is opened: the words are not those of a register",
    Cause.TOUCHED: "a link touches the record to withdraw",
    Cause.WITHDRAWN: "the record is withdrawn",
    Cause.TIE: "a tie is outside −20,000 to 20,000, has its least above its most, or is beyond the 1,024th",
    Cause.ANCHORS: "the anchors are out of order or repeated",
    Cause.NONE_IN_USE: "no record is in use",
}


class Refusal(Exception):
    """A call was refused with the first of its causes, and nothing was changed.

    >>> from dating import Register
    >>> try:
    ...     Register(3).lock(7)
    ... except Refusal as refusal:
    ...     print(refusal.number, refusal.cause.name, refusal.meaning, sep="; ")
    2; RECORD; there is no such record: records are 0 to 2
    """

    # As people name it, in a traceback too.
    __module__ = "dating"

    cause: Cause
    """Why, by name."""
    place: int | None
    """Which of a list of edits was refused, from 0; none if no list was made."""
    mark: str
    """A faulty expression with a mark under the byte at which it cannot go on, two lines; else empty."""

    def __init__(self, number: int, words: str | None = None, place: int | None = None, mark: str = "") -> None:
        super().__init__(number, words, place, mark)
        self.cause = Cause(number)
        self.place = place
        self.mark = mark
        self._words = words

    @property
    def number(self) -> int:
        """Why, by number."""
        return self.cause.value

    @property
    def meaning(self) -> str:
        """Why, in words that fit the call; the general ones of `Cause.meaning` if there are no others."""
        return self.cause.meaning if self._words is None else self._words

    def __str__(self) -> str:
        text = f"refused {self.number}: {self.meaning}"
        return f"{text}\n{self.mark}" if self.mark else text
