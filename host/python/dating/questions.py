"""What can be asked of a register; nothing here changes it."""

from __future__ import annotations

import ctypes
import threading
from collections.abc import Callable, Iterable
from typing import Any

from . import calls, expressions
from .arguments import Expression, label, number, rings, text, wanted
from .calls import counted, numbered, told
from .items import Link, Links, Pairs, Steps, copied
from .pages import page_bytes
from .refusal import Cause, Refusal
from .space import MAX_LINKS, MAX_RECORDS, Space, chain_work, longest_chain, most_pairs, room, rows_work, support_work, tree_work
from .terms import Edit, Generations, Limits, Tie
from .texts import count as many
from .wording import of_edit
from .wording import words as fitting

State = ctypes.Array[ctypes.c_uint32]
"""The words of a register."""


class Questions:
    """The words of a register, and the questions that are asked of it."""

    __slots__ = ("_words", "_space", "_turn", "__weakref__")

    _words: State

    def _keep(self, words: State) -> None:
        self._words = words
        self._space = Space()
        # Held while a call is made and its answer copied: calls let other threads run, which might ask the same register. Arguments are read before,
        # since they may have code of their own.
        self._turn = threading.RLock()

    def __repr__(self) -> str:
        with self._turn:
            links = counted(calls.links(self._words, calls.words(0)))
            return f"<{type(self).__name__}: {many(self._size(), 'record')}, {many(links, 'link')}>"

    def _size(self) -> int:
        return calls.size(self._words)

    @property
    def size(self) -> int:
        """The number of records, withdrawn ones too."""
        with self._turn:
            return self._size()

    # What the register holds

    def _marks(self) -> list[int]:
        """The mark of each record."""
        with self._turn:
            written = calls.words(self._size())
            counted(calls.marks(self._words, written))
            return written[:]

    def _is(self, call: calls.Call, record: int) -> bool:
        """Whether a record has a mark; a number that is no record's is refused."""
        asked = number(record)
        with self._turn:
            n = self._size()
            if asked >= n:
                cause = Cause.RECORD if n else Cause.NOT_OPENED
                raise Refusal(cause, fitting(cause, "", n))
            return call(self._words, asked) == 1

    def is_locked(self, record: int) -> bool:
        """Whether the record is locked."""
        return self._is(calls.locked, record)

    def is_withdrawn(self, record: int) -> bool:
        """Whether the record is withdrawn."""
        return self._is(calls.withdrawn, record)

    def locked(self) -> list[int]:
        """The locked records, ascending."""
        return [record for record, mark in enumerate(self._marks()) if mark == calls.LOCKED]

    def withdrawn(self) -> list[int]:
        """The withdrawn records, ascending.

        >>> from dating import Register
        >>> register = Register(4)
        >>> register.withdraw(1)
        >>> register.lock(2)
        >>> register.locked(), register.withdrawn()
        ([2], [1])
        """
        return [record for record, mark in enumerate(self._marks()) if mark == calls.WITHDRAWN]

    def total(self, letter: str) -> int:
        """The number of links with this letter, which the register keeps: none is counted.

        >>> from dating import Register
        >>> register = Register(3)
        >>> register.add(0, "a", 1)
        >>> register.total("a"), register.total("b")
        (1, 0)
        """
        asked = label(letter)
        with self._turn:
            return counted(calls.total(self._words, asked))

    def totals(self) -> dict[str, int]:
        """The number of links with each letter that has any.

        >>> from dating import Register
        >>> register = Register(3)
        >>> register.add(0, "t", 1)
        >>> register.totals()
        {'t': 1}
        """
        with self._turn:
            written = calls.words(26)
            counted(calls.totals(self._words, written))
        return {chr(ord("a") + place): total for place, total in enumerate(written) if total}

    def links(self) -> Links:
        """The links present."""
        with self._turn:
            written = self._space.list(MAX_LINKS)
            return Links(copied(written, counted(calls.links(self._words, written))))

    def links_of(self, record: int) -> list[Link]:
        """The links that touch a record, in the order of `links`."""
        self.is_locked(record)
        return [link for link in self.links() if record in (link.from_, link.to)]

    # Questions

    def pairs(self, expression: Expression, most: int | None = None) -> Pairs:
        """The pairs of records that the expression joins, by the faster of the two engines,
        `pairs_by_rows`. With `most`, only so many of them, the smallest; `Pairs.total` tells how
        many there are.

        >>> from dating import Register
        >>> register = Register(3)
        >>> register.add(0, "a", 1)
        >>> register.add(1, "a", 2)
        >>> list(register.pairs("a+"))
        [(0, 1), (0, 2), (1, 2)]
        >>> first = register.pairs("a+", most=1)
        >>> list(first), first.total
        ([(0, 1)], 3)
        """
        return self.pairs_by_rows(expression, most)

    def pairs_by_rows(self, expression: Expression, most: int | None = None) -> Pairs:
        """As `pairs`, by the engine on rows of bits."""
        return self._pairs(calls.pairs_by_rows, rows_work, (text(expression),), most)

    def pairs_by_trees(self, expression: Expression, most: int | None = None) -> Pairs:
        """As `pairs`, by the engine on k2-trees."""
        return self._pairs(calls.pairs, tree_work, (text(expression),), most)

    def preview(self, edit: Edit, expression: Expression, most: int | None = None) -> Pairs:
        """The pairs that the expression would join if the edit were made. It is not made. An edit
        that would be refused gives its cause, before any of the question's.

        >>> from dating import Edit, Register
        >>> register = Register(3)
        >>> register.add(0, "a", 1)
        >>> list(register.preview(Edit.add(1, "a", 2), "a+"))
        [(0, 1), (0, 2), (1, 2)]
        >>> list(register.preview(Edit.undo(), "a+")), list(register.pairs("a+"))
        ([], [(0, 1)])
        """
        if not isinstance(edit, Edit):
            raise TypeError(f"an edit is an Edit, as in Edit.add(0, \"a\", 1), not {type(edit).__name__}")
        kind, from_, letter, to = edit
        arguments = (number(kind), number(from_), label(letter), number(to), text(expression))
        try:
            return self._pairs(calls.preview, tree_work, arguments, most)
        except Refusal as refusal:
            if refusal.mark or refusal.cause in (Cause.LIMITS, Cause.NOT_OPENED):
                raise
            raise Refusal(refusal.cause, of_edit(self, edit, refusal.cause)) from None

    def _pairs(self, call: calls.Call, work: Callable[[int], int], arguments: tuple[Any, ...], most: int | None) -> Pairs:
        wished = wanted(most)
        with expressions.marked(arguments[-1]), self._turn:
            n = self._size()
            written = self._space.list(room(n, None)) if wished is None else calls.words(room(n, wished))
            total = counted(call(self._words, *arguments, self._space.work(work(n)), written))
            return Pairs(copied(written, total), total)

    def ends(self, record: int, expression: Expression) -> list[int]:
        """The records, ascending, at which a chain that spells a word of the expression ends, from this record on.

        >>> from dating import Register
        >>> register = Register(4)
        >>> register.add(0, "a", 1)
        >>> register.add(1, "a", 2)
        >>> register.ends(0, "a+"), register.starts(2, "a+")
        ([1, 2], [0, 1])
        """
        return self._side(calls.ends, record, expression)

    def starts(self, record: int, expression: Expression) -> list[int]:
        """The records, ascending, at which such a chain to this record begins."""
        return self._side(calls.starts, record, expression)

    def _side(self, call: calls.Call, record: int, expression: Expression) -> list[int]:
        asked, spelt = number(record), text(expression)
        with expressions.marked(spelt), self._turn:
            written = self._space.list(self._size())
            return written[: counted(call(self._words, asked, spelt, written))]

    def chain(self, from_: int, to: int, expression: Expression) -> Steps | None:
        """The first of the shortest chains from one record to another that spell a word of the
        expression; None if there is no chain of any length.

        >>> from dating import Register
        >>> register = Register(3)
        >>> register.add(0, "a", 1)
        >>> register.add(2, "b", 1)
        >>> print(register.chain(0, 2, "a/^b"), register.chain(2, 0, "a+"), sep=", ")
        0 -a-> 1 <-b- 2 (2 steps), None
        """
        start, end, spelt = number(from_), number(to), text(expression)
        with expressions.marked(spelt), self._turn:
            n = self._size()
            written = self._space.list(longest_chain(n))
            length = told(calls.chain(self._words, start, end, spelt, self._space.work(chain_work(n)), written))
            return None if length is None else Steps(start, copied(written, length))

    def generations(self, letters: Iterable[str]) -> Generations:
        """The length of the longest run of links with these letters, crossed forward, that ends at
        each record in use. If some record can return to itself over such links, the first loop of
        the smallest that can comes instead. Letters may stand in any order and repeat; with none of
        them every number is 0.

        >>> from dating import Register
        >>> register = Register(4)
        >>> register.add(2, "a", 0)
        >>> register.add(0, "b", 3)
        >>> register.withdraw(1)
        >>> register.generations("ab").numbers
        {0: 1, 2: 0, 3: 2}
        >>> register.add(3, "a", 0)
        >>> print(register.generations("ab").loop)
        0 -b-> 3 -a-> 0 (2 steps)
        """
        labels = bytes(map(label, letters))
        with self._turn:
            n = self._size()
            written = self._space.list(longest_chain(n))
            looped, length = numbered(calls.generations(self._words, labels, self._space.work(chain_work(n)), written))
            answer = copied(written, length)
            marks = self._marks()
        if looped:
            # Its last step reaches the record that it begins at.
            return Generations(None, Steps(answer[-1] % MAX_RECORDS, answer))
        in_use = (record for record, mark in enumerate(marks) if mark != calls.WITHDRAWN)
        return Generations(dict(zip(in_use, answer)), None)

    def sole_support(self, core: int, expression: Expression, anchors: Iterable[int]) -> list[int]:
        """The records but the core, ascending, that have a chain to some anchor, and none to any
        once the links that touch the core are gone. Locks play no part, and the register is
        unchanged. The anchors ascend, each once.

        >>> from dating import Register
        >>> register = Register(5)
        >>> for from_, to in [(1, 0), (2, 1), (3, 1), (3, 4), (4, 0)]:
        ...     register.add(from_, "o", to)
        >>> register.sole_support(1, "o+", [0])
        [2]
        """
        held, spelt, ends = number(core), text(expression), list(map(number, anchors))
        lent = (ctypes.c_uint16 * len(ends))(*ends)
        with expressions.marked(spelt), self._turn:
            n = self._size()
            written = self._space.list(n)
            count = counted(calls.sole_support(self._words, held, spelt, lent, self._space.work(support_work(n)), written))
            return written[:count]

    def pages(self, expression: Expression) -> bytes:
        """The pairs of records that the expression joins, as printed pages: lines of 72 bytes and a
        line feed, six pairs to a line, and a head with the first 60 bytes of the expression and the
        page's number before each 59 lines. `read_pages` gives the pairs back.

        >>> from dating import Register, read_pages
        >>> register = Register(3)
        >>> register.add(0, "a", 1)
        >>> register.add(1, "a", 2)
        >>> pages = register.pages("a+")
        >>> pages[73:109]
        b'    0     1     0     2     1     2 '
        >>> list(read_pages("a+", pages))
        [(0, 1), (0, 2), (1, 2)]
        """
        spelt = text(expression)
        with expressions.marked(spelt), self._turn:
            n = self._size()
            printed = (ctypes.c_uint8 * page_bytes(most_pairs(n)))()
            length = counted(calls.pages(self._words, spelt, self._space.work(tree_work(n)), printed))
        return memoryview(printed)[:length].tobytes()

    def offsets(self, base: int, ties: Iterable[tuple[int, int, int, int]]) -> list[Limits | None] | None:
        """How many rings each record begins after the base, as far as ties tell, at most 1,024 of
        them: for each record its limits, or None if no tie joins it to the base, directly or
        through others. None alone if no placing of whole years meets all ties.

        >>> from dating import Register, Tie
        >>> register = Register(3)
        >>> register.offsets(0, [Tie(first=0, second=1, least=31, most=38)])
        [Limits(least=0, most=0), Limits(least=31, most=38), None]
        >>> print(register.offsets(2, [(0, 1, 31, 38), (1, 0, 1, 5)]))
        None
        """
        start, lent = number(base), [_lent(Tie(*tie)) for tie in ties]
        with self._turn:
            n = self._size()
            work, written = (ctypes.c_int64 * chain_work(n))(), (ctypes.c_int32 * (2 * n))()
            count = told(calls.offsets(self._words, start, (calls.LentTie * len(lent))(*lent), work, written))
        if count is None:
            return None
        return [None if least > most else Limits(least, most) for least, most in zip(written[:count:2], written[1:count:2])]


def _lent(tie: Tie) -> calls.LentTie:
    return calls.LentTie(number(tie.first), number(tie.second), rings(tie.least), rings(tie.most))
