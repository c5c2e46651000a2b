"""The register."""

from __future__ import annotations

import ctypes
from array import array
from collections.abc import Callable, Iterable, Iterator, Sequence
from itertools import islice
from typing import TYPE_CHECKING, Any

from . import calls
from .arguments import number
from .calls import done, refused_at
from .items import Links, Steps, copied
from .questions import Questions, State
from .refusal import Cause, Refusal
from .terms import UNDO, Edit
from .wording import of_edit, words

if TYPE_CHECKING:
    from .draft import Draft
    from .explain import Why

MOST_HELD = 256
"""The most edits that are held for undo."""

# What words that are kept begin with: a mark, "DATR" in bytes, and a version. Then how many edits undo may reach; _ALL if all that are held.
_MARK = int.from_bytes(b"DATR", "little")
_VERSION = 1
_ALL = (1 << 32) - 1
_HEAD = 3


class Register(Questions):
    """A register of n records, 0 to n − 1: its links, its locked and withdrawn records, and the
    latest 256 edits.

    >>> register = Register(4)
    >>> register.add(0, "a", 1)
    >>> register.add(2, "a", 1)
    >>> register.add(1, "b", 3)
    >>> list(register.pairs("a/^a"))
    [(0, 0), (0, 2), (2, 0), (2, 2)]
    >>> print(register.chain(0, 3, "a/b"))
    0 -a-> 1 -b-> 3 (2 steps)

    Records are numbers, letters are "a" to "z", an expression is text or bytes. A call that cannot
    be done raises `Refusal` with the first of its causes, and changes nothing. Any number that is
    no record's is refused with 2, also below 0 or above 65,535; True and False are no records. An
    argument of a wrong type raises TypeError.

    Two registers are equal if they have the same records, links, locks, withdrawn records and held
    edits. A register can be copied (`copy.copy`) and pickled, held edits too. It keeps the space
    that questions need, up to 10 MB for 1,024 records. Calls from several threads are made one
    after the other. A call takes at most 464 KB of stack.
    """

    __slots__ = ("_reach",)

    # How many edits undo may take back, if a sheet was read: undo does not reach into it. None for all that are held.
    _reach: int | None

    def __init__(self, n: int) -> None:
        """A register of n records, n from 1 to 1,024, with no links and no locks, and every record
        in use.
        """
        self._keep(fresh(n))
        self._reach = None

    @classmethod
    def of_words(cls, words: Iterable[int]) -> Register:
        """A register from the words of one, as `words` gives them. What is promised is promised of
        words that a register had; any others do no harm, and those of another version are told.

        >>> register = Register(3)
        >>> register.add(0, "a", 1)
        >>> kept = register.words().tobytes()
        >>> from array import array
        >>> list(Register.of_words(array("I", kept)).pairs("a"))
        [(0, 1)]
        """
        if isinstance(words, (str, bytes, bytearray)):
            raise TypeError(f"words are numbers, not {type(words).__name__}")
        try:
            given = array("I", islice(words, _HEAD + calls.STATE_WORDS))
        except OverflowError:
            raise Refusal(Cause.NOT_OPENED) from None
        if len(given) < _HEAD or given[0] != _MARK:
            raise Refusal(Cause.NOT_OPENED, "no register is opened: the words have no mark of a register")
        if given[1] != _VERSION:
            raise Refusal(Cause.NOT_OPENED, f"no register is opened: the words are of version {given[1]}, and this package reads version {_VERSION}")
        state = (ctypes.c_uint32 * (len(given) - _HEAD)).from_buffer_copy(given[_HEAD:]) if len(given) > _HEAD else calls.words(0)
        if calls.size(state) == 0:
            raise Refusal(Cause.NOT_OPENED)
        return plain(state, None if given[2] == _ALL else given[2])

    def words(self) -> array[int]:
        """The words, to be kept, with a mark and a version before them; `of_words` takes them."""
        with self._turn:
            head = array("I", [_MARK, _VERSION, _ALL if self._reach is None else self._reach])
            return head + copied(self._words, calls.STATE_WORDS)

    def __reduce__(self) -> tuple[Any, ...]:
        return (Register.of_words, (self.words(),))

    def __copy__(self) -> Register:
        with self._turn:
            return plain(type(self._words).from_buffer_copy(self._words), self._reach)

    def __eq__(self, other: object) -> bool:
        if not isinstance(other, Register):
            return NotImplemented
        return self._key() == other._key()

    # It changes, so it is no key of a dictionary.
    __hash__ = None  # type: ignore[assignment]

    def _key(self) -> tuple[Any, ...]:
        with self._turn:
            return (self._marks(), self.links(), self.held)

    # Changes

    def _change(self, change: Callable[[State], Any], line: str, reach: int | None) -> Any:
        """Makes a change on a copy of the words, has it written, and then takes the copy. A call that is refused, or that cannot be written, raises, and
        nothing has changed.
        """
        with self._turn:
            state = type(self._words).from_buffer_copy(self._words)
            answer = change(state)
            self._write(line, state, reach)
        return answer

    def _write(self, line: str, state: State, reach: int | None) -> None:
        """Has a change written where the register is kept, and takes it."""
        self._words, self._reach = state, reach

    def apply(self, edits: Edit | Iterable[Edit]) -> None:
        """Makes an edit, or a list of them, all or none: if one is refused, none is made, and `Refusal.place` tells which it was.

        >>> register = Register(3)
        >>> register.lock(2)
        >>> register.apply([Edit.add(0, "a", 1), Edit.unlock(2), Edit.add(1, "a", 2)])
        >>> [str(link) for link in register.links()]
        ['0 a 1', '1 a 2']
        """
        if isinstance(edits, Edit):
            return self._make([edits], False)
        self._make([_edit(edit) for edit in edits], True)

    def _make(self, edits: Sequence[Edit], listed: bool) -> None:
        packed = [edit.packed() for edit in edits]
        with self._turn:
            reach, stop = reached(self._reach, edits)
            lent = (ctypes.c_uint64 * len(packed[:stop]))(*packed[:stop])

            def change(state: State) -> None:
                found = refused_at(calls.apply_all(state, lent))
                if found is None and stop is not None:
                    found = stop, Cause.NONE_HELD.value
                if found is not None:
                    raise self._refusal(edits, *found, listed)

            if edits:
                line = str(edits[0]) if len(edits) == 1 else "do " + ", ".join(map(str, edits))
                # What is refused may have no words for a line; then none is written.
                self._change(change, line, reach)

    def _refusal(self, edits: Sequence[Edit], place: int, found: int, listed: bool) -> Refusal:
        """A refusal in words that fit the register as the edits before have made it."""
        if place >= len(edits):
            return Refusal(found)
        before: Questions = self
        if place:
            state = type(self._words).from_buffer_copy(self._words)
            calls.apply_all(state, (ctypes.c_uint64 * place)(*(edit.packed() for edit in edits[:place])))
            before = plain(state, None)
        cause = Cause(found)
        said = words(cause, "", 0) if cause == Cause.NOT_OPENED else of_edit(before, edits[place], cause)
        return Refusal(found, said, place if listed else None)

    def add(self, from_: int, letter: str, to: int) -> None:
        """Puts a link in."""
        self._make([Edit.add(from_, letter, to)], False)

    def remove(self, from_: int, letter: str, to: int) -> None:
        """Takes a link out."""
        self._make([Edit.remove(from_, letter, to)], False)

    def lock(self, record: int) -> None:
        """Locks a record: links at it are neither added nor removed."""
        self._make([Edit.lock(record)], False)

    def unlock(self, record: int) -> None:
        """Takes the lock of a record away."""
        self._make([Edit.unlock(record)], False)

    def withdraw(self, record: int) -> None:
        """Withdraws a record that no link touches and that is not locked. It takes no link and no
        lock then, and supports nothing, not even itself: zero steps do not join it, and no chain
        begins or ends there.

        >>> register = Register(2)
        >>> register.withdraw(1)
        >>> list(register.pairs("a*"))
        [(0, 0)]
        >>> register.reinstate(1)
        >>> list(register.pairs("a*"))
        [(0, 0), (1, 1)]
        """
        self._make([Edit.withdraw(record)], False)

    def reinstate(self, record: int) -> None:
        """Takes a withdrawn record into use again."""
        self._make([Edit.reinstate(record)], False)

    def undo(self) -> None:
        """Takes back the latest edit that is still held: of a link, a lock or a withdrawn record.
        At most 256 are held.
        """
        self._make([Edit.undo()], False)

    def close_up(self) -> list[int | None]:
        """Numbers the records in use from 0 in their old order, and lowers the number of records to
        their count; links, locks and totals follow. The new number of each old one, None for a
        withdrawn record. Held edits are dropped, also if no record was withdrawn.

        >>> register = Register(4)
        >>> register.add(1, "a", 3)
        >>> register.withdraw(0)
        >>> register.withdraw(2)
        >>> register.close_up(), register.size, list(register.links())
        ([None, 0, None, 1], 2, [Link(from_=0, letter='a', to=1)])
        """
        with self._turn:
            numbers = (ctypes.c_uint16 * self._size())()
            self._change(lambda state: done(calls.close_up(state, numbers)), "close", None)
        return new_numbers(numbers)

    def closed_up(self) -> list[int | None]:
        """What `close_up` would give; nothing is changed."""
        with self._turn:
            numbers = (ctypes.c_uint16 * self._size())()
            done(calls.close_up(type(self._words).from_buffer_copy(self._words), numbers))
        return new_numbers(numbers)

    @property
    def held(self) -> list[Edit]:
        """The edits that undo can take back, the latest first. They are found by undoing a copy.

        >>> register = Register(3)
        >>> register.add(0, "a", 1)
        >>> register.lock(1)
        >>> [str(edit) for edit in register.held]
        ['lock 1', 'add 0 a 1']
        """
        return list(self._held())

    def _held(self) -> Iterator[Edit]:
        copy = self.__copy__()
        reach = MOST_HELD if copy._reach is None else copy._reach
        links, marks = copy.links(), copy._marks()
        while reach > 0 and calls.undo(copy._words) == 0:
            links_before, marks_before = copy.links(), copy._marks()
            yield _between(links_before, marks_before, links, marks)
            links, marks, reach = links_before, marks_before, reach - 1

    @property
    def held_count(self) -> int:
        """How many edits undo can take back."""
        copy = self.__copy__()
        reach, found = MOST_HELD if copy._reach is None else copy._reach, 0
        while found < reach and calls.undo(copy._words) == 0:
            found += 1
        return found

    @property
    def latest_held(self) -> Edit | None:
        """The edit that undo would take back now; none if there is none."""
        return next(self._held(), None)

    def draft(self) -> Draft:
        """Edits that are collected, and made all or none at the end of the block, on the register as it then is; none if the block is left by an
        exception, or `cancel` is called. Questions to the draft are answered as if they were made.

        >>> register = Register(3)
        >>> with register.draft() as draft:
        ...     draft.add(0, "a", 1)
        ...     draft.lock(1)
        ...     print(len(register.links()), len(draft.links()))
        0 1
        >>> len(register.links())
        1
        """
        from .draft import Draft

        return Draft(self)

    def sheet(self) -> str:
        """The register as a sheet: the requests that make it again, with its counts at the end."""
        from . import sheets

        return sheets.text(self)

    @classmethod
    def of_sheet(cls, text: str) -> Register:
        """The register of a sheet; undo does not reach into it. `sheets.NoSheet` names every faulty line.

        >>> register = Register(2)
        >>> register.lock(1)
        >>> Register.of_sheet(register.sheet()).locked()
        [1]
        """
        from . import sheets

        return sheets.read(text).register()

    def drawing(self, letters: str, chain: Steps | None = None) -> str:
        """The links with these letters as text for Graphviz, by generation, with a chain in them if one is given."""
        from . import drawing

        return drawing.of_letters(self, letters, chain)

    def why(self, from_: int, to: int, expression: str | bytes) -> Why:
        """The chain between two records; if there is none, how far it goes from either end, and where it stops."""
        from .explain import Why

        return Why(self, from_, to, expression)


def fresh(n: int) -> State:
    """The words of a register of n records."""
    state = calls.words(calls.STATE_WORDS)
    try:
        done(calls.fresh(number(n), state))
    except Refusal as refusal:
        raise Refusal(refusal.cause, words(refusal.cause, "open", 0)) from None
    return state


def plain(state: State, reach: int | None) -> Register:
    """A register in memory alone, of these words."""
    register = Register.__new__(Register)
    register._keep(state)
    register._reach = reach
    return register


def new_numbers(numbers: Iterable[int]) -> list[int | None]:
    """The list of a closing up, None for a withdrawn record."""
    return [None if new == calls.NO_NUMBER else new for new in numbers]


def reached(reach: int | None, edits: Iterable[Edit]) -> tuple[int | None, int | None]:
    """How many edits undo may take back after these, and the place of the first undo that goes too far, if one does."""
    if reach is not None:
        for place, edit in enumerate(edits):
            if edit.kind == UNDO and reach == 0:
                return reach, place
            reach = reach - 1 if edit.kind == UNDO else min(reach + 1, MOST_HELD)
    return reach, None


def _edit(edit: Edit) -> Edit:
    if not isinstance(edit, Edit):
        raise TypeError(f"an edit is an Edit, as in Edit.add(0, \"a\", 1), not {type(edit).__name__}")
    return edit


def _between(links_before: Links, marks_before: list[int], links: Links, marks: list[int]) -> Edit:
    """The edit that led from one sheet to the next."""
    for record, (old, new) in enumerate(zip(marks_before, marks)):
        if old != new:
            gone, kind = (old, 1) if new == 0 else (new, 0)
            pair = (Edit.lock, Edit.unlock) if gone == calls.LOCKED else (Edit.withdraw, Edit.reinstate)
            return pair[kind](record)
    before, after = set(links_before.words()), set(links.words())
    link = Links(array("I", (before ^ after)))[0]
    return Edit.add(*link) if after - before else Edit.remove(*link)
