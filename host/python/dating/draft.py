"""Edits that are not made yet."""

from __future__ import annotations

from collections.abc import Sequence
from types import TracebackType

from .questions import State
from .refusal import Cause, Refusal
from .register import Register
from .terms import UNDO, Edit


class Draft(Register):
    """A register as it would be with some edits made, which are made all or none when the block ends.

    >>> register = Register(3)
    >>> register.lock(2)
    >>> with register.draft() as draft:
    ...     draft.unlock(2)
    ...     draft.add(1, "m", 2)
    ...     draft.cancel()
    >>> register.is_locked(2), len(register.links())
    (True, 0)

    An edit that would be refused is refused here, and is not in the draft. `undo` takes the draft's own latest edit out of it, never an edit of the
    register. At the end the edits are made on the register as it then is: if one is refused, because another person's edit came between, none is made, and
    `Refusal.place` tells which it was.
    """

    __slots__ = ("edits", "_of", "_ended")

    edits: list[Edit]
    """What has been drafted, in order."""

    def __init__(self, register: Register) -> None:
        copy = register.__copy__()
        self._keep(copy._words)
        self._reach = None
        self.edits = []
        self._of = register
        self._ended = False

    def _make(self, edits: Sequence[Edit], listed: bool) -> None:
        with self._turn:
            if self._ended:
                raise ValueError("the draft has ended")
            if any(edit.kind == UNDO for edit in edits):
                self._take_back(edits, listed)
            else:
                super()._make(edits, listed)
                self.edits += edits

    def _take_back(self, edits: Sequence[Edit], listed: bool) -> None:
        """Takes the latest edit out: those before it are made again on a copy of the register."""
        if len(edits) > 1:
            raise ValueError("undo stands alone in a draft")
        if not self.edits:
            raise Refusal(Cause.NONE_HELD, "the draft has no edit to take back", 0 if listed else None)
        self._renew(self.edits[:-1])

    def _renew(self, edits: list[Edit]) -> None:
        again = Draft(self._of)
        again.apply(edits)
        self._words, self.edits = again._words, edits

    def renew(self) -> None:
        """Has questions answered as if the draft were made on the register as it is now. An edit that would now be refused is, and nothing has changed."""
        with self._turn:
            self._renew(self.edits)

    def _write(self, line: str, state: State, reach: int | None) -> None:
        if line == "close":
            raise ValueError("a draft closes up no numbers")
        super()._write(line, state, reach)

    def cancel(self) -> None:
        """Throws the draft away: nothing is made at the end of the block."""
        self.edits, self._ended = [], True

    def save(self) -> None:
        """Makes all edits or none. Refused, the draft is still there, to be mended."""
        self._of.apply(self.edits)
        self._ended = True

    def __enter__(self) -> Draft:
        return self

    def __exit__(self, kind: type[BaseException] | None, error: BaseException | None, traceback: TracebackType | None) -> None:
        if kind is not None:
            self.cancel()
        elif not self._ended:
            self.save()
