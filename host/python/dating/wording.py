"""Why an edit or a question is refused, in words that fit it and name the record or the link."""

from __future__ import annotations

from typing import TYPE_CHECKING

from .refusal import Cause
from .terms import Edit
from .texts import Named, count, link

if TYPE_CHECKING:
    from .questions import Questions

# What a number means for some requests; for any request if none is named. `{last}` is the last record. What is not here has the general words.
_WORDS: list[tuple[Cause, tuple[str, ...], str]] = [
    (Cause.SIZE, (), "a register has 1 to 1,024 records"),
    (Cause.RECORD, ("add", "remove"), "an end of the link is no record: records are 0 to {last}"),
    (Cause.RECORD, ("chain", "draw", "why", "hangs"), "an end of the chain is no record: records are 0 to {last}"),
    (Cause.RECORD, ("support",), "the core or an anchor is no record: records are 0 to {last}"),
    (Cause.RECORD, ("offsets",), "the base or a record of a tie is no record: records are 0 to {last}"),
    (Cause.RECORD, (), "there is no such record: records are 0 to {last}"),
    (Cause.LABEL, ("generations", "draw", "loops"), "the letters are not all small, a to z; they are typed together, as in tom"),
    (Cause.LABEL, (), "the letter is no small letter, a to z"),
    (Cause.LOCKED, ("withdraw",), "the record is locked"),
    (Cause.LOCKED, (), "an end of the link is locked"),
    (Cause.ALREADY, ("add",), "the link is there already"),
    (Cause.ALREADY, ("lock",), "the record is locked already"),
    (Cause.ALREADY, ("withdraw",), "the record is withdrawn already"),
    (Cause.ABSENT, ("remove",), "the link is not there"),
    (Cause.ABSENT, ("unlock",), "the record is not locked"),
    (Cause.ABSENT, ("reinstate",), "the record is in use"),
    (Cause.FULL, (), "4,096 links are there, which is the most"),
    (Cause.NOT_OPENED, (), "no register is opened; open N begins one, as in open 9"),
    (Cause.WITHDRAWN, ("add", "remove"), "an end of the link is withdrawn"),
    (Cause.WITHDRAWN, ("offsets",), "the base or a record of a tie is withdrawn"),
    (Cause.ANCHORS, (), "the anchors are out of order or repeated; they are typed ascending, each once"),
]


def words(cause: Cause, word: str, n: int) -> str:
    """The words for a request of this word in a register of n records.

    >>> words(Cause.LOCKED, "add", 9), words(Cause.RECORD, "lock", 9)
    ('an end of the link is locked', 'there is no such record: records are 0 to 8')
    """
    found = (said for other, requests, said in _WORDS if other == cause and (not requests or word in requests))
    return next(found, cause.meaning).replace("{last}", str(max(n, 1) - 1))


def of_edit(register: Questions, edit: Edit, cause: Cause, named: Named = str) -> str:
    """Why the register refuses the edit: the words, and which record or link is meant where the edit alone does not tell."""
    said = words(cause, edit.word, register.size)
    which = ""
    if cause in (Cause.LOCKED, Cause.WITHDRAWN) and edit.has_link:
        asked = register.is_locked if cause == Cause.LOCKED else register.is_withdrawn
        which = " and ".join(named(end) for end in dict.fromkeys((edit.from_, edit.to)) if asked(end))
    elif cause == Cause.TOUCHED:
        links = register.links_of(edit.from_)
        which = link(links[0], named) + (f" and {count(len(links) - 1, 'other')}" if len(links) > 1 else "")
    return f"{said}: {which}" if which else said
