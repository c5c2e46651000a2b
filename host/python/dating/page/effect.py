"""What a draft would change in a question: what comes, and what goes."""

from __future__ import annotations

from typing import Any

from ..items import Pairs
from ..space import MAX_RECORDS
from ..texts import count
from .asked import PART, Answer, Reading, ask
from .fields import Fields

_NOUNS = {"ends": "record", "starts": "record", "pairs": "pair", "support": "record", "loops": "record", "generations": "number", "links": "link"}


def effect(now: Reading, made: Reading, given: dict[str, str]) -> dict[str, Any]:
    """What comes and what goes in a question's answer if the edits of a draft are made: in words, and the first of either."""
    kind = given.get("kind", "")
    if kind == "pairs":
        comes, goes, words = _pairs(now, made, Fields(given, now.names).text("expression", "Expression"))
        return _told(comes, goes, words)
    before, after = ask(now, given, 700), ask(made, given, 700)
    if kind in ("chain", "hangs"):
        return _chains(before, after)
    rows_before, rows_after = [_key(row) for row in before.rows], [_key(row) for row in after.rows]
    had, has = set(rows_before), set(rows_after)
    noun = _NOUNS[kind]
    words = f"{count(after.total, noun)} if the draft is made, {count(before.total, noun)} now"
    return _told([row for row in rows_after if row not in had], [row for row in rows_before if row not in has], words)


def _key(row: list[Any]) -> tuple[str, ...]:
    return tuple(map(str, row))


def _pairs(now: Reading, made: Reading, expression: str) -> tuple[list[tuple[str, ...]], list[tuple[str, ...]], str]:
    before, after = now.register.pairs(expression), made.register.pairs(expression)
    had, has = set(before.words()), set(after.words())
    words = f"{count(after.total, 'pair')} if the draft is made, {count(before.total, 'pair')} now"
    return _named(now, after, had), _named(now, before, has), words


def _named(reading: Reading, pairs: Pairs, but: set[int]) -> list[tuple[str, ...]]:
    return [tuple(map(reading.named, divmod(word, MAX_RECORDS))) for word in pairs.words() if word not in but]


def _chains(before: Answer, after: Answer) -> dict[str, Any]:
    if before.lines == after.lines:
        return _told([], [], "the answer stays as it is" if before.found else "there is no chain now, and none if the draft is made")
    if before.lines[0] == after.lines[0]:
        return _told([], [], f"{after.lines[0]}, with the draft too; what the answer tells beside that would change")
    words = "there would be a chain, and there is none now" if after.found and not before.found else ""
    words = words or ("there would be no chain any more" if before.found and not after.found else "there would be another chain")
    return _told([(after.lines[0],)] if after.found else [], [(before.lines[0],)] if before.found else [], words)


def _told(comes: list[tuple[str, ...]], goes: list[tuple[str, ...]], words: str) -> dict[str, Any]:
    return {
        "words": words if comes or goes else f"{words}: nothing comes and nothing goes",
        "comes": comes[:PART],
        "comes_total": len(comes),
        "goes": goes[:PART],
        "goes_total": len(goes),
    }
