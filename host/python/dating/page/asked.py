"""The questions of the page: each is answered in words, as rows, and as a picture where there is one. None is said in words, with how far it goes and where
it stops.
"""

from __future__ import annotations

from collections.abc import Callable, Sequence
from typing import Any, NamedTuple, cast

from .. import explain, expressions
from ..arguments import text as spelt
from ..items import Steps
from ..kept import Kept
from ..names import Names
from ..register import Register
from ..shell import answers
from ..shell.session import Session
from ..shell.words import Fault, Words
from ..texts import chain as drawn
from ..texts import count
from . import picture
from .fields import Fields

PART = 500
"""The rows of one part of a long list."""
MOST_HUNG = 64
"""The most records of a chain of which it is asked whether it hangs on them."""
_MOST_ROWS = 12


class Reading(Session):
    """A register as it stood at one moment, with its mark and names, for the questions of the shell and the page."""

    def __init__(self, copy: Register, mark: str, names: Names) -> None:
        # It is asked alone, and never changed.
        self.register, self.mark, self.names = cast(Kept, copy), mark, names

    def opened(self) -> Kept:
        return self.register


class Answer(NamedTuple):
    """What is said to a question."""

    found: bool
    """Whether there is anything; if not, the lines say so, and why."""
    lines: list[str]
    head: list[str] = []
    rows: Sequence[Any] = ()
    total: int = 0
    steps: Steps | None = None
    picture: str = ""
    remark: str = ""


def ask(reading: Reading, given: dict[str, str], width: int) -> Answer:
    """The answer to a question, whose kind is among `KINDS`."""
    kind = given.get("kind", "")
    if kind not in KINDS:
        raise Fault(f"a question is one of {', '.join(KINDS)}")
    return KINDS[kind](reading, Fields(given, reading.names), width)


def request(reading: Reading, given: dict[str, str]) -> str:
    """The question as it is typed in the shell."""
    kind = given.get("kind", "")
    keys = {"chain": ["from", "to", "expression"], "hangs": ["from", "to", "expression"], "support": ["record", "expression", "anchors"]}
    found = keys.get(kind, ["record", "expression"] if kind in ("ends", "starts") else ["expression"] if kind == "pairs" else ["letters"])
    if kind == "links":
        found = ["which"]
    words = [given.get(key, "").strip().replace(",", " ") for key in found]
    return " ".join([{"chain": "why"}.get(kind, kind), *(word for word in words if word)])


def _unbroken(text: str) -> list[str]:
    """Lines as the page breaks them itself."""
    return text.replace("\n    ", " ").rstrip("\n").split("\n")


def _chain_rows(reading: Reading, steps: Steps) -> list[list[Any]]:
    ends = [steps.start, *(step.reached for step in steps)]
    rows: list[list[Any]] = []
    for place, (at, step) in enumerate(zip(ends, steps), 1):
        first, second = (at, step.reached) if step.forward else (step.reached, at)
        link = f"{reading.named(first)} -{step.letter}-> {reading.named(second)}"
        rows.append([place, link, "forward" if step.forward else "against its sense", reading.named(step.reached)])
    return rows


def _of_steps(reading: Reading, steps: Steps, lines: list[str], width: int) -> Answer:
    shown, remark = "", f"the chain has {len(steps):,} steps, which no one can read in a picture: {picture.MOST_STEPS} are the most; the steps are listed"
    if len(steps) <= picture.MOST_STEPS:
        shown, remark = picture.of_chain(steps, reading.register._marks(), reading.names, width), ""
    rows = _chain_rows(reading, steps)
    return Answer(True, lines, ["step", "link", "crossed", "reaches"], rows, len(rows), steps, shown, remark)


def _chain(reading: Reading, fields: Fields, width: int) -> Answer:
    from_, to, expression = fields.record("from", "From"), fields.record("to", "To"), fields.text("expression", "Expression")
    return _why(reading, explain.Why(reading.register, from_, to, expression), width)


def _why(reading: Reading, why: explain.Why, width: int) -> Answer:
    lines = _unbroken(why.text(reading.named))
    if why.steps is not None:
        return _of_steps(reading, why.steps, lines, width)
    rows: list[picture.Row] = []
    for reach in why.reaches:
        head = f"by {'/'.join(reach.parts)}, " if len(why.reaches) > 1 else ""
        rows.append(picture.Row(f"{head}from {why.from_}", why.from_, reach.parts, reach.onward, why.to, True))
        rows.append(picture.Row(f"{head}back from {why.to}", why.to, reach.parts[::-1], reach.back, why.from_, False))
    return _none(reading, lines, rows, width)


def _none(reading: Reading, lines: list[str], rows: list[picture.Row], width: int) -> Answer:
    remark = f"of {len(rows)} rows the first {_MOST_ROWS} are drawn; the words have all" if len(rows) > _MOST_ROWS else ""
    return Answer(False, lines, picture=picture.of_rows(rows[:_MOST_ROWS], reading.register._marks(), reading.names, width) if rows else "", remark=remark)


def _hangs(reading: Reading, fields: Fields, width: int) -> Answer:
    from_, to, expression = fields.record("from", "From"), fields.record("to", "To"), fields.text("expression", "Expression")
    register = reading.register
    steps = register.chain(from_, to, expression)
    if steps is None:
        return _why(reading, explain.Why(register, from_, to, expression), width)
    passed = {step.reached for step in steps} - {from_, to}
    if len(passed) > MOST_HUNG:
        typed = request(reading, dict(fields.given))
        raise Fault(f"the chain passes {len(passed):,} records, and {MOST_HUNG} are asked here at most; the shell asks them all: {typed}")
    _, cores = explain.hangs(register, from_, to, expression)
    between = "there is another way round each record between its ends" if passed else "there is no record between its ends"
    named = ", ".join(map(reading.named, cores))
    lines = [*_unbroken(drawn(steps, reading.named)), f"it hangs on each of: {named}" if cores else f"it hangs on none: {between}"]
    answer = _of_steps(reading, steps, lines, width)
    return answer._replace(head=["it hangs on"], rows=[[reading.named(core)] for core in cores], total=len(cores))


def _missing(reading: Reading, expression: str) -> list[str]:
    """Letters of an expression that no link has."""
    totals = reading.register.totals()
    gone = [letter for letter in expressions.letters(spelt(expression)) if letter not in totals]
    return [f"no link has the letter {' or '.join(gone)}"] if gone else []


def _side(reading: Reading, fields: Fields, width: int, which: str) -> Answer:
    record, expression = fields.record("record", "Record"), fields.text("expression", "Expression")
    register, named = reading.register, reading.named
    found = register.ends(record, expression) if which == "ends" else register.starts(record, expression)
    if found:
        lead = f"lead from {named(record)}" if which == "ends" else f"lead to {named(record)}"
        line = f"{count(len(found), 'record')}: chains {lead}"
        return Answer(True, [line], ["record"], [[named(each)] for each in found], len(found))
    lead = "from it leads anywhere" if which == "ends" else "leads to it from anywhere"
    if register.is_withdrawn(record):
        return Answer(False, [f"no records: {named(record)} is withdrawn"])
    lines, rows = [f"no records: no chain of any length {lead.replace('it', named(record), 1)}", *_missing(reading, expression)], []
    alternatives = expressions.alternatives(spelt(expression))
    for parts in alternatives:
        head = f"by {b'/'.join(parts).decode()}, " if len(alternatives) > 1 else ""
        reached = explain.onward(register, record, parts) if which == "ends" else explain.back(register, record, parts)
        words = [part.decode() for part in (parts if which == "ends" else parts[::-1])]
        told = [f"{part} {'reaches' if which == 'ends' else 'from'} {_some(records, named)}" for part, records in zip(words, reached)]
        lines.append(f"{head}{'from' if which == 'ends' else 'to'} {named(record)}: {('; then ' if which == 'ends' else '; before it ').join(told)}")
        rows.append(picture.Row(f"{head}{'from' if which == 'ends' else 'back from'} {record}", record, words, reached, None, which == "ends"))
    return _none(reading, lines, rows, width)


def _some(records: list[int], named: Callable[[int], str]) -> str:
    if not records:
        return "none"
    shown = ", ".join(map(named, records[:20]))
    return shown if len(records) <= 20 else f"{shown} and {len(records) - 20:,} more"


def _pairs(reading: Reading, fields: Fields, width: int) -> Answer:
    expression = fields.text("expression", "Expression")
    first = fields.number("first", 0, 1 << 20, 0)
    register = reading.register
    found = register.pairs(expression, first + PART)
    if found.total:
        rows = [[reading.named(from_), reading.named(to)] for from_, to in found[first : first + PART]]
        # Rows before the part that is asked for are not made.
        return Answer(True, [count(found.total, "pair")], ["from", "to"], _Part(first, rows), found.total)
    lines = ["no pairs: no chain of any length joins two records, nor one to itself", *_missing(reading, expression)]
    alternatives = expressions.alternatives(spelt(expression))
    for parts in alternatives:
        head = f"by {b'/'.join(parts).decode()}, " if len(alternatives) > 1 else ""
        told: list[str] = []
        for last in range(1, len(parts) + 1):
            total = register.pairs(b"/".join(parts[:last]), 0).total
            told.append(f"{parts[last - 1].decode()} joins {count(total, 'pair') if total else 'none'}")
            if not total:
                break
        lines.append(head + "; then ".join(told))
    return Answer(False, lines)


class _Part(Sequence[Any]):
    """Some rows of a longer list, at their place in it."""

    def __init__(self, first: int, rows: list[Any]) -> None:
        self.first, self.rows = first, rows

    def __len__(self) -> int:
        return self.first + len(self.rows)

    def __getitem__(self, at: Any) -> Any:
        return self.rows[at.start - self.first : at.stop - self.first]


def _support(reading: Reading, fields: Fields, width: int) -> Answer:
    record, expression = fields.record("record", "Core"), fields.text("expression", "Expression")
    anchors = sorted(set(fields.records("anchors", "Anchors")))
    found = reading.register.sole_support(record, expression, anchors)
    to = f"joined to {_some(anchors, reading.named)}" if anchors else "no anchor is given"
    gone = [end for end in dict.fromkeys([record, *anchors]) if reading.register.is_withdrawn(end)]
    lines = [f"withdrawn: {_some(gone, reading.named)}"] if gone else []
    if not found:
        return Answer(False, [f"no record hangs on {reading.named(record)} alone ({to})", *lines])
    some = f"{count(len(found), 'record')} {'hangs' if len(found) == 1 else 'hang'} on {reading.named(record)} alone ({to})"
    return Answer(True, [some, *lines], ["record"], [[reading.named(each)] for each in found], len(found))


def _letters(fields: Fields) -> str:
    return "".join(dict.fromkeys(fields.text("letters", "Letters").replace(",", " ").replace(" ", "")))


def _loops(reading: Reading, fields: Fields, width: int) -> Answer:
    told = answers.loops(reading, Words(_letters(fields), reading.names))
    lines, records = _unbroken(told.text), told.data["records"]
    loop = reading.register.generations(_letters(fields)).loop
    if loop is None:
        return Answer(False, lines)
    answer = _of_steps(reading, loop, lines, width)
    return answer._replace(head=["returns to itself"], rows=[[reading.named(record)] for record in records], total=len(records))


def _generations(reading: Reading, fields: Fields, width: int) -> Answer:
    letters = _letters(fields)
    numbers, loop = reading.register.generations(letters)
    if loop is not None:
        return _of_steps(reading, loop, _unbroken(answers.generations(reading, Words(letters)).text), width)
    if not numbers:
        return Answer(False, ["no record is in use"])
    line = f"{count(len(numbers), 'record')} in use; the longest run of links {' '.join(letters)} to each"
    return Answer(True, [line], ["record", "longest run"], [[reading.named(record), number] for record, number in numbers.items()], len(numbers))


def _links(reading: Reading, fields: Fields, width: int) -> Answer:
    which = fields.given.get("which", "").strip()
    quoted = f'"{which}"' if " " in which and '"' not in which else which
    rows = answers.links(reading, Words(quoted, reading.names)).data["links"]
    of = f" {which}" if len(which) == 1 and not which.isdigit() else f" at {which}" if which else ""
    shown = [[reading.named(link.from_), reading.names.letter(link.letter), reading.named(link.to)] for link in rows]
    return Answer(bool(rows), [f"{count(len(rows), 'link')}{of}"], ["from", "letter", "to"], shown, len(rows))


def _ends(reading: Reading, fields: Fields, width: int) -> Answer:
    return _side(reading, fields, width, "ends")


def _starts(reading: Reading, fields: Fields, width: int) -> Answer:
    return _side(reading, fields, width, "starts")


KINDS: dict[str, Callable[[Reading, Fields, int], Answer]] = {
    "chain": _chain,
    "ends": _ends,
    "starts": _starts,
    "pairs": _pairs,
    "hangs": _hangs,
    "support": _support,
    "loops": _loops,
    "generations": _generations,
    "links": _links,
}
