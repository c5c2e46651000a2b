"""The questions, and what is said to them."""

from __future__ import annotations

from typing import TYPE_CHECKING, Any

from .. import drawing, explain
from ..items import Pairs, Steps
from ..refusal import Cause, Refusal
from ..register import Register
from ..space import MAX_RECORDS
from ..terms import Tie
from ..texts import chain as drawn
from ..texts import count, filled, listed
from ..texts import link as drawn_link
from . import help as helped
from .changes import apply_all
from .told import Told
from .words import Fault, Words

if TYPE_CHECKING:
    from .session import Session

_HISTORY = 20


def show(session: Session, words: Words) -> Told:
    words.end()
    register = session.opened()
    n, locked, withdrawn, totals = register.size, register.locked(), register.withdrawn(), register.totals()
    lines = [f"{count(n, 'record')}, {'all' if not withdrawn else f'{n - len(withdrawn):,}'} in use"]
    links = count(len(register.links()), "link")
    named = [f"{session.names.letter(letter)} {total:,}" for letter, total in totals.items()]
    lines.append(filled([f"{links}:", *(f"{total}," for total in named[:-1]), named[-1]]) if named else links)
    for word, records in (("locked", locked), ("withdrawn", withdrawn)):
        lines.append(listed(f"{word}:", records, session.named) if records else f"no record is {word}")
    rows = [["records", n], *([f"links {letter}", total] for letter, total in totals.items()), *(["locked", record] for record in locked)]
    rows += [["withdrawn", record] for record in withdrawn]
    return Told("\n".join(lines), ["what", "number"], rows, records=n, totals=totals, locked=locked, withdrawn=withdrawn)


def links(session: Session, words: Words) -> Told:
    word = words.rest.split(" ")[0]
    asked: int | None = None
    if len(word) == 1 and not word.isdigit():
        words.next()
    elif word:
        asked = words.record("RECORD")
    words.end()
    register = session.opened()
    found = list(register.links()) if asked is None else register.links_of(asked)
    if word and asked is None:
        register.total(word)
        found = [link for link in found if link.letter == word]
    lines = [count(len(found), "link"), *(drawn_link(link, session.named) for link in found)]
    return Told("\n".join(lines), ["from", "letter", "to"], found, links=found)


def total(session: Session, words: Words) -> Told:
    letter = words.letter("LETTER")
    words.end()
    found = session.opened().total(letter)
    return Told(f"{count(found, 'link')} {letter}", ["letter", "links"], [[letter, found]], letter=letter, total=found)


def history(session: Session, words: Words) -> Told:
    most = words.number("N") if words.rest else _HISTORY
    words.end()
    register = session.opened()
    held, skipped = register.held_count, 0
    latest = register.latest(most)
    lines = [f"{count(register.calls, 'call')}; the latest {len(latest):,}:"]
    rows = []
    for call, when in latest:
        undone = 0
        for edit in reversed(call.removeprefix("do ").split(", ")):
            # An undo has taken back the edit before it that was not taken back already.
            if edit == "undo":
                skipped += 1
            elif edit.startswith(("open ", "close", "settle")):
                held = skipped = 0
            elif skipped:
                skipped -= 1
            elif held:
                held, undone = held - 1, undone + 1
        lines.append(f"{'undo takes it back' if undone else ' ' * 18}  {when}  {call if len(call) < 200 else call[:200] + ' ..'}")
        rows.append([call, when, bool(undone)])
    data = [dict(zip(("call", "time", "can_be_undone"), row)) for row in rows]
    return Told("\n".join(lines), ["call", "time", "can_be_undone"], rows, calls=register.calls, latest=data)


def pairs(session: Session, words: Words) -> Told:
    expression = words.expression()
    return _pairs(session, session.opened().pairs(expression))


def _pairs(session: Session, found: Pairs) -> Told:
    # There may be a million.
    shown = [session.named(record) for record in range(session.register.size)]
    lines = [count(found.total, "pair"), *(f"{shown[word // MAX_RECORDS]} {shown[word % MAX_RECORDS]}" for word in found.words())]
    return Told("\n".join(lines), ["from", "to"], found, total=found.total, pairs=found)


def ends(session: Session, words: Words) -> Told:
    return _side(session, words, "ends")


def starts(session: Session, words: Words) -> Told:
    return _side(session, words, "starts")


def _side(session: Session, words: Words, which: str) -> Told:
    record, expression = words.record("RECORD"), words.expression()
    register = session.opened()
    found = register.ends(record, expression) if which == "ends" else register.starts(record, expression)
    reason = ""
    if not found and register.is_withdrawn(record):
        reason = f": {session.named(record)} is withdrawn"
    said = listed(f"{count(len(found), 'record')}:", found, session.named) if found else f"no records{reason}"
    return Told(said, ["record"], [[each] for each in found], records=found)


def _path(words: Words) -> tuple[int, int, str]:
    return words.record("FROM"), words.record("TO"), words.expression()


def chain(session: Session, words: Words) -> Told:
    path = _path(words)
    steps = session.opened().chain(*path)
    if steps is None:
        return Told(_no_chain(session, path), ["letter", "sense", "record"], [], chain=None)
    return Told(drawn(steps, session.named), ["letter", "sense", "record"], _rows(steps), chain=_rows(steps))


def _rows(steps: Steps) -> list[list[Any]]:
    return [[step.letter, "+" if step.forward else "-", step.reached] for step in steps]


def _no_chain(session: Session, path: tuple[int, int, str]) -> str:
    """That there is no chain; with the reason if an end is withdrawn."""
    return explain.Why(session.opened(), *path).text(session.named).split("\n")[0]


def why(session: Session, words: Words) -> Told:
    path = _path(words)
    found = session.opened().why(*path)
    steps, other = found.steps, found.other_way
    data: dict[str, Any] = {"chain": None if steps is None else _rows(steps)}
    if steps is None:
        reaches = [reach._asdict() for reach in found.reaches]
        data |= {"withdrawn": found.withdrawn, "letters_without_links": found.no_links, "alternatives": reaches}
        data["the_other_way"] = None if other is None else _rows(other)
    return Told(found.text(session.named), **data)


def hangs(session: Session, words: Words) -> Told:
    path = _path(words)
    steps, cores = explain.hangs(session.opened(), *path)
    if steps is None:
        return Told(_no_chain(session, path), chain=None, cores=[])
    between = {step.reached for step in steps} - set(path[:2])
    none = "there is another way round each record between its ends" if between else "there is no record between its ends"
    said = listed("it hangs on each of:", cores, session.named) if cores else f"it hangs on none: {none}"
    return Told(f"{drawn(steps, session.named)}\n{said}", ["record"], [[core] for core in cores], chain=_rows(steps), cores=cores)


def preview(session: Session, words: Words) -> Told:
    edits = words.edits()
    expression = words.expression()
    register = session.opened()
    before = register.pairs(expression) if len(edits) > 1 else None
    if len(edits) == 1:
        after = register.preview(edits[0], expression)
        before = register.pairs(expression)
    else:
        scratch = register.__copy__()
        apply_all(scratch, edits)
        after = scratch.pairs(expression)
    assert before is not None
    now, then = set(before), set(after)
    comes, goes = sorted(then - now), sorted(now - then)
    lines = [f"{count(len(then), 'pair')} if that were done, {count(len(now), 'pair')} now; nothing is changed"]
    for word, found in (("comes", comes), ("goes", goes)):
        lines += [f"{word}: {session.named(from_)} {session.named(to)}" for from_, to in found]
    if not comes and not goes:
        lines.append("nothing comes and nothing goes")
    rows = [["comes", *pair] for pair in comes] + [["goes", *pair] for pair in goes]
    return Told("\n".join(lines), ["what", "from", "to"], rows, pairs_now=len(now), pairs_then=len(then), comes=comes, goes=goes)


def support(session: Session, words: Words) -> Told:
    core, expression = words.record("CORE"), words.word("EXPRESSION")
    anchors = []
    while words.rest:
        try:
            anchors.append(words.record("ANCHOR"))
        except Fault as fault:
            raise Fault(f"{fault}; an expression has no blanks") from None
    register = session.opened()
    found = register.sole_support(core, expression, anchors)
    named = session.named
    some = f"{count(len(found), 'record')} {'hangs' if len(found) == 1 else 'hang'} on record {named(core)} alone"
    said = listed(f"{some}:", found, named) if found else f"no record hangs on record {named(core)} alone"
    gone = [record for record in dict.fromkeys([core, *anchors]) if register.is_withdrawn(record)]
    if gone:
        said += "\n" + listed("withdrawn:", gone, named)
    return Told(said, ["record"], [[record] for record in found], records=found)


def _withdrawn(session: Session, register: Register) -> list[str]:
    gone = register.withdrawn()
    return [listed("withdrawn:", gone, session.named)] if gone else []


def generations(session: Session, words: Words) -> Told:
    letters = words.word("LETTERS")
    words.end()
    register = session.opened()
    numbers, loop = register.generations(letters)
    if loop is not None:
        said = filled([*"no numbers, since links lead round in a loop:".split(" "), *drawn(loop, session.named).split()])
        return Told(said, ["letter", "sense", "record"], _rows(loop), loop=_rows(loop))
    if not numbers:
        return Told("no record is in use", ["record", "generation"], [], generations=[])
    head = f"{count(len(numbers), 'record')} in use; the longest run of links {' '.join(letters)} to each"
    lines = [head, *(f"{session.named(record)} {number}" for record, number in numbers.items()), *_withdrawn(session, register)]
    return Told("\n".join(lines), ["record", "generation"], numbers.items(), generations=list(numbers.items()))


def loops(session: Session, words: Words) -> Told:
    letters = words.word("LETTERS")
    words.end()
    register = session.opened()
    loop = register.generations(letters).loop
    spelt = " ".join(letters)
    if loop is None:
        return Told(f"no record returns to itself over links {spelt}", ["record"], [], records=[], loop=None)
    joined = register.pairs(f"({'|'.join(sorted(set(letters)))})+")
    found = [from_ for from_, to in joined if from_ == to]
    verb = "returns to itself" if len(found) == 1 else "return to themselves"
    said = listed(f"{count(len(found), 'record')} {verb} over links {spelt}:", found, session.named)
    return Told(f"{said}\n{drawn(loop, session.named)}", ["record"], [[record] for record in found], records=found, loop=_rows(loop))


def offsets(session: Session, words: Words) -> Told:
    base = words.record("BASE")
    parts = words.expression().split(",") if words.rest else []
    ties = []
    for place, part in enumerate(parts, 1):
        try:
            ties.append(Words(part, words.names).tie())
        except Fault as fault:
            raise Fault(f"tie {place}: {fault}" if len(parts) > 1 else str(fault)) from None
    register = session.opened()
    try:
        found = register.offsets(base, ties)
    except Refusal as refusal:
        raise Refusal(refusal.cause, session.words_of(refusal, "offsets") + _refused_tie(register, base, ties, refusal.cause)) from None
    if found is None:
        return Told("the ties cannot all hold: no years meet them", offsets=None)
    named = session.named
    tied = [(record, limits) for record, limits in enumerate(found) if limits is not None and record != base]
    lines = [f"{count(len(tied), 'record')} {'is' if len(tied) == 1 else 'are'} tied to record {named(base)}"]
    for record, (least, most) in tied:
        many = f"{most} ring{'' if abs(most) == 1 else 's'}"
        lines.append(f"{named(record)} begins {many if least == most else f'{least} to {many}'} after {named(base)}")
    gone = set(register.withdrawn())
    if free := [record for record, limits in enumerate(found) if limits is None and record not in gone]:
        lines.append(listed("tied to it by nothing:", free, named))
    rows = [[record, *limits] for record, limits in tied]
    return Told("\n".join([*lines, *_withdrawn(session, register)]), ["record", "least", "most"], rows, offsets=rows)


def _refused_tie(register: Register, base: int, ties: list[Tie], cause: Cause) -> str:
    """Which tie offsets are refused for: the last of the fewest that, asked alone, are refused for the same cause. More ties are then, too."""
    low, high = 0, len(ties)
    while low < high:
        middle = (low + high) // 2
        try:
            register.offsets(base, ties[:middle])
            low = middle + 1
        except Refusal as refusal:
            low, high = (low, middle) if refusal.cause == cause else (middle + 1, high)
    return " (the base)" if low == 0 else f" (tie {low:,})"


def page(session: Session, words: Words) -> Told:
    expression = words.expression()
    printed = session.opened().pages(expression).decode("utf-8", "replace")
    return Told(printed, page=printed)


def draw(session: Session, words: Words) -> Told:
    letters = words.word("LETTERS")
    near: tuple[int, int] | None = None
    path: tuple[int, int, str] | None = None
    if letters == "near" and words.rest:
        near = words.record("RECORD"), words.number("K")
        words.end()
    elif words.rest or letters == "chain":
        path = _path(words)
    register, names = session.opened(), session.names
    steps = None if path is None else register.chain(*path)
    if path is not None and steps is None:
        return session.none(_no_chain(session, path))
    if near is not None:
        text = drawing.near(register, *near, names)
    elif letters == "chain" and steps is not None:
        text = drawing.of_chain(register, steps, names)
    else:
        text = drawing.of_letters(register, letters, steps, names)
    return Told(text, drawing=text)


def help_(session: Session, words: Words) -> Told:
    word = words.next()
    if word is None:
        return Told(helped.OVERVIEW, help=helped.OVERVIEW)
    is_number = word == "refused"
    if is_number:
        word = words.word("the number of the refusal")
    words.end()
    if word.isdigit() or is_number:
        if word not in {str(cause.value) for cause in Cause}:
            raise Fault(f'no refusal has the number "{word}"')
        text = str(Refusal(int(word)))
    else:
        entry = helped.topic(word)
        if entry is None:
            raise Fault(helped.unknown(word))
        text = entry.text()
    return Told(text, help=text)
