"""The requests that change the register, or take files."""

from __future__ import annotations

from typing import TYPE_CHECKING

from .. import imports, sheets
from ..closing import moved
from ..files import because, named
from ..names import Names, NoNames, unread
from ..refusal import Refusal
from ..register import Register
from ..terms import UNDO, Edit
from ..texts import count, run, shown
from ..wording import of_edit
from .told import MODES, Failed, Told, ok
from .words import Fault, Words

if TYPE_CHECKING:
    from .session import Session


def open_(session: Session, words: Words) -> Told:
    n = words.number("N")
    words.end()
    register = session.register
    gone = len(register.links()) if register.is_open else 0
    if 1 <= n <= 1024 and session.stays(f"open {n}"):
        return session.none("nothing is opened")
    register.begin(n)
    return ok(f"the {gone:,} link{'' if gone == 1 else 's'} from before {'is' if gone == 1 else 'are'} gone" if gone else "")


def edit(session: Session, words: Words, word: str) -> Told:
    made = words.edited(word)
    words.end()
    register = session.opened()
    if made.kind == UNDO:
        latest = register.latest_held
        register.undo()
        return ok(f"{latest} is taken back")
    try:
        register.apply(made)
    except Refusal as refusal:
        raise Refusal(refusal.cause, of_edit(register, made, refusal.cause, session.named)) from None
    return ok()


def do(session: Session, words: Words) -> Told:
    edits = words.edits()
    words.end(": a comma stands between edits")
    register = session.opened()
    apply_all(register, edits, "; none is made")
    return ok(f"{count(len(edits), 'edit')} {'is' if len(edits) == 1 else 'are'} made")


def apply_all(register: Register, edits: list[Edit], then: str = "") -> None:
    """Makes edits, all or none; a refusal says which it was."""
    try:
        register.apply(edits)
    except Refusal as refusal:
        place = refusal.place or 0
        raise Refusal(refusal.cause, refusal.meaning, place, f"  edit {place + 1}, {edits[place]}{then}") from None


def close(session: Session, words: Words) -> Told:
    words.end()
    register = session.opened()
    numbers = register.closed_up()
    n = sum(new is not None for new in numbers)
    lines = [f"{'1 record now, 0' if n == 1 else f'{n:,} records now, 0 to {n - 1}'}; what was done before cannot be undone"]
    for first, last, new in moved(numbers):
        alone = first == last
        if new is None:
            lines.append(f"{run(first, last)} {'was withdrawn and is' if alone else 'were withdrawn and are'} gone")
        elif new == first:
            lines.append(f"{run(first, last)} {'stays' if alone else 'stay'}")
        else:
            lines.append(f"{run(first, last)} {'is' if alone else 'are'} now {run(new, new + last - first)}")

    def then() -> str:
        register.close_up()
        had = session.names
        session.names = had.renumbered(numbers)
        return "the names follow the numbers here; names > FILE writes them anew\n" if had.records else ""

    rows = [[old, "" if new is None else new] for old, new in enumerate(numbers)]
    return Told("\n".join(lines), ["old", "new"], rows, then, records=n, numbers=numbers)


def import_(session: Session, words: Words) -> Told:
    some = words.rest.split(" ")[0] == "some"
    if some:
        words.next()
    columns = {}
    rest = words.expression("FILE")
    while True:
        front, _, last = rest.rpartition(" ")
        column, sign, wish = last.partition("=")
        if not (front and sign and column in imports.COLUMNS):
            break
        columns[column] = wish
        rest = front.rstrip()
    register = session.opened()
    try:
        found = imports.read(rest, columns, session.names)
    except OSError as error:
        return Failed(unread(rest, error))
    except imports.NoImport as error:
        return Failed(f"{named(rest)}: {error}")
    good, faults = found.tried(register)
    lines = [f"{named(rest)}, line {fault.line}, {shown(fault.text)}: {fault.why}" for fault in faults]
    rows = f"{count(len(found.rows) + len(found.faults), 'row')}"
    if faults and not some:
        wrong = f"{len(faults):,} of {rows} {'is' if len(faults) == 1 else 'are'} faulty: none is added; import some adds the others"
        return Failed("\n".join([*lines, wrong]), added=0, faults=faults)
    session.imported(good)
    lines.append(f"{rows}: {count(len(good), 'link')} {'is' if len(good) == 1 else 'are'} added{f', {len(faults):,} faulty' if faults else ''}")
    said = "\n".join(lines)
    return Failed(said, added=len(good), faults=faults) if faults else Told(said, added=len(good), faults=[])


def names(session: Session, words: Words) -> Told:
    if not words.rest:
        found = session.names
        rows = [*found.records.items(), *found.letters.items()]
        return Told(found.text() or "# no names; names FILE takes some", ["of", "name"], rows, names=rows)
    path = words.expression("FILE")
    try:
        session.names = Names.read(path)
    except OSError as error:
        return Failed(unread(path, error))
    except NoNames as error:
        return Failed(f"{error}\nnone is taken")
    n = session.register.size
    beyond = sum(record >= n for record in session.names.records) if n else 0
    outside = f"; {count(beyond, 'name')} of no record here" if beyond else ""
    return ok(f"{count(len(session.names.records), 'name')} of records, {count(len(session.names.letters), 'name')} of letters{outside}")


def mode(session: Session, words: Words) -> Told:
    wish = words.word("text, json or csv")
    words.end()
    if wish not in MODES:
        raise Fault(f'a mode is text, json or csv, not "{wish}"')
    session.mode = wish
    return Told(f"answers come as {wish}", mode=wish)


def sheet(session: Session, words: Words) -> Told:
    words.end()
    register = session.opened()
    text = sheets.text(register)
    changed = register.changed

    def then() -> str:
        session.saved = changed
        return ""

    return Told(text, then=then, sheet=text)


def read_sheet(session: Session, path: str, text: str) -> Told:
    """Takes a sheet, whole or not at all."""
    try:
        found = sheets.read(text)
    except sheets.NoSheet as error:
        lines = [f"{named(path)}, line {fault.line}, {shown(fault.text)}: {fault.why}" for fault in error.faults]
        return Failed("\n".join([*lines, f"{named(path)} is not taken: the register is as it was"]))
    if session.stays(f"read {named(path)}"):
        return session.none("nothing is read")
    session.register.replace(found.n, found.edits, f"read from {named(path)}")
    session.saved = session.register.changed
    return ok(f"{count(found.n, 'record')} and {count(len(found.edits), 'edit')} from {named(path)}; undo does not reach into it")


def cannot(path: str, error: OSError) -> str:
    """That a file cannot be written."""
    return f"{named(path)} cannot be written: {because(error)}"


def typed(edits: list[Edit]) -> str:
    """Edits as they are typed."""
    return ", ".join(map(str, edits))
