"""The register as several pages use it: what has changed since a page last looked, drafts tried and saved, undo, closing up.

A page has its draft itself, so that nothing of it is lost when the server ends. Questions are asked of a copy, so that none waits for another.
"""

from __future__ import annotations

import os
import threading
import time
from collections import OrderedDict
from typing import Any

from ..files import because, written
from ..history import line_of
from ..kept import Kept, NotKept
from ..names import Names
from ..refusal import Cause, Refusal
from ..register import Register
from ..shell import answers, changes
from ..shell.session import Session
from ..shell.told import Told
from ..shell.words import Fault, Words
from ..terms import Edit
from ..texts import count
from ..wording import of_edit
from .asked import Reading
from .effect import effect
from .fields import MOST_EDITS, read_edit

_STAMP = "%Y-%m-%dT%H:%M:%SZ"
# The latest calls that are told to a page; of more it is told how many there are.
_MOST_TOLD = 50
_LONGEST_CALL = 300
_SAVES = 1000


class Changed(Exception):
    """The sheet has changed since a page looked, so that what was asked for would be another thing now. Nothing is done."""


class RefusedLine(Exception):
    """A line of a draft that is refused, or is no edit: which, why, and by what number."""

    def __init__(self, place: int, words: str, number: int | None) -> None:
        super().__init__(place, words, number)
        self.place, self.words, self.number = place, words, number


class Desk:
    """The register, its names, and the saves that were answered."""

    def __init__(self, register: Kept, names: Names) -> None:
        self.register = register
        self.session = Session(register, lambda _: None)
        self.session.names = names
        self.trouble = ""
        """Why the file is no longer read, if it is not."""
        # Held by whoever changes the register.
        self._turn = threading.Lock()
        self._saves: OrderedDict[str, dict[str, Any]] = OrderedDict()
        self.closed = ""
        """What was said of the latest closing up."""

    def end(self) -> None:
        """Lets the file go, once a change that is under way is made or refused."""
        with self._turn:
            self.register.close()

    # What there is

    def refresh(self) -> None:
        """For one who reads: takes what another has written."""
        said = self.register.refresh()
        if "no longer read" in said:
            self.trouble = said

    def reading(self) -> Reading:
        """The register as it stands."""
        self.refresh()
        with self.register._turn:
            return Reading(self.register.__copy__(), self.register.mark, self.session.names)

    def sheet(self) -> dict[str, Any]:
        """What the sheet holds, in numbers and lists."""
        reading = self.reading()
        register, names = reading.register, reading.names
        locked, withdrawn, totals = register.locked(), register.withdrawn(), register.totals()
        return {
            **self.stands(reading.mark),
            "words": answers.show(reading, Words("")).text.replace("\n    ", " ").split("\n"),
            "records": register.size,
            "in_use": register.size - len(withdrawn),
            "links": sum(totals.values()),
            "totals": [[letter, names.letters.get(letter, ""), total] for letter, total in totals.items()],
            "locked": [[record, names.records.get(record, "")] for record in locked],
            "withdrawn": [[record, names.records.get(record, "")] for record in withdrawn],
            "names": [[record, name] for record, name in sorted(names.records.items()) if record < register.size],
            "letters": sorted(names.letters.items()),
            "undo": str(register.latest_held or ""),
        }

    def stands(self, mark: str) -> dict[str, Any]:
        """Which history this is, and how it stands."""
        return {
            "file": os.path.basename(self.register.path),
            "path": self.register.path,
            "mark": mark,
            "time": now(),
            "read_only": self.register.read_only,
            "torn": self.register.torn,
            "trouble": self.trouble,
        }

    def changes(self, since: str) -> dict[str, Any]:
        """What has been done since a page looked; `another` if this is another history."""
        self.refresh()
        with self.register._turn:
            found = self.register.since(since)
            told = self.stands(self.register.mark)
        return {**told, "another": found is None, **_calls(found or [])}

    def history(self, most: int) -> dict[str, Any]:
        """The latest calls, with their times, and which of them undo can take back."""
        self.refresh()
        with self.register._turn:
            told = answers.history(self.session, Words(str(most)))
            mark = self.register.mark
        rows = [[_cut(row["call"]), row["time"], row["can_be_undone"]] for row in told.data["latest"]]
        return {**self.stands(mark), "total": told.data["calls"], "rows": rows}

    # Drafts

    def edits(self, lines: list[str]) -> list[Edit]:
        """The edits of a draft."""
        if len(lines) > MOST_EDITS:
            raise Fault(f"a draft has at most {MOST_EDITS:,} lines, and this one has {len(lines):,}: save it in parts, or import a table in the shell")
        found = []
        for place, line in enumerate(lines):
            try:
                found.append(read_edit(line, self.session.names))
            except Fault as fault:
                raise RefusedLine(place, str(fault), None) from None
        return found

    def tried(self, lines: list[str], question: dict[str, str] | None, since: str) -> dict[str, Any]:
        """Whether a draft would be accepted now, and what it would change in a question. Nothing is changed."""
        reading = self.reading()
        told: dict[str, Any] = {"mark": reading.mark, "time": now(), "refused": None, "effect": None, "made": ""}
        between = self.register.since(since)
        told["between"] = {"another": between is None, **_calls(between or [])}
        made = reading.register.__copy__()
        try:
            edits = self.edits(lines)
            told["words"] = [self.said(edit) for edit in edits]
            # A page whose Save was not answered learns here whether it was made.
            told["made"] = next((when for call, when in between or [] if edits and call == line_of(edits)), "")
            self.made(made, edits)
        except RefusedLine as refused:
            told["refused"] = {"place": refused.place, "words": refused.words, "number": refused.number}
            return told
        if question and edits:
            try:
                told["effect"] = effect(reading, Reading(made, reading.mark, reading.names), question)
            except (Fault, Refusal) as error:
                told["effect"] = {"words": f"what it would change cannot be told: {error}", "comes": [], "goes": [], "comes_total": 0, "goes_total": 0}
        return told

    def said(self, edit: Edit) -> str:
        """An edit with the names of its records; as it is typed where there are none."""
        named = self.session.named
        if edit.has_link:
            return f"{edit.word} {named(edit.from_)} {self.session.names.letter(edit.letter)} {named(edit.to)}"
        return f"{edit.word} {named(edit.from_)}"

    def made(self, register: Register, edits: list[Edit]) -> None:
        """Makes edits all or none; a refusal names its line."""
        before = register.__copy__()
        try:
            register.apply(edits)
        except Refusal as refusal:
            place = refusal.place or 0
            words = refusal.meaning
            if refusal.cause != Cause.NOT_OPENED and place < len(edits):
                before.apply(edits[:place])
                words = of_edit(before, edits[place], refusal.cause, self.session.named)
            raise RefusedLine(place, words, refusal.number) from None

    def save(self, lines: list[str], since: str, name: str) -> dict[str, Any]:
        """Makes a draft, all or none, on the sheet as it is now; it is in the file when this returns. Told is what others did since. A save that is sent
        again by the same name is made once.
        """
        if not lines:
            raise Fault("there is nothing to save: the draft is empty, and the sheet is as it was")
        with self._turn:
            if name in self._saves:
                return self._saves[name]
            edits = self.edits(lines)
            between = self.register.since(since)
            self.made(self.register, edits)
            told = {**self.stands(self.register.mark), "saved": len(edits), "between": {"another": between is None, **_calls(between or [])}}
            self._saves[name] = told
            while len(self._saves) > _SAVES:
                self._saves.popitem(last=False)
            return told

    def undo(self, mark: str, edit: str) -> dict[str, Any]:
        """Takes back an edit that a page has shown, if that is still the one."""
        with self._turn:
            self.same(mark, "undo would take back another edit now")
            held = self.register.latest_held
            if held is None or str(held) != edit:
                raise Changed(f"undo would take back {held or 'nothing'}, not {edit}: look again")
            self.register.undo()
            return {**self.stands(self.register.mark), "undone": edit}

    def same(self, mark: str, else_: str) -> None:
        """That the sheet is the one that a page has shown."""
        if self.register.mark != mark:
            found = self.register.since(mark)
            said = f"{count(len(found), 'call')} came between" if found else "it is another history"
            raise Changed(f"the sheet has changed since you looked ({said}), and {else_}: nothing is done; look again")

    # Closing up

    def closing(self) -> tuple[Told, str]:
        """What closing up would do, with its table; and the mark of the sheet."""
        with self.register._turn:
            return changes.close(self.session, Words("")), self.register.mark

    def close_up(self, mark: str) -> dict[str, Any]:
        """Closes up the numbers as a page has shown it. The table is in a file beside the history before anything is done, and the names with it."""
        with self._turn:
            self.same(mark, "the table is another one now")
            told, _ = self.closing()
            names = self.session.names.renumbered(told.data["numbers"])
            files = [(_beside(self.register.path, "numbers", "csv"), told.lines("csv", "close"))]
            if self.session.names.records:
                files.append((_beside(self.register.path, "names", "txt"), names.text()))
            for path, text in files:
                try:
                    written(path, text.encode())
                except OSError as error:
                    raise NotKept(f"{path} cannot be written: {because(error)}; nothing is closed up") from error
            assert told.then is not None
            told.then()
            kept = " and ".join(os.path.basename(path) for path, _ in files)
            self.closed = f"the numbers are closed up; the table is kept in {kept}, beside the history"
            if len(files) > 1:
                self.closed += f"; from now on the names are those of {os.path.basename(files[1][0])}: name that file when the page is started again"
            return {**self.stands(self.register.mark), "words": self.closed}


def now() -> str:
    return time.strftime(_STAMP, time.gmtime())


def _beside(path: str, what: str, kind: str) -> str:
    """A name beside the history that no file has yet."""
    place = 1
    while os.path.exists(found := f"{path}.closed-{place}-{what}.{kind}"):
        place += 1
    return found


def _cut(call: str) -> str:
    return call if len(call) <= _LONGEST_CALL else f"{call[:_LONGEST_CALL]} .. ({call.count(',') + 1:,} edits)"


def _calls(found: list[tuple[str, str]]) -> dict[str, Any]:
    """Calls, the last first, as many as can be read."""
    return {"total": len(found), "calls": [[_cut(call), when] for call, when in found[:_MOST_TOLD]]}
