"""What is open, and a line from its reading to its answer."""

from __future__ import annotations

from collections.abc import Callable, Iterable
from functools import partial

from .. import sheets
from ..drawing import TooMuch
from ..files import LONGEST_LINE, Line, because, lines, named, whole, written
from ..kept import Kept, NotKept
from ..names import Names, unread
from ..refusal import Cause, Refusal
from ..terms import KINDS, Edit
from ..texts import count, shown
from ..wording import words as fitting
from . import answers, changes, help
from .told import Failed, Told
from .words import BLANKS, Fault, Words

_ANSWERS: dict[str, Callable[..., Told]] = {
    "open": changes.open_,
    "do": changes.do,
    "close": changes.close,
    "import": changes.import_,
    "names": changes.names,
    "mode": changes.mode,
    "sheet": changes.sheet,
    "show": answers.show,
    "links": answers.links,
    "total": answers.total,
    "history": answers.history,
    "pairs": answers.pairs,
    "ends": answers.ends,
    "starts": answers.starts,
    "chain": answers.chain,
    "why": answers.why,
    "hangs": answers.hangs,
    "preview": answers.preview,
    "support": answers.support,
    "generations": answers.generations,
    "loops": answers.loops,
    "offsets": answers.offsets,
    "page": answers.page,
    "draw": answers.draw,
    "help": answers.help_,
    **{word: partial(changes.edit, word=word) for word in KINDS},
}

# The most of a line that is shown again.
_SHOWN = 120


class Quit(Exception):
    """The session ends here."""


class Sums:
    """What became of the lines of a file or a pipe."""

    def __init__(self) -> None:
        self.done = self.refused = self.none = 0

    @property
    def failed(self) -> bool:
        return self.refused + self.none > 0

    def text(self) -> str:
        parts = [f"{self.done:,} done", f"{self.refused:,} refused or failed"] + ([f"{self.none:,} no request"] if self.none else [])
        return f"{count(self.done + self.refused + self.none, 'line')}: {', '.join(parts)}"


class Session:
    """A register, the names, the mode, and where answers go."""

    def __init__(self, register: Kept, out: Callable[[str], None]) -> None:
        self.register, self.out = register, out
        self.names = Names()
        self.mode = "text"
        self.saved = register.changed
        """How often the register had been changed when it was last kept somewhere."""
        self.ask: Callable[[str], bool] | None = None
        """Asks a question on a terminal; there is none on a pipe."""
        self.screen: Callable[[str], None] | None = None
        """Shows an answer by screenfuls on a terminal."""
        self.more: Callable[[], Told] = lambda: Told("nothing more to show", more="")
        self.failed = False

    def named(self, record: int) -> str:
        """A record as it is shown."""
        return self.names.record(record)

    def opened(self) -> Kept:
        """The register, if one is opened."""
        if not self.register.is_open:
            raise Refusal(Cause.NOT_OPENED, fitting(Cause.NOT_OPENED, "", 0))
        return self.register

    def none(self, said: str) -> Told:
        """An answer that is written to no file."""
        told = Told(said, none=said)
        told.failed = True
        return told

    def words_of(self, refusal: Refusal, word: str) -> str:
        """The words of a refusal, as they fit the request."""
        return refusal.meaning if refusal.meaning != refusal.cause.meaning else fitting(refusal.cause, word, self.register.size)

    @property
    def unsaved(self) -> int:
        """How many changes are kept nowhere."""
        return 0 if self.register.path else self.register.changed - self.saved

    def stays(self, what: str) -> bool:
        """Whether a request that would lose work is not to be done, as who typed it says."""
        if self.ask is None or not self.register.is_open:
            return False
        if self.register.path and (links := len(self.register.links())):
            return not self.ask(f"{count(links, 'link')} would be gone by {what}, and undo does not bring them back. Go on?")
        if not self.unsaved:
            return False
        return not self.ask(f"{count(self.unsaved, 'change')} kept nowhere would be lost by {what}; sheet > FILE keeps them. Go on?")

    def imported(self, edits: list[Edit]) -> None:
        """Makes edits of which each is known to be accepted."""
        if edits:
            self.register.apply(edits)

    # Lines

    def line(self, text: str) -> Told | None:
        """The answer to a line; none if it says nothing. It has been written or shown."""
        line = text.removeprefix(help.PROMPT)
        asked, file = _parted(line)
        words = Words(asked, self.names)
        word = words.next()
        if word is None and file is None or word is not None and word.startswith("#"):
            return None
        request = shown(asked.strip(BLANKS))
        entry = help.REQUESTS.get(word or "") or help.nearest(word or "page")
        try:
            if len(text) > LONGEST_LINE:
                raise Fault(f"the line has over {LONGEST_LINE:,} bytes")
            told = self.answer(word, words, _file(file))
        except Fault as fault:
            return Failed(f"no request: {fault}\n{entry.told()}", no_request=str(fault), typed=entry.form)
        except Refusal as refusal:
            said = f"refused {refusal.number}: {self.words_of(refusal, word or '')}"
            return Failed(f"{said}\n{refusal.mark}" if refusal.mark else said, refused=refusal.number, words=said.split(": ", 1)[1])
        except (NotKept, TooMuch) as error:
            return Failed(str(error), failed=str(error))
        return told if told.failed else self.out_to(told, request, file)

    def answer(self, word: str | None, words: Words, file: str | None) -> Told:
        if word is None:
            raise Fault("a request stands before >")
        if word not in help.REQUESTS:
            raise Fault(help.unknown(word))
        if word == "quit":
            words.end()
            raise Quit
        if word == "more":
            words.end()
            return self.more()
        if word == "read":
            return self.read(words.expression("FILE"))
        return _ANSWERS[word](self, words)

    def out_to(self, told: Told, request: str, file: str | None) -> Told:
        """Writes an answer to its file, or shows it, and then does what comes after it."""
        text = told.lines(self.mode, request)
        if file is not None:
            path = _file(file) or ""
            try:
                written(path, text.encode("utf-8", "surrogateescape"))
            except OSError as error:
                return Failed(changes.cannot(path, error) + ("; nothing is done" if told.then and "sheet" not in told.data else ""))
            said = Told(f"wrote {named(path)} ({count(text.count(chr(10)), 'line')})", wrote=path)
            after = self.after(told, file)
            self.show(said.lines(self.mode, request), True)
            return after or said
        if told.text == "ok" and self.quiet:
            return told
        self.show(text, told.then is not None and told.head != [])
        return self.after(told, None) or told

    quiet = False
    """Whether a bare ok is not shown, as for the lines of a file."""

    def after(self, told: Told, file: str | None) -> Told | None:
        """Does what comes after an answer; what is said if it fails. A sheet is kept only where a file has it."""
        if told.then is None or "sheet" in told.data and file is None:
            return None
        try:
            said = told.then()
        except (NotKept, Refusal) as error:
            return Failed(f"{error}; nothing is done")
        if said:
            self.show(said, True)
        return None

    def show(self, text: str, whole: bool = False) -> None:
        """Shows an answer; on a terminal no more than a screenful of it, unless it is to be seen whole."""
        if self.screen is not None and not whole:
            self.screen(text)
        else:
            self.out(text)

    def tell(self, told: Told, place: str, request: str) -> None:
        """Says that a line failed, and where it stands."""
        if self.mode != "text":
            self.out(told.lines(self.mode, request))
        elif place:
            self.out(f"{place}{shown(request)[:_SHOWN]}: {told.text}\n")
        else:
            self.show(told.text + "\n")

    def run(self, script: Iterable[Line], place: str, unit: str = "line") -> Sums:
        """Answers the lines of a file or a pipe, or requests, up to quit or the end; what fails is named by its place and text."""
        sums = Sums()
        had = self.register.is_open
        for line in script:
            changed = self.register.refresh()
            if changed:
                self.out(changed + "\n")
            if line.too_long:
                told: Told | None = Failed(f"no request: the line has over {LONGEST_LINE:,} bytes", no_request="too long")
            else:
                try:
                    told = self.line(line.text)
                except Quit:
                    raise Quit(sums) from None
            if told is None:
                continue
            if not told.failed:
                sums.done += 1
                continue
            none = told.text.startswith("no request: ")
            if none and place:
                # How a request is typed is for who types it.
                told.text = told.text.split("\n")[0]
            sums.none, sums.refused = sums.none + none, sums.refused + (not none)
            self.tell(told, f"{place}{unit} {line.number}, ", line.text.strip(BLANKS))
            if line.text.split()[:1] == ["open"] and (place or had) and not none:
                self.out(f"{place}line {line.number}: what follows was meant for another register, and is not read\n")
                break
        return sums

    def read(self, path: str) -> Told:
        """Takes a sheet, or answers the lines of a file."""
        if self.quiet:
            raise Fault("a file that is read reads no other")
        try:
            with open(path, "rb") as file:
                first = file.readline(200).decode("utf-8", "replace").removeprefix("\ufeff")
            if sheets.is_sheet(first):
                return changes.read_sheet(self, path, whole(path).decode("utf-8", "surrogateescape"))
            return self.read_lines(path)
        except OSError as error:
            return Failed(unread(path, error))

    def read_lines(self, path: str) -> Told:
        before = self.register.latest(1), self.register.calls
        opens = False
        with open(path, "rb") as file:
            opens = any(line.text.split()[:1] == ["open"] for line in lines(file))
            file.seek(0)
            if opens and self.stays(f"read {named(path)}"):
                return self.none("nothing is read")
            self.quiet = True
            # On a terminal nothing scrolls away: all of it is shown by screenfuls.
            out, screen, collected = self.out, self.screen, list[str]()
            if screen is not None:
                self.out, self.screen = collected.append, None
            try:
                sums = self.run(lines(file), f"{named(path)}, ")
            except Quit as end:
                sums = end.args[0]
            finally:
                self.quiet, self.out, self.screen = False, out, screen
        if opens and (self.register.latest(1), self.register.calls) != before and self.register.is_open:
            self.register.settle()
        said = f"{''.join(collected)}{named(path)}: {sums.text()}"
        if sums.failed:
            return Failed(said)
        return Told(said, read=path, done=sums.done)


def _parted(line: str) -> tuple[str, str | None]:
    """A line before and after the word `>`, or a word that begins so. A remark is not parted."""
    if not line.lstrip(BLANKS).startswith("#"):
        for at, c in enumerate(line):
            if c == ">" and (at == 0 or line[at - 1] in BLANKS):
                return line[:at], line[at + 1 :]
    return line, None


def _file(rest: str | None) -> str | None:
    """The name of the file that an answer goes to; blanks within it are part of it."""
    if rest is None:
        return None
    name = rest.strip(BLANKS)
    if not name:
        raise Fault("the FILE after > is missing")
    if name.startswith(">"):
        raise Fault(">> is not known; > FILE writes the file anew")
    return name


def unwritten(error: OSError) -> str:
    """That answers cannot be shown."""
    return f"dating: answers cannot be written: {because(error)}"
