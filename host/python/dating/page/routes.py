"""What is at each address, and how it is answered."""

from __future__ import annotations

import json
import shutil
import subprocess
import threading
from collections.abc import Callable, Iterator
from contextlib import contextmanager
from http import HTTPStatus
from importlib import resources
from typing import TYPE_CHECKING, Any, NamedTuple

from .. import drawing
from ..shell.words import Fault
from .asked import PART, Reading, ask, request
from .desk import now
from .fields import Fields

if TYPE_CHECKING:
    from .server import Server

_JSON = "application/json; charset=utf-8"
_TEXT = "text/plain; charset=utf-8"
_HISTORY = 5000
# Questions at one time: each has up to 10 MB of space of its own. Those of one record do not wait for those of all pairs. And how long one waits for its turn.
_PLACES = threading.BoundedSemaphore(3)
_SHORT_PLACES = threading.BoundedSemaphore(3)
_SHORT = ("chain", "ends", "starts", "links", "loops", "generations")
_WAIT = 30.0
_DRAWING_SECONDS = 20


class Reply(NamedTuple):
    """What is sent."""

    status: HTTPStatus
    kind: str
    body: bytes
    headers: dict[str, str] = {}

    @classmethod
    def told(cls, status: HTTPStatus = HTTPStatus.OK, **data: Any) -> Reply:
        return cls(status, _JSON, json.dumps(data, ensure_ascii=False, default=list).encode("utf-8", "replace"))

    @classmethod
    def file(cls, text: bytes, kind: str, name: str = "") -> Reply:
        return cls(HTTPStatus.OK, kind, text, {"Content-Disposition": f'attachment; filename="{name}"'} if name else {})


@contextmanager
def turn(kind: str = "") -> Iterator[None]:
    """A question's turn: so many are asked at one time."""
    places = _SHORT_PLACES if kind in _SHORT else _PLACES
    if not places.acquire(timeout=_WAIT):
        raise Fault("too many questions are asked at once; this is no answer: ask again")
    try:
        yield
    finally:
        places.release()


def texts(given: dict[str, Any], most: int = 600) -> dict[str, str]:
    """The fields of a question: each is a text of some length."""
    for key, value in given.items():
        if not isinstance(value, str):
            raise Fault(f"the field {key[:40]!r} is no text")
        if len(value) > most:
            raise Fault(f"the field {key[:40]!r} has over {most} characters")
    return given


def text(given: dict[str, Any], key: str, most: int = 600) -> str:
    return texts({key: given.get(key)}, most)[key]


def lines(given: dict[str, Any]) -> list[str]:
    """The lines of a draft."""
    found = given.get("edits")
    if not isinstance(found, list) or not all(isinstance(line, str) for line in found):
        raise Fault("a draft is a list of lines")
    return found


# The page

_FILES = {"page.css": "text/css", "page.js": "text/javascript", "draft.js": "text/javascript", "question.js": "text/javascript"}
_FILES |= {"curator.js": "text/javascript", "wire.js": "text/javascript", "shown.js": "text/javascript"}


def static(name: str, kind: str) -> Callable[[Server, dict[str, Any]], Reply]:
    return lambda server, given: Reply.file(resources.files(__package__).joinpath("static", name).read_bytes(), f"{kind}; charset=utf-8")


# Questions

def sheet(server: Server, given: dict[str, Any]) -> Reply:
    """The sheet in short, and the token: who can read this is the page itself."""
    return Reply.told(**server.desk.sheet(), token=server.token, dot=bool(shutil.which("dot")))


def changes(server: Server, given: dict[str, Any]) -> Reply:
    return Reply.told(**server.desk.changes(text(given, "since", 40)))


def history(server: Server, given: dict[str, Any]) -> Reply:
    return Reply.told(**server.desk.history(Fields(texts(given), server.desk.session.names).number("most", 1, _HISTORY, 20)))


def asked(server: Server, given: dict[str, Any]) -> Reply:
    """A question's answer, or one part of it: the first rows, and how many there are."""
    fields = texts(given)
    with turn(fields.get("kind", "")):
        reading = server.desk.reading()
        typed = Fields(fields, reading.names)
        first = typed.number("first", 0, 1 << 20, 0)
        answer = ask(reading, fields, typed.number("width", 1, 4000, 700))
    rows = answer.rows[first : first + PART]
    return Reply.told(
        **server.desk.stands(reading.mark),
        request=request(reading, fields),
        found=answer.found,
        words=answer.lines,
        head=answer.head,
        rows=rows,
        first=first,
        total=answer.total,
        picture=answer.picture,
        remark=answer.remark,
    )


def pages(server: Server, given: dict[str, Any]) -> Reply:
    """The printed page, as text."""
    with turn():
        reading = server.desk.reading()
        printed = reading.register.pages(Fields(texts(given), reading.names).text("expression", "Expression"))
    return Reply.file(printed, _TEXT)


def sheet_text(server: Server, given: dict[str, Any]) -> Reply:
    return Reply.file(server.desk.reading().register.sheet().encode(), _TEXT, "sheet.txt")


def whole(server: Server, given: dict[str, Any]) -> Reply:
    """The links of some letters by generations, drawn by Graphviz."""
    with turn():
        reading = server.desk.reading()
        letters = "".join(dict.fromkeys(Fields(texts(given), reading.names).text("letters", "Letters").replace(" ", "")))
        described = drawing.of_letters(reading.register, letters, None, reading.names)
        return Reply.file(_drawn(described), "image/svg+xml")


def _drawn(described: str) -> bytes:
    program = shutil.which("dot")
    if program is None:
        raise Fault("Graphviz is not installed here, which draws the whole; the chain of a question is drawn without it")
    try:
        done = subprocess.run([program, "-Tsvg"], input=described.encode(), capture_output=True, timeout=_DRAWING_SECONDS, check=False)
    except (subprocess.TimeoutExpired, OSError) as error:
        raise Fault(f"Graphviz gave no picture ({type(error).__name__}): draw fewer letters") from None
    if done.returncode:
        raise Fault("Graphviz gave no picture: draw fewer letters")
    return done.stdout


def closing(server: Server, given: dict[str, Any]) -> Reply:
    """What closing up would do."""
    told, mark = server.desk.closing()
    words = told.text.split("\n")
    rows = [[old, "gone" if new is None else new] for old, new in enumerate(told.data["numbers"])]
    return Reply.told(mark=mark, words=words, rows=rows, records=told.data["records"], time=now())


def closing_table(server: Server, given: dict[str, Any]) -> Reply:
    told, _ = server.desk.closing()
    return Reply.file(told.lines("csv", "close").encode(), "text/csv; charset=utf-8", "numbers.csv")


# Changes

def tried(server: Server, given: dict[str, Any]) -> Reply:
    question = given.get("question")
    if question is not None and not isinstance(question, dict):
        raise Fault("a question is an object")
    with turn():
        return Reply.told(**server.desk.tried(lines(given), texts(question) if question else None, text(given, "since", 40)))


def save(server: Server, given: dict[str, Any]) -> Reply:
    return Reply.told(**server.desk.save(lines(given), text(given, "since", 40), text(given, "name", 80)))


def undo(server: Server, given: dict[str, Any]) -> Reply:
    return Reply.told(**server.desk.undo(text(given, "mark", 40), text(given, "edit")))


def close(server: Server, given: dict[str, Any]) -> Reply:
    return Reply.told(**server.desk.close_up(text(given, "mark", 40)))


GET: dict[str, Callable[[Server, dict[str, Any]], Reply]] = {
    "/": static("page.html", "text/html"),
    **{f"/{name}": static(name, kind) for name, kind in _FILES.items()},
    "/sheet": sheet,
    "/changes": changes,
    "/history": history,
    "/ask": asked,
    "/pages.txt": pages,
    "/sheet.txt": sheet_text,
    "/whole.svg": whole,
    "/closing": closing,
    "/closing.csv": closing_table,
}
POST: dict[str, Callable[[Server, dict[str, Any]], Reply]] = {"/draft": tried, "/save": save, "/undo": undo, "/close": close}
