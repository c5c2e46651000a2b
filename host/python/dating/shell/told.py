"""An answer, in words and for programs."""

from __future__ import annotations

import csv
import io
import json
from collections.abc import Callable, Iterable
from typing import Any

MODES = ("text", "json", "csv")


class Told:
    """What is said to a request: its lines, what a program is given instead, and a table where it is one."""

    def __init__(self, text: str, head: Iterable[str] = (), rows: Iterable[Iterable[Any]] = (), then: Callable[[], str] | None = None, **data: Any) -> None:
        self.text = text
        self.data = data
        self.head = list(head)
        self.rows = rows
        self.then = then
        """What is done once the answer is out, and what is said of that."""
        self.failed = False

    def lines(self, mode: str, request: str) -> str:
        """The answer in a mode, with a line feed at the end of each line."""
        if mode == "json":
            return json.dumps({"request": request, **self.data}, ensure_ascii=False, default=list) + "\n"
        if mode == "csv":
            return _values(self.head, self.rows) if self.head else _values([], [[self.text]])
        return self.text if self.text.endswith("\n") else self.text + "\n"


class Failed(Told):
    """What is said where a request is refused, or is none."""

    def __init__(self, text: str, **data: Any) -> None:
        super().__init__(text, ["failed", "why"], [[data.get("refused", "no request" if "no_request" in data else "file"), text]], **data)
        self.failed = True


def ok(words: str = "") -> Told:
    """That a request is done."""
    return Told(f"ok: {words}", ok=True, words=words) if words else Told("ok", ok=True)


def _values(head: list[str], rows: Iterable[Iterable[Any]]) -> str:
    out = io.StringIO()
    writer = csv.writer(out, lineterminator="\n")
    if head:
        writer.writerow(head)
    writer.writerows(rows)
    return out.getvalue()
