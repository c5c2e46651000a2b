"""Pictures in the page itself: a chain as a line of records with its links and locks, and how far one goes where there is none. SVG, with the page's own
colours: every shape has a class and no colour.
"""

from __future__ import annotations

from collections.abc import Sequence
from html import escape

from .. import calls
from ..items import Steps
from ..names import Names

MOST_STEPS = 120
"""The most steps of a chain that someone can read in a picture."""

_WIDTH, _HEIGHT = 96, 46
_GAP, _ROW = 80, 104
_EDGE = 8
# The most characters of a name, and the most records of a set, that stand in a box.
_NAME, _SET = 13, 4


def _cut(text: str, most: int = _NAME) -> str:
    return text if len(text) <= most else text[: most - 1] + "…"


def _text(x: float, y: float, words: str, kind: str) -> str:
    return f'<text x="{x:g}" y="{y:g}" class="{kind}">{escape(words)}</text>'


class _Picture:
    """Shapes, and how far they reach."""

    def __init__(self) -> None:
        self.shapes: list[str] = []
        self.right = self.foot = 0.0

    def reach(self, x: float, y: float) -> None:
        self.right, self.foot = max(self.right, x), max(self.foot, y)

    def box(self, x: float, y: float, kind: str, lines: Sequence[str], width: float = _WIDTH) -> None:
        self.shapes.append(f'<rect x="{x:g}" y="{y:g}" width="{width:g}" height="{_HEIGHT}" rx="7" class="box {kind}"/>')
        if kind == "locked":
            self.shapes.append(f'<rect x="{x + 3:g}" y="{y + 3:g}" width="{width - 6:g}" height="{_HEIGHT - 6}" rx="5" class="box inner"/>')
            self.padlock(x + width - 14, y - 7)
        first = y + _HEIGHT / 2 + 5 - 8 * (len(lines) - 1)
        for place, line in enumerate(lines):
            self.shapes.append(_text(x + width / 2, first + 16 * place, line, "number" if place == 0 else "name"))
        self.reach(x + width, y + _HEIGHT)

    def padlock(self, x: float, y: float) -> None:
        self.shapes.append(f'<path d="M {x - 4:g} {y + 6:g} v -4 a 4 4 0 0 1 8 0 v 4" class="bow"/>')
        self.shapes.append(f'<rect x="{x - 6:g}" y="{y + 6:g}" width="12" height="9" rx="1.5" class="lock"/>')

    def arrow(self, x: float, y: float, to: float, words: str, forward: bool, kind: str = "link") -> None:
        """A link along a row, with its words above it."""
        self.shapes.append(f'<path d="M {x:g} {y:g} H {to:g}" class="{kind}"/>')
        self.head(to if forward else x, y, 1 if (to > x) == forward else -1, kind)
        self.shapes.append(_text((x + to) / 2, y - 7, words, "letter"))

    def down(self, x: float, y: float, back: float, to: float, words: str, forward: bool) -> None:
        """A link from the end of a row to the beginning of the next."""
        middle = to - 24
        self.shapes.append(f'<path d="M {x:g} {y:g} V {middle:g} H {back:g} V {to:g}" class="link"/>')
        point, turn = ((back, to), "down") if forward else ((x, y), "up")
        px, py = point
        sign = -1 if turn == "down" else 1
        self.shapes.append(f'<path d="M {px:g} {py:g} l -5 {9 * sign} h 10 z" class="head"/>')
        self.shapes.append(_text((x + back) / 2, middle - 6, words, "letter"))

    def head(self, x: float, y: float, way: int, kind: str) -> None:
        self.shapes.append(f'<path d="M {x:g} {y:g} l {-9 * way} -5 v 10 z" class="head {kind}"/>')

    def svg(self, title: str) -> str:
        width, height = self.right + _EDGE, self.foot + _EDGE
        front = f'<svg xmlns="http://www.w3.org/2000/svg" role="img" width="{width:g}" height="{height:g}" viewBox="0 0 {width:g} {height:g}">'
        return f"{front}<title>{escape(title)}</title>{''.join(self.shapes)}</svg>"


_KINDS = {0: "free", calls.LOCKED: "locked", calls.WITHDRAWN: "withdrawn"}


def _across(width: int, gap: int) -> int:
    """How many boxes stand side by side."""
    return max(2, (width - 2 * _EDGE + gap) // (_WIDTH + gap))


def of_chain(chain: Steps, marks: Sequence[int], names: Names, width: int) -> str:
    """A chain: its records in rows of some width, each with its lock, and between them the links, numbered as its steps."""
    drawn = _Picture()
    records = [chain.start, *(step.reached for step in chain)]
    across = _across(width, _GAP)
    for place, record in enumerate(records):
        row, column = divmod(place, across)
        x, y = _EDGE + column * (_WIDTH + _GAP), 2 * _EDGE + row * _ROW
        if place:
            step = chain[place - 1]
            words, name = f"{place}: {step.letter}", _cut(names.letters.get(step.letter, ""), 11)
            if column:
                drawn.arrow(x - _GAP, y + _HEIGHT / 2, x, words, step.forward)
                drawn.shapes.append(_text(x - _GAP / 2, y + _HEIGHT / 2 + 16, name, "name"))
            else:
                drawn.down(_EDGE + (across - 1) * (_WIDTH + _GAP) + _WIDTH / 2, y - _ROW + _HEIGHT, x + _WIDTH / 2, y, f"{words} {name}".rstrip(), step.forward)
        drawn.box(x, y, _KINDS[marks[record]], _numbered([record], names))
    return drawn.svg(f"a chain of {len(chain)} steps from {records[0]} to {records[-1]}")


class Row:
    """How far one alternative goes from one end: the record at which it is begun, and for each part the records reached; the last are none, or not the
    record that was wanted.
    """

    def __init__(self, head: str, begin: int, parts: Sequence[str], reached: Sequence[Sequence[int]], wanted: int | None, forward: bool) -> None:
        self.head, self.begin, self.parts, self.reached, self.wanted, self.forward = head, begin, parts, reached, wanted, forward


def of_rows(rows: Sequence[Row], marks: Sequence[int], names: Names, width: int) -> str:
    """How far a question goes, from either end, and where it stops."""
    drawn = _Picture()
    y = 2.0 * _EDGE
    gap = _GAP + 16
    ahead = _across(width, gap) - 1
    for row in rows:
        drawn.shapes.append(_text(_EDGE, y + 6, row.head, "head-words"))
        y += 18
        before: Sequence[int] = [row.begin]
        for place, (part, found) in enumerate(zip(row.parts, row.reached)):
            column = place % ahead + 1
            if column == 1:
                # A new line begins with what the one before ended with.
                y += _HEIGHT + 22 if place else 0
                drawn.box(_EDGE, y, "free" if place else "begin", _numbered(before, names))
                if not place and marks[row.begin] == calls.LOCKED:
                    drawn.padlock(_EDGE + _WIDTH - 14, y - 7)
            x = _EDGE + column * (_WIDTH + gap)
            drawn.arrow(x - gap, y + _HEIGHT / 2, x, _cut(part, 13), row.forward, "link" if found else "stop")
            missed = bool(found) and row.wanted is not None and place + 1 == len(row.parts)
            drawn.box(x, y, "none" if not found else "missed" if missed else "free", _numbered(found, names) if found else ["none"])
            if missed:
                drawn.shapes.append(_text(x + _WIDTH / 2, y + _HEIGHT + 15, f"not {row.wanted}", "letter"))
                drawn.reach(x + _WIDTH, y + _HEIGHT + 18)
            before = found
        y += _HEIGHT + 28
    return drawn.svg("how far it goes, and where it stops")


def _numbered(records: Sequence[int], names: Names) -> list[str]:
    if len(records) == 1:
        record = records[0]
        return [str(record), *([_cut(names.records[record])] if record in names.records else [])]
    shown = ", ".join(map(str, records[:_SET]))
    return [shown] if len(records) <= _SET else [shown, f"and {len(records) - _SET:,} more"]
