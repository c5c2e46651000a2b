"""Links from a file of comma-separated values: `,` `;` or tab between them, with or without a head line, columns by name or place, further ones passed over."""

from __future__ import annotations

import csv
import io
from typing import NamedTuple

from .files import LONGEST_LINE, whole
from .names import Names
from .refusal import Refusal
from .register import Register
from .sheets import Fault
from .terms import Edit
from .texts import is_figures, number_of

COLUMNS = ("from", "letter", "to")
# What heads call these columns.
_ALSO = {
    "from": ("from", "source", "first", "record", "core"),
    "letter": ("letter", "label", "kind", "link", "type"),
    "to": ("to", "target", "second", "other"),
}
_BETWEEN = ",;\t"


class NoImport(Exception):
    """A file whose columns cannot be told: why."""


class Row(NamedTuple):
    """A row: the line that it begins on, its text, and its link."""

    line: int
    text: str
    edit: Edit


class Import(NamedTuple):
    """What a file says: rows with a link, and those without."""

    rows: list[Row]
    faults: list[Fault]

    def tried(self, register: Register) -> tuple[list[Edit], list[Fault]]:
        """The edits that the register would take one after the other, and the faults: the rows that say no link, and those that it would refuse."""
        scratch = register.__copy__()
        good, faults = [], list(self.faults)
        for row in self.rows:
            try:
                scratch.apply(row.edit)
                good.append(row.edit)
            except Refusal as refusal:
                faults.append(Fault(row.line, row.text, str(refusal)))
        return good, sorted(faults)


def read(path: str, columns: dict[str, str], names: Names) -> Import:
    """The rows of a file. Columns are given by name or by place from 1, or found by the names of a head line, or are the first three."""
    text = whole(path).decode("utf-8", "surrogateescape")
    first = next((line for line in text.splitlines() if line.strip()), "")
    between = max(_BETWEEN, key=first.count)
    # A quotation mark that is not closed would take the rest of the file for one value.
    csv.field_size_limit(LONGEST_LINE)
    reader = csv.reader(io.StringIO(text, newline=""), delimiter=between, strict=True)
    places: dict[str, int] = {}
    rows: list[Row] = []
    faults: list[Fault] = []
    before = 0
    while True:
        line = before + 1
        try:
            cells = next(reader)
        except StopIteration:
            return Import(rows, faults)
        except csv.Error as error:
            faults.append(Fault(line, "", f"no row of values: {error}"))
            return Import(rows, faults)
        before = reader.line_num
        cells = [cell.strip() for cell in cells]
        shown = between.join(cells)
        if not any(cells):
            continue
        if not places:
            places, is_head = _places(cells, columns, names)
            if is_head:
                continue
        link = _link(cells, places, names)
        if isinstance(link, str):
            faults.append(Fault(line, shown, link))
        else:
            rows.append(Row(line, shown, link))


def _places(cells: list[str], columns: dict[str, str], names: Names) -> tuple[dict[str, int], bool]:
    """Where each column is, and whether the row is a head line."""
    heads = [cell.lower() for cell in cells]
    places = {}
    is_head = False
    for column in COLUMNS:
        wish = columns.get(column, "")
        if is_figures(wish):
            places[column] = number_of(wish) - 1
            if not 1 <= number_of(wish) <= len(cells):
                raise NoImport(f"column {wish} is not there: the first row has {len(cells)}")
        elif wish:
            if wish.lower() not in heads:
                raise NoImport(f"no column is called {wish}: they are {', '.join(cells)}")
            places[column], is_head = heads.index(wish.lower()), True
        elif found := [heads.index(name) for name in _ALSO[column] if name in heads]:
            places[column], is_head = found[0], True
    if not is_head and not columns:
        return dict(zip(COLUMNS, range(3))), False
    if missing := [column for column in COLUMNS if column not in places]:
        raise NoImport(f"the column {missing[0]} is not named: the first row has {', '.join(cells)}; type {missing[0]}=NAME or {missing[0]}=PLACE")
    # Columns by place may stand under a head all the same.
    cell = cells[places["from"]]
    return places, is_head or not (is_figures(cell) or names.number(cell) is not None)


def _link(cells: list[str], places: dict[str, int], names: Names) -> Edit | str:
    """The link of a row, or what is wrong with it."""
    found: dict[str, int] = {}
    if (most := max(places.values())) >= len(cells):
        return f"the row has {len(cells)} values, and {most + 1} are wanted"
    for column in ("from", "to"):
        cell = cells[places[column]]
        number = number_of(cell) if is_figures(cell) else names.number(cell)
        if number is None:
            return f"{column} is a record's number{' or name' if names else ''}, not {cell!r}"
        found[column] = number
    letter = cells[places["letter"]]
    by_name = [each for each, name in names.letters.items() if name == letter]
    if by_name:
        letter = by_name[0]
    if len(letter) != 1 or not "a" <= letter <= "z":
        return f"letter is one letter from a to z, not {letter!r}"
    return Edit.add(found["from"], letter, found["to"])
