"""Pictures: links as text for Graphviz (`dot`), a record or a link to a line, the same for the same register each time.

Records of one generation (`Register.generations`) stand on one level, the higher generation above, so that links lead upward. If links lead back there are no
generations: a comment says which links do, these are dashed, and nothing is put on levels. Locked records are double boxes, withdrawn ones dashed hexagons,
all others ellipses; a legend at the foot explains what occurs. The links of a chain are drawn heavier, with the numbers of the steps that cross them.
"""

from __future__ import annotations

from collections.abc import Iterable

from . import calls
from .items import Link, Steps
from .names import Names
from .refusal import Cause, Refusal
from .register import Register
from .terms import Generations

MOST_LINKS = 600
"""The most links of a picture that someone can read."""

# What is said of the whole picture. Every link leads upward, as in a pedigree: cores at the foot, what they were matched against above them, and the
# masters, on which all dates rest, at the head.
_LAYOUT = [
    'graph [rankdir=BT, ranksep=0.75, nodesep=0.25, labelloc=t, fontname="Helvetica", fontsize=16];',
    'node [shape=ellipse, width=0.6, height=0.4, margin="0.06,0.04", fontname="Helvetica", fontsize=14];',
    'edge [color=gray40, arrowsize=0.7, fontname="Helvetica", fontsize=12];',
]
_LOCKED = "shape=box, peripheries=2"
_WITHDRAWN = 'shape=hexagon, style="dashed"'
_SHAPES = {0: "", calls.LOCKED: _LOCKED, calls.WITHDRAWN: _WITHDRAWN}
_WORDS = "shape=plaintext"
_CHAIN = 'penwidth=4, style="bold", color=black'
_LOOP = 'penwidth=2, style="dashed", arrowhead=empty, color=black'
_CHAIN_AND_LOOP = 'penwidth=4, style="bold,dashed", arrowhead=empty, color=black'
_CHAIN_RECORD = "penwidth=3"
_UNSEEN = 'style="invis"'
_LEGEND = "legend"
_ALL_WITHDRAWN = "all withdrawn"


class TooMuch(Exception):
    """A picture that no one could read: how large it would be, and what can be drawn instead."""


def of_letters(register: Register, letters: str, chain: Steps | None = None, names: Names | None = None) -> str:
    """The links with these letters, in any order and with repeats, and a chain in them if one is given. Drawn are the records at the links drawn, those of
    the chain, and all withdrawn ones, in a row of their own: no link can touch them, and who looks for such a record is to find it. Any other record is
    left out, also a locked one, and the heading says how many are.

    >>> register = Register(5)
    >>> register.add(2, "m", 1)
    >>> register.add(1, "m", 0)
    >>> of_letters(register, "m").splitlines()[0]
    '// Links m of 5 records, by generation; 2 records without such links are not drawn'
    """
    generations = register.generations(letters)
    links = [link for link in register.links() if link.letter in letters]
    head = f"Links {_joined(sorted(set(letters)))}" if letters else "No links"
    return _Drawing(register, links, set(letters), generations, chain, names, head, True).text()


def of_chain(register: Register, chain: Steps, names: Names | None = None) -> str:
    """A chain alone, from left to right: its records, and the links that it crosses, numbered as its steps."""
    known, marks = names or Names(), register._marks()
    ends = [chain.start, *(step.reached for step in chain)]
    if len(chain) > MOST_LINKS:
        raise TooMuch(f"the chain has {len(chain):,} steps, which no one can read in a picture: {MOST_LINKS} are the most")
    head = f"The chain from {known.record(ends[0])} to {known.record(ends[-1])}, of {_many(len(chain), 'step')}"
    lines = [f"// {head}", "digraph chain {", *(f"    {line}" for line in _LAYOUT)]
    lines = [line.replace("rankdir=BT", "rankdir=LR") for line in lines] + [f'    label="{_escaped(head)}\\n ";', ""]
    lines += [f"    {_record(record, marks[record], known, True)}" for record in dict.fromkeys(ends)]
    lines.append("")
    for place, (at, step) in enumerate(zip(ends, chain), 1):
        word = _escaped(known.letters.get(step.letter, step.letter))
        against = "" if step.forward else "dir=back"
        lines.append(f"    {_item(f'{at} -> {step.reached}', 'label=' + _quoted(f' {place}: {word}'), _CHAIN, against)}")
    return "".join(f"{line}\n" for line in [*lines, "}"])


def near(register: Register, record: int, steps: int, names: Names | None = None) -> str:
    """The links within so many of a record, whichever way they lead."""
    within, links = {record}, []
    register.is_locked(record)
    for _ in range(steps):
        links = [link for link in register.links() if link.from_ in within or link.to in within]
        within = within.union(*((link.from_, link.to) for link in links))
    letters = "".join(sorted({link.letter for link in links}))
    head = f"{_many(len(links), 'link')} within {steps} of record {record}"
    return _Drawing(register, links, set(letters), register.generations(letters), None, names, head, False, {record}).text()


class _Drawing:
    """All that is to be drawn."""

    def __init__(
        self,
        register: Register,
        links: list[Link],
        letters: set[str],
        generations: Generations,
        chain: Steps | None,
        names: Names | None,
        head: str,
        whole: bool,
        records: Iterable[int] = (),
    ) -> None:
        self.marks, self.letters, self.chain, self.names, self.head = register._marks(), letters, chain, names or Names(), head
        self.numbers = generations.numbers or {}
        self.loop = list(_crossings(generations.loop)) if generations.loop is not None else None
        self.crossings = _crossings(chain) if chain is not None else {}
        present = set(links)
        self.links = [link for link in register.links() if link in present or link in self.crossings]
        self.on_chain = {chain.start, *(step.reached for step in chain)} if chain is not None else set()
        self.touched = {end for link in self.links for end in (link.from_, link.to)} | self.on_chain | set(records)
        # A picture of a part has no row of withdrawn records.
        self.withdrawn = [record for record, mark in enumerate(self.marks) if mark == calls.WITHDRAWN and (whole or record in self.touched)]
        if any(link not in set(register.links()) for link in self.crossings):
            raise Refusal(Cause.ABSENT)
        if len(self.links) > MOST_LINKS:
            advice = "draw fewer letters, draw near RECORD K, or draw chain FROM TO EXPRESSION"
            raise TooMuch(f"{len(self.links):,} links would be drawn, which no one can read: {MOST_LINKS} are the most; {advice}")

    def text(self) -> str:
        heading = self.heading()
        lines = [f"// {line}" for line in heading]
        if self.loop is not None:
            words = _joined([f"{link.letter} of {link.from_}" for link in self.loop])
            lines.append(f"// no generations: the {'link' if len(self.loop) == 1 else 'links'} {words} {'leads' if len(self.loop) == 1 else 'lead'} back")
        lines += ["digraph register {", *(f"    {line}" for line in _LAYOUT), f'    label="{_escaped(chr(10).join(heading))}\\n ";']
        lines += [*self.legend(), *self.records(), "", *map(self.link, self.links), "}"]
        return "".join(f"{line}\n" for line in lines)

    def heading(self) -> list[str]:
        """What is drawn and what is left out, and the chain: the head of the text and of the picture."""
        manner = "by generation" if self.loop is None else "with no generations, since links lead back"
        left = len(self.marks) - len(self.touched.union(self.withdrawn))
        out = "" if left == 0 else f"; {_many(left, 'record')} without such links {'is' if left == 1 else 'are'} not drawn"
        lines = [f"{self.head} of {_many(len(self.marks), 'record')}, {manner}{out}"]
        if self.chain is not None:
            end = self.chain[-1].reached if len(self.chain) else self.chain.start
            lines.append(f"The chain from {self.name(self.chain.start)} to {self.name(end)}, of {_many(len(self.chain), 'step')}")
        return lines

    def name(self, record: int) -> str:
        return self.names.record(record)

    def legend(self) -> list[str]:
        """A row at the foot with each shape and each line that occurs: a shape around its own word, a line before its words. None if nothing is drawn."""
        drawn = {self.marks[record] for record in self.touched}
        shapes = [("in use", "", 0 in drawn), ("locked", _LOCKED, calls.LOCKED in drawn), ("withdrawn", _WITHDRAWN, bool(self.withdrawn))]
        lines = [
            (" the chain, its steps numbered", _CHAIN, self.chain is not None and len(self.chain) > 0),
            (" links that lead back", _LOOP, self.loop is not None),
        ]
        nodes, order, row = [], [], [_quoted(_LEGEND)]
        for word, shape, occurs in shapes:
            if occurs:
                nodes.append(_item(_quoted(word), shape))
                row.append(_quoted(word))
        for words, style, occurs in lines:
            if occurs:
                begin, end = _quoted(f"line of{words}"), _quoted(words)
                nodes += [_item(begin, "shape=point, width=0.05"), _item(end, _WORDS)]
                row.append(begin)
                order += [*_in_row(row), _item(f"{begin} -> {end}", "minlen=2", style)]
                row = [end]
        order += _in_row(row)
        return [*_group("source", _LEGEND, nodes), *(f"    {line}" for line in order)] if nodes else []

    def records(self) -> list[str]:
        """The records, those of a generation on one level, with its name at the left; the withdrawn ones below all others."""
        column, lines = [_quoted(_LEGEND)], []
        if self.withdrawn:
            lines += _group("same", _ALL_WITHDRAWN, map(self.record, self.withdrawn))
            column.append(_quoted(_ALL_WITHDRAWN))
        if self.loop is not None:
            lines += ["", *(f"    {self.record(record)}" for record in sorted(self.touched))]
        levels: dict[int, list[int]] = {}
        for record in sorted(self.touched.difference(self.withdrawn)):
            levels.setdefault(self.numbers.get(record, 0), []).append(record)
        for number, records in sorted(levels.items() if self.loop is None else []):
            lines += _group("same", f"generation {number}", map(self.record, records))
            column.append(_quoted(f"generation {number}"))
        return [*lines, *(f"    {line}" for line in _in_row(column))]

    def record(self, record: int) -> str:
        return _record(record, self.marks[record], self.names, record in self.on_chain)

    def link(self, link: Link) -> str:
        steps = self.crossings.get(link)
        numbered = f"{', '.join(map(str, steps))}: " if steps else ""
        back = self.loop is not None and link in self.loop
        along = self.loop is None and self.numbers.get(link.from_) == self.numbers.get(link.to)
        style = _CHAIN_AND_LOOP if steps and back else _CHAIN if steps else _LOOP if back else ""
        # A link of the chain whose letter is not drawn has no say in the levels.
        free = "constraint=false" if self.loop is None and link.letter not in self.letters else ""
        # The blank keeps the letter off a line that leads upward, the second line off one along a level.
        word = _escaped(self.names.letters.get(link.letter, link.letter))
        label = f'label=" {numbered}{word}{"" if not along else chr(92) + "n "}"'
        return f"    {_item(f'{link.from_} -> {link.to}', label, style, free)}"


def _record(record: int, mark: int, names: Names, on_chain: bool) -> str:
    label = f'label="{_escaped(names.records[record])}\\n{record}"' if record in names.records else ""
    return _item(str(record), label, _SHAPES[mark], _CHAIN_RECORD if on_chain else "")


def _crossings(chain: Steps) -> dict[Link, list[int]]:
    """Which of the steps, counted from 1, cross each link."""
    crossed: dict[Link, list[int]] = {}
    at = chain.start
    for place, step in enumerate(chain, 1):
        ends = (at, step.reached) if step.forward else (step.reached, at)
        crossed.setdefault(Link(ends[0], step.letter, ends[1]), []).append(place)
        at = step.reached
    return crossed


def _item(name: str, *attributes: str) -> str:
    """A line of the text: a node or a link, with those of its attributes that are not empty."""
    some = [attribute for attribute in attributes if attribute]
    return f"{name} [{', '.join(some)}];" if some else f"{name};"


def _group(rank: str, name: str, nodes: Iterable[str]) -> list[str]:
    """Nodes on one level, after the words that name it."""
    lines = [f"rank={rank};", _item(_quoted(name), _WORDS), *nodes]
    return ["", "    subgraph {", *(f"        {line}" for line in lines), "    }"]


def _in_row(names: list[str]) -> list[str]:
    """Unseen links that keep nodes in their order; none for a single node."""
    return [_item(" -> ".join(names), _UNSEEN)] if len(names) > 1 else []


def _quoted(name: str) -> str:
    return f'"{name}"'


def _escaped(text: str) -> str:
    return text.replace("\\", "\\\\").replace('"', '\\"').replace("\n", "\\n")


def _joined(words: list[str]) -> str:
    """`a`, `a and b`, `a, b and c`."""
    return words[0] if len(words) == 1 else f"{', '.join(words[:-1])} and {words[-1]}"


def _many(count: int, noun: str) -> str:
    return f"{count} {noun}{'' if count == 1 else 's'}"
