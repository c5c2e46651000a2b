"""Why there is a chain or none, and what a chain hangs on. Only the engine is asked: every piece of an expression is read by its reader."""

from __future__ import annotations

from typing import NamedTuple

from . import expressions
from .arguments import Expression, number, text
from .items import Steps
from .questions import Questions
from .texts import Named, chain, filled, listed


class Reach(NamedTuple):
    """How far one alternative of an expression goes."""

    parts: list[str]
    """The parts of its sequence."""
    onward: list[list[int]]
    """For each part, the records that are reached from the first record by the parts up to it; ends at the first part that reaches none."""
    back: list[list[int]]
    """For each part, from the last on, the records from which the second record is reached by that part and those after it; ends likewise."""


class Why:
    """The chain from one record to another; if there is none, how far the expression goes from either end, and where it stops.

    >>> from dating import Register
    >>> register = Register(4)
    >>> register.add(0, "t", 1)
    >>> register.add(3, "m", 2)
    >>> print(register.why(0, 2, "t/m"))
    no chain of any length from 0 to 2
    from 0: t reaches 1; then m reaches none
    to 2: m leads there from 3; before it t from none
    """

    def __init__(self, register: Questions, from_: int, to: int, expression: Expression) -> None:
        spelt = text(expression)
        self.from_, self.to = from_, to
        self.steps: Steps | None = register.chain(from_, to, spelt)
        """The chain, if there is one."""
        self.withdrawn = [end for end in dict.fromkeys((from_, to)) if register.is_withdrawn(end)]
        """Which of the ends are withdrawn."""
        self.reaches: list[Reach] = []
        """How far each alternative goes, if there is no chain."""
        self.no_links: list[str] = []
        """The letters of the expression that no link has."""
        self.other_way: Steps | None = None
        """The chain the other way round, if there is that one alone."""
        if self.steps is None:
            totals = register.totals()
            self.no_links = [letter for letter in expressions.letters(spelt) if letter not in totals]
            if not self.withdrawn:
                self.reaches = [_reach(register, number(from_), number(to), parts) for parts in expressions.alternatives(spelt)]
                self.other_way = register.chain(to, from_, spelt)

    def __bool__(self) -> bool:
        return self.steps is not None

    def text(self, named: Named = str) -> str:
        """The lines of the explanation."""
        if self.steps is not None:
            return chain(self.steps, named)
        ends = f"from {named(self.from_)} to {named(self.to)}"
        reason = ": both are withdrawn" if len(self.withdrawn) == 2 else f": {named(self.withdrawn[0])} is withdrawn" if self.withdrawn else ""
        lines = [f"no chain of any length {ends}{reason}"]
        if self.no_links:
            lines.append(f"no link has the letter {' or '.join(self.no_links)}")
        for reach in self.reaches:
            head = f"by {'/'.join(reach.parts)}, " if len(self.reaches) > 1 else ""
            onward = zip(reach.parts, reach.onward)
            back = zip(reach.parts[::-1], reach.back)
            reached = [f"{part} reaches {_some(found, named)}" for part, found in onward]
            if reach.onward[-1]:
                reached[-1] += f", and not {named(self.to)}"
            lines.append(_told(f"{head}from {named(self.from_)}:", reached, "then"))
            lines.append(_told(f"{head}to {named(self.to)}:", _backward(back, named), "before it"))
        if self.other_way is not None:
            lines.append(filled(f"there is one the other way round: {chain(self.other_way, named)}".split()))
        return "\n".join(lines)

    def __str__(self) -> str:
        return self.text()

    def __repr__(self) -> str:
        return f"<Why: {'a chain' if self else 'no chain'} from {self.from_} to {self.to}>"


def _reach(register: Questions, from_: int, to: int, parts: list[bytes]) -> Reach:
    return Reach([part.decode() for part in parts], onward(register, from_, parts), back(register, to, parts))


def onward(register: Questions, from_: int, parts: list[bytes]) -> list[list[int]]:
    """For each part of a sequence, the records that are reached from one by the parts up to it; ends at the first part that reaches none."""
    found: list[list[int]] = []
    for last in range(1, len(parts) + 1):
        found.append(register.ends(from_, b"/".join(parts[:last])))
        if not found[-1]:
            break
    return found


def back(register: Questions, to: int, parts: list[bytes]) -> list[list[int]]:
    """For each part, from the last on, the records from which one is reached by that part and those after it; ends likewise."""
    found: list[list[int]] = []
    for first in reversed(range(len(parts))):
        found.append(register.starts(to, b"/".join(parts[first:])))
        if not found[-1]:
            break
    return found


def _some(records: list[int], named: Named) -> str:
    return listed("", records, named).strip().replace("\n    ", " ") if records else "none"


def _backward(back: zip[tuple[str, list[int]]], named: Named) -> list[str]:
    told = [(part, _some(found, named)) for part, found in back]
    return [f"{part} leads there from {found}" if place == 0 else f"{part} from {found}" for place, (part, found) in enumerate(told)]


def _told(head: str, pieces: list[str], between: str) -> str:
    return filled(f"{head} {f'; {between} '.join(pieces)}".split(" "))


def hangs(register: Questions, from_: int, to: int, expression: Expression) -> tuple[Steps | None, list[int]]:
    """The chain from one record to another, and the records without whose links there would be no chain between them: some of those that it passes, since
    this chain is left by the removal of any other record's links.

    >>> from dating import Register
    >>> register = Register(4)
    >>> register.add(0, "a", 1)
    >>> register.add(1, "a", 2)
    >>> hangs(register, 0, 2, "a/a")
    (<Steps: 0 -a-> 1 -a-> 2 (2 steps)>, [1])
    """
    steps = register.chain(from_, to, expression)
    if steps is None:
        return None, []
    passed = sorted({step.reached for step in steps} - {from_, to})
    return steps, [core for core in passed if from_ in register.sole_support(core, expression, [to])]
