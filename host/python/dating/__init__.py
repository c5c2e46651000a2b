"""The dating register and its path engine, from Python.

A `Register` has records 0 to n − 1, links between them with letters a to z, locks, and undo. Two
questions are asked of it: which pairs of records are joined by a path expression, and which is the
first of the shortest chains between two records. The engine is written in Rattle, and every
function of it is proved to meet its contract; this package lends it memory and reads what it wrote.

    >>> from dating import Refusal, Register
    >>> register = Register(4)
    >>> register.add(0, "a", 1)
    >>> register.add(2, "a", 1)
    >>> list(register.pairs("a/^a"))
    [(0, 0), (0, 2), (2, 0), (2, 2)]
    >>> print(register.chain(0, 2, "a/^a"))
    0 -a-> 1 <-a- 2 (2 steps)
    >>> try:
    ...     register.add(0, "a", 1)
    ... except Refusal as refusal:
    ...     print(refusal)
    refused 5: the link is there already

Expressions, from loosest to closest: `|` between alternatives; `/` between the parts of a sequence;
a part is an optional `^` (inverse), then a letter, a negated set (`!a`, `!^a`, `!(a|^b)`) or a
group in parentheses, then at most one of `*`, `+`, `?`. At most 256 bytes, 63 letters, groups 8
deep; no spaces.

A negated set with plain members crosses forward any link whose letter is none of them; one with
`^` members crosses against its sense any link whose letter is none of those; one with both does
either. To keep off `a` and `b` in both senses, write `!(a|b|^a|^b)`.

    >>> list(register.pairs("!(a|^b)"))
    [(1, 0), (1, 2)]
    >>> list(register.pairs("!(a|b|^a|^b)"))
    []

`Register`                 edits, undo, drafts, both questions, previews, explanations,
                           generations, sole support, pages, offsets
`open`, `Kept`             a register that is kept in a file: its history
`Edit`, `Draft`            edits by name, and edits that are made all or none
`Why`, `hangs`             why there is a chain or none, and what it hangs on
`Refusal`, `Cause`         what a call that cannot be done raises: a number, a name and words
`NotKept`, `Damaged`       what is raised for a file that cannot be written, or is no whole history
`Pairs`, `Steps`, `Links`  answers: sequences that never change
`Tree`                     sets of pairs as k2-trees, and their algebra
`read_pages`               the pairs that printed pages show
`sheets`, `drawing`        registers for exchange; pictures
`calls`                    the engine's functions as they are exported

`python3 -m dating FILE` is the shell over such a file.

The shared library stands in the package once that is installed; in a checkout it is
`target/lib/libdating.so`, which `host/shared` makes. DATING_LIBRARY names another.
"""

from __future__ import annotations

import sys

if sys.version_info < (3, 9):
    raise ImportError("Python 3.9 or later is needed")

from . import calls, drawing, sheets
from .arguments import Expression
from .draft import Draft
from .explain import Why, hangs
from .history import Damaged
from .items import Link, Links, Pairs, Step, Steps
from .kept import Kept, NotKept
from .kept import open_ as open
from .pages import page_bytes, read_pages
from .refusal import Cause, Refusal
from .register import Register
from .terms import Edit, Generations, Limits, Tie
from .tree import Tree

__version__ = "1.0.0"

__all__ = [
    "Cause",
    "Damaged",
    "Draft",
    "Edit",
    "Expression",
    "Generations",
    "Kept",
    "Limits",
    "Link",
    "Links",
    "NotKept",
    "Pairs",
    "Refusal",
    "Register",
    "Step",
    "Steps",
    "Tie",
    "Tree",
    "Why",
    "calls",
    "drawing",
    "hangs",
    "open",
    "page_bytes",
    "read_pages",
    "sheets",
]
