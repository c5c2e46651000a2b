"""The printed page."""

from __future__ import annotations

from . import calls
from .arguments import Expression, text
from .calls import counted
from .items import Pairs, copied

# The bytes of a line with its line feed; the pairs of a line and of a page.
_LINE = 73
_LINE_PAIRS = 6
_PAGE_PAIRS = 354


def page_bytes(pairs: int) -> int:
    """The bytes of the pages of so many pairs.

    >>> page_bytes(0), page_bytes(6), page_bytes(7), page_bytes(355)
    (73, 146, 219, 4526)
    """
    return _LINE * (-(-pairs // _LINE_PAIRS) + max(1, -(-pairs // _PAGE_PAIRS)))


def read_pages(expression: Expression, pages: Expression) -> Pairs:
    """The pairs that the pages of an expression show, as `Register.pages` gives them. Bytes that
    are not the pages of that expression and some ascending list of different pairs of records below
    1,024 are refused with 14.

    >>> from dating import Register
    >>> read_pages("a+", Register(3).pages("a+"))
    <Pairs: 0>
    """
    spelt, printed = text(expression), text(pages)
    written = calls.words(len(printed) // _LINE * _LINE_PAIRS)
    count = counted(calls.read_pages(spelt, printed, written))
    return Pairs(copied(written, count), count)
