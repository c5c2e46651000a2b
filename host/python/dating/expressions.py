"""Expressions as the engine's own reader tells of them: where one goes wrong, and which alternatives and parts it has. There is no grammar here but the
engine's: every piece is read by it.
"""

from __future__ import annotations

from collections.abc import Iterator
from contextlib import contextmanager

from . import calls
from .refusal import Cause, Refusal
from .texts import WIDTH, shown

# The limits of an expression (S3.5 of docs/SCOPE.md).
_MOST_BYTES = 256
_MOST_LETTERS = 63
_MOST_DEEP = 8
# The bytes of expressions, a letter for all of them.
_BYTES = b"a!(^)*+?/|"
# What stands before a text that is shown with a mark, and the most of it that is shown before and after the mark.
_INDENT = 2
_BEFORE = 50
_AFTER = WIDTH - _INDENT - _BEFORE - 4


def cause(text: bytes) -> Cause | None:
    """Why the engine's reader turns the text down, if it does. It is lent as the expression of an empty page: the text is judged first, and then an empty
    page, which is no page of any text, is refused with another number (S17.5).
    """
    found = Cause(calls.read_pages(text, b"", calls.words(0)) - calls.REFUSED)
    return None if found == Cause.FRAME else found


def _endings(text: bytes) -> list[bytes]:
    """The two shortest ways to end a text: as it is, or with a letter, and then every open parenthesis closed. None if one was closed that was not open.

    They suffice. Where a text breaks off, either a part, or a member of a set, is whole, or one is wanted: at the beginning, in a group or a set that was
    opened, after `|`, `/`, `^` or `!`. A letter is whole wherever one is wanted. Then nothing is left but to close what is open. Any other way to end the
    text has at least as many bytes, letters and groups, so if these two are over a limit all are.
    """
    still = text.count(b"(") - text.count(b")")
    return [] if still < 0 else [text + b")" * still, text + b"a" + b")" * still]


def _goes_on(text: bytes) -> bool:
    """Whether an expression that the engine accepts, within the limits too, begins with the text."""
    return any(cause(ended) is None for ended in _endings(text))


def place(text: bytes) -> int:
    """The first place p such that no expression begins with the first p + 1 bytes; the length if the text can go on."""
    return next((at for at in range(len(text)) if not _goes_on(text[: at + 1])), len(text))


def _limit(text: bytes) -> str:
    """The limit that the last byte of a text is over, if it is that and not the grammar: a group is over it by its parenthesis."""
    if not any(len(ended) <= _MOST_BYTES and cause(ended) == Cause.LIMITS for ended in _endings(text)):
        return ""
    return f"groups are at most {_MOST_DEEP} deep" if text.endswith(b"(") else f"at most {_MOST_LETTERS} letters"


def _next(text: bytes) -> str:
    """What can stand after a text: `a to z ! ( ^`, or `* + ? / | or the end`."""
    follows = [chr(byte) for byte in _BYTES if _goes_on(text + bytes([byte]))]
    if not follows:
        return "here can come nothing more"
    return f"here can come {' '.join(follows)}{' or the end' if cause(text) is None else ''}".replace("come a", "come a to z")


def _marked(text: bytes, at: int, remark: str) -> str:
    """The text on one line, and on the next a mark under one of its bytes, or past them, with a remark. Of a long text the part around the mark."""
    first, last = max(0, at - _BEFORE), min(len(text), at + _AFTER)
    front, back = ".." if first > 0 else "", ".." if last < len(text) else ""
    column = _INDENT + len(front) + at - first
    return f"{' ' * _INDENT}{front}{shown(text[first:last].decode(errors='surrogateescape'))}{back}\n{' ' * column}^ {remark}"


def fault(text: bytes) -> tuple[str, str]:
    """What is wrong with an expression that the reader turns down: the words, and the lines with the mark."""
    if cause(text) == Cause.LIMITS:
        return _over(text)
    at = place(text)
    remark = _next(text[:at])
    if at == len(text):
        remark = f"not finished: {remark}"
    elif text[at : at + 1] in (b" ", b"\t", b"\r"):
        remark = f"an expression has no blanks: {remark}"
    elif limit := _limit(text[: at + 1]):
        remark = f"{limit}: {remark}"
    return Cause.GRAMMAR.meaning, _marked(text, at, remark)


def _over(text: bytes) -> tuple[str, str]:
    """Which limit an expression is over, and where."""
    if len(text) > _MOST_BYTES:
        return f"the expression has {len(text):,} bytes, and {_MOST_BYTES} are the most", ""
    at = place(text)
    deep = text[at : at + 1] == b"("
    words = f"the groups of the expression are more than {_MOST_DEEP} deep" if deep else f"the expression has more than {_MOST_LETTERS} letters"
    return words, _marked(text, at, _limit(text[: at + 1]))


@contextmanager
def marked(text: bytes) -> Iterator[None]:
    """A refusal of this expression says where it goes wrong."""
    try:
        yield
    except Refusal as refusal:
        if refusal.cause not in (Cause.GRAMMAR, Cause.LIMITS):
            raise
        words, mark = fault(text)
        raise Refusal(refusal.cause, words, refusal.place, mark) from None


def _split(text: bytes, by: bytes) -> list[bytes]:
    """The text parted at a byte that stands in no parentheses."""
    parts, depth, first = [], 0, 0
    for at, byte in enumerate(text):
        depth += (byte == ord("(")) - (byte == ord(")"))
        if depth == 0 and byte == by[0]:
            parts.append(text[first:at])
            first = at + 1
    return [*parts, text[first:]]


def _bare(text: bytes) -> bytes:
    """The text without parentheses around the whole of it."""
    while text.startswith(b"(") and text.endswith(b")") and cause(text[1:-1]) is None:
        text = text[1:-1]
    return text


def alternatives(text: bytes) -> list[list[bytes]]:
    """The alternatives of an expression, each as the parts of its sequence. Every part, and every run of parts with `/` between them, is an expression.

    >>> alternatives(b"(^t/(o|^o)*/m|z)")
    [[b'^t', b'(o|^o)*', b'm'], [b'z']]
    """
    with marked(text):
        calls.done(cause(text) or 0)
    found = []
    for alternative in _split(_bare(text), b"|"):
        bare = _bare(alternative)
        # A group that is a whole alternative may have alternatives of its own.
        found += alternatives(bare) if bare != alternative else [_split(alternative, b"/")]
    return found


def letters(text: bytes) -> list[str]:
    """The letters that an accepted expression crosses, each once; those of a negated set, which it does not, are left out.

    >>> letters(b"^t/(o|^o)*/!(m|^n)/t")
    ['o', 't']
    """
    found, at = set(), 0
    while at < len(text):
        if text[at : at + 1] == b"!":
            at = text.index(b")", at) if text[at + 1 : at + 2] == b"(" else at + (2 if text[at + 1 : at + 2] == b"^" else 1)
        elif ord("a") <= text[at] <= ord("z"):
            found.add(chr(text[at]))
        at += 1
    return sorted(found)
