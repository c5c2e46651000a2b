"""The engine's functions as `host/dating.h` declares them, from the shared library.

    >>> from dating import calls
    >>> state = calls.words(calls.STATE_WORDS)
    >>> calls.fresh(4, state), calls.size(state), calls.lock(state, 4)
    (0, 4, 2)

Arguments are those of the header in their order, but a slice is one argument, lent as a pointer to
its first word and its length: a ctypes array, or bytes where bytes are only read. What is written
must not overlap what else is lent. A number that its C type does not hold raises OverflowError. The
other modules lend what each call needs, and `done`, `counted`, `told` and `numbered` read the
answers.
"""

from __future__ import annotations

import ctypes
import os
from ctypes import POINTER, c_char_p, c_int32, c_int64, c_size_t, c_uint8, c_uint16, c_uint32, c_uint64
from pathlib import Path
from typing import Any

from .refusal import Refusal

STATE_WORDS = 5406
"""The words of a register."""
LOCKED = 1
"""The mark of a locked record."""
WITHDRAWN = 2
"""The mark of a withdrawn record."""
PLACE = 32
"""By what the place of a refused edit is multiplied in the answer to a list of edits."""
WORK_WORDS = 764608
"""The words of work that are enough for every call."""
NO_CHAIN = 1 << 32
"""The answer to a chain question if there is no chain."""
LOOP = 1 << 32
"""What is added to the number of steps of a loop."""
CANNOT_HOLD = 1 << 32
"""The answer to offsets if no placing meets all ties."""
REFUSED = 1 << 33
"""What is added to the number of a refusal in an answer of 64 bits."""
NO_NUMBER = 65535
"""What stands in the list of new numbers for a withdrawn record."""


class LentTie(ctypes.Structure):
    """A tie as the engine reads it."""

    _fields_ = [("first", c_uint16), ("second", c_uint16), ("least", c_int32), ("most", c_int32)]


# Slices, by what they have. Bytes that are only read are lent as they are.
_WORDS = {POINTER(c_uint8), POINTER(c_uint16), POINTER(c_uint32), POINTER(c_uint64), POINTER(c_int32), POINTER(c_int64), POINTER(LentTie)}
_SLICES: set[Any] = {c_char_p, *_WORDS}


class Call:
    """An exported function: its result, then its parameters."""

    def __init__(self, name: str, result: Any, *parameters: Any) -> None:
        try:
            self.function = getattr(_LIBRARY, f"dating_{name}")
        except AttributeError as error:
            raise ImportError(f"{_LIBRARY._name} has no dating_{name}: host/shared makes the library of this checkout") from error
        self.name = name
        self.function.restype = result
        self.function.argtypes = [of for parameter in parameters for of in ((parameter, c_size_t) if parameter in _SLICES else (parameter,))]
        # The most that a number may be; none for a slice.
        self._most = [None if parameter in _SLICES else (1 << 8 * ctypes.sizeof(parameter)) - 1 for parameter in parameters]

    def __call__(self, *arguments: Any) -> int:
        if len(arguments) != len(self._most):
            raise TypeError(f"{self.name} takes {len(self._most)} arguments, not {len(arguments)}")
        lent: list[Any] = []
        for argument, most in zip(arguments, self._most):
            lent.append(argument)
            if most is None:
                lent.append(len(argument))
            elif not 0 <= argument <= most:
                raise OverflowError(f"{self.name} takes a number from 0 to {most}, not {argument}")
        answer: int = self.function(*lent)
        return answer

    def __repr__(self) -> str:
        return f"<call dating_{self.name}>"


def _library() -> ctypes.CDLL:
    """What DATING_LIBRARY names; or the one beside this file, as in an installed package; or that of the checkout."""
    named = os.environ.get("DATING_LIBRARY")
    here = Path(__file__).resolve().parent
    checkout = here.parents[2]
    installed = here / "libdating.so"
    path = Path(named).resolve() if named else installed if installed.is_file() else checkout / "target/lib/libdating.so"
    if not path.is_file():
        maker = checkout / "host/shared"
        how = f"{maker} makes target/lib/libdating.so"
        if not maker.is_file():
            path, how = path if named else installed, "in a checkout host/shared makes it, and pip install ./host/python takes it along"
        raise ImportError(f"{path} is missing: {how}; DATING_LIBRARY names another file")
    try:
        return ctypes.CDLL(str(path))
    except OSError as error:
        raise ImportError(f"{path} is no shared library of this machine: {error}") from error


_LIBRARY = _library()

# Declarations: host/declarations writes them.
fresh = Call("fresh", c_uint32, c_uint16, POINTER(c_uint32))
add = Call("add", c_uint32, POINTER(c_uint32), c_uint16, c_uint8, c_uint16)
remove = Call("remove", c_uint32, POINTER(c_uint32), c_uint16, c_uint8, c_uint16)
lock = Call("lock", c_uint32, POINTER(c_uint32), c_uint16)
unlock = Call("unlock", c_uint32, POINTER(c_uint32), c_uint16)
withdraw = Call("withdraw", c_uint32, POINTER(c_uint32), c_uint16)
reinstate = Call("reinstate", c_uint32, POINTER(c_uint32), c_uint16)
undo = Call("undo", c_uint32, POINTER(c_uint32))
size = Call("size", c_uint32, POINTER(c_uint32))
links = Call("links", c_uint64, POINTER(c_uint32), POINTER(c_uint32))
locked = Call("locked", c_uint32, POINTER(c_uint32), c_uint16)
withdrawn = Call("withdrawn", c_uint32, POINTER(c_uint32), c_uint16)
total = Call("total", c_uint64, POINTER(c_uint32), c_uint8)
pairs = Call("pairs", c_uint64, POINTER(c_uint32), c_char_p, POINTER(c_uint64), POINTER(c_uint32))
chain = Call("chain", c_uint64, POINTER(c_uint32), c_uint16, c_uint16, c_char_p, POINTER(c_uint64), POINTER(c_uint32))
ends = Call("ends", c_uint64, POINTER(c_uint32), c_uint16, c_char_p, POINTER(c_uint32))
starts = Call("starts", c_uint64, POINTER(c_uint32), c_uint16, c_char_p, POINTER(c_uint32))
totals = Call("totals", c_uint64, POINTER(c_uint32), POINTER(c_uint32))
marks = Call("marks", c_uint64, POINTER(c_uint32), POINTER(c_uint32))
tree_make = Call("tree_make", c_uint64, c_size_t, POINTER(c_uint32), POINTER(c_uint64), POINTER(c_uint64))
tree_list = Call("tree_list", c_uint64, c_size_t, POINTER(c_uint64), POINTER(c_uint32), POINTER(c_uint64))
tree_union = Call("tree_union", c_uint64, c_size_t, POINTER(c_uint64), POINTER(c_uint64), POINTER(c_uint64), POINTER(c_uint64))
tree_intersection = Call("tree_intersection", c_uint64, c_size_t, POINTER(c_uint64), POINTER(c_uint64), POINTER(c_uint64), POINTER(c_uint64))
tree_difference = Call("tree_difference", c_uint64, c_size_t, POINTER(c_uint64), POINTER(c_uint64), POINTER(c_uint64), POINTER(c_uint64))
tree_product = Call("tree_product", c_uint64, c_size_t, POINTER(c_uint64), c_uint8, POINTER(c_uint64), c_uint8, POINTER(c_uint64), POINTER(c_uint64))
tree_transpose = Call("tree_transpose", c_uint64, c_size_t, POINTER(c_uint64), POINTER(c_uint64), POINTER(c_uint64))
tree_closure = Call("tree_closure", c_uint64, c_size_t, POINTER(c_uint64), POINTER(c_uint64), POINTER(c_uint64))
preview = Call("preview", c_uint64, POINTER(c_uint32), c_uint16, c_uint16, c_uint8, c_uint16, c_char_p, POINTER(c_uint64), POINTER(c_uint32))
apply_all = Call("apply_all", c_uint64, POINTER(c_uint32), POINTER(c_uint64))
close_up = Call("close_up", c_uint32, POINTER(c_uint32), POINTER(c_uint16))
generations = Call("generations", c_uint64, POINTER(c_uint32), c_char_p, POINTER(c_uint64), POINTER(c_uint32))
sole_support = Call("sole_support", c_uint64, POINTER(c_uint32), c_uint16, c_char_p, POINTER(c_uint16), POINTER(c_uint64), POINTER(c_uint32))
pages = Call("pages", c_uint64, POINTER(c_uint32), c_char_p, POINTER(c_uint64), POINTER(c_uint8))
read_pages = Call("read_pages", c_uint64, c_char_p, c_char_p, POINTER(c_uint32))
pairs_by_rows = Call("pairs_by_rows", c_uint64, POINTER(c_uint32), c_char_p, POINTER(c_uint64), POINTER(c_uint32))
offsets = Call("offsets", c_uint64, POINTER(c_uint32), c_uint16, POINTER(LentTie), POINTER(c_int64), POINTER(c_int32))


def words(count: int) -> ctypes.Array[c_uint32]:
    """So many words of 32 bits, to be lent as a state or a list."""
    return (c_uint32 * count)()


def work(count: int) -> ctypes.Array[c_uint64]:
    """So many words of 64 bits, to be lent as work or a tree."""
    return (c_uint64 * count)()


def done(answer: int) -> None:
    """An answer of 0, or the number of a refusal."""
    if answer != 0:
        raise Refusal(answer)


def counted(answer: int) -> int:
    """An answer that is a count, or refused."""
    if answer >= REFUSED:
        raise Refusal(answer - REFUSED)
    return answer


def told(answer: int) -> int | None:
    """An answer that is a count, or none (no chain, or ties that cannot all hold), or refused."""
    return None if answer == NO_CHAIN else counted(answer)


def refused_at(answer: int) -> tuple[int, int] | None:
    """Of an answer to a list of edits: the place of the refused one and its number; none if all are made."""
    return divmod(answer - REFUSED, PLACE) if answer >= REFUSED else None


def numbered(answer: int) -> tuple[bool, int]:
    """An answer to generations: whether it is a loop, and how many words it has; or refused."""
    return counted(answer) >= LOOP, answer % LOOP
