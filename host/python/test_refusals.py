"""Every refusal that can be provoked from Python, numbers that the engine's types do not hold, and arguments of a wrong type."""

from __future__ import annotations

import ctypes
import pickle
import unittest
from typing import Any, Callable

from dating import Cause, Edit, Refusal, Register, Tie, Tree, calls, read_pages

OUTSIDE = [True, False, -1, -65536, -(10**30), 65535, 65536, 65537, 1 << 32, 10**30]


class Refused(unittest.TestCase):
    def refused(self, cause: Cause, call: Callable[..., Any], *arguments: Any) -> None:
        with self.assertRaises(Refusal) as refused:
            call(*arguments)
        self.assertEqual(refused.exception.cause, cause)


class Every(Refused):
    """Each number, by its name."""

    def setUp(self) -> None:
        self.register = Register(4)
        self.register.add(0, "a", 1)

    def test_size(self) -> None:
        for n in [0, 1025, *OUTSIDE]:
            self.refused(Cause.SIZE, Register, n)
            self.refused(Cause.SIZE, Tree, n)
            self.refused(Cause.SIZE, Tree.of_words, n, [])

    def test_record(self) -> None:
        register = self.register
        for record in [4, 1023, 1024, *OUTSIDE]:
            for call in (register.lock, register.unlock, register.withdraw, register.reinstate):
                self.refused(Cause.RECORD, call, record)
            for call in (register.add, register.remove):
                self.refused(Cause.RECORD, call, record, "a", 0)
                self.refused(Cause.RECORD, call, 0, "a", record)
            self.refused(Cause.RECORD, register.chain, record, 0, "a")
            self.refused(Cause.RECORD, register.chain, 0, record, "a")
            self.refused(Cause.RECORD, register.preview, Edit.lock(record), "a")
            self.refused(Cause.RECORD, register.sole_support, record, "a", [0])
            self.refused(Cause.RECORD, register.sole_support, 0, "a", [0, record])
            self.refused(Cause.RECORD, register.offsets, record, [])
            self.refused(Cause.RECORD, register.offsets, 0, [(0, record, 0, 0)])
            self.refused(Cause.RECORD, Tree, 4, [(0, record)])
            self.refused(Cause.RECORD, Tree, 4, [(record, 0)])
            for asked in (register.is_locked, register.is_withdrawn, register.links_of):
                self.refused(Cause.RECORD, asked, record)
            self.refused(Cause.RECORD, register.ends, record, "a")
            self.refused(Cause.RECORD, register.starts, record, "a")
            self.refused(Cause.RECORD, register.apply, [Edit.lock(record)])

    def test_label(self) -> None:
        for letter in ["A", "`", "{", "", "aa", "é", "a\0", "\udc80", "0"]:
            for call in (self.register.add, self.register.remove):
                self.refused(Cause.LABEL, call, 0, letter, 1)
            self.refused(Cause.LABEL, self.register.total, letter)
            self.refused(Cause.LABEL, self.register.generations, ["a", letter])
            self.refused(Cause.LABEL, self.register.preview, Edit.add(0, letter, 1), "a")

    def test_locked(self) -> None:
        self.register.lock(1)
        self.refused(Cause.LOCKED, self.register.remove, 0, "a", 1)
        self.refused(Cause.LOCKED, self.register.withdraw, 1)

    def test_already(self) -> None:
        self.refused(Cause.ALREADY, self.register.add, 0, "a", 1)
        self.register.lock(3)
        self.refused(Cause.ALREADY, self.register.lock, 3)
        self.register.withdraw(2)
        self.refused(Cause.ALREADY, self.register.withdraw, 2)

    def test_absent(self) -> None:
        self.refused(Cause.ABSENT, self.register.remove, 1, "a", 0)
        self.refused(Cause.ABSENT, self.register.unlock, 0)
        self.refused(Cause.ABSENT, self.register.reinstate, 0)

    def test_full(self) -> None:
        register = Register(64)
        for from_ in range(64):
            for to in range(64):
                register.add(from_, "a", to)
        self.assertEqual((len(register.links()), register.total("a")), (4096, 4096))
        self.refused(Cause.FULL, register.add, 0, "b", 0)

    def test_none_held(self) -> None:
        self.register.undo()
        self.refused(Cause.NONE_HELD, self.register.undo)

    def questions(self, cause: Cause, expression: Any) -> None:
        register = self.register
        for ask in (register.pairs, register.pairs_by_rows, register.pairs_by_trees, register.pages):
            self.refused(cause, ask, expression)
        self.refused(cause, register.chain, 0, 1, expression)
        self.refused(cause, register.preview, Edit.lock(0), expression)
        self.refused(cause, register.sole_support, 0, expression, [1])

    def test_grammar(self) -> None:
        for expression in ["", "a)", "A", "a b", b"\xff", "é", "a\udc80", "a\0", "\U0001f332", "ａ"]:
            self.questions(Cause.GRAMMAR, expression)

    def test_limits(self) -> None:
        # 129 characters that are not ASCII are 258 bytes, and over 256 bytes comes first.
        for expression in ["a" * 257, "é" * 129, b"(" * 9 + b"a" + b")" * 9, "|".join("a" * 64), "a" * 100_000]:
            self.questions(Cause.LIMITS, expression)

    def test_tree(self) -> None:
        for words in [[1], [0], [1, 1], [(1 << 64) - 1], [1 << 64], [-1]]:
            self.refused(Cause.TREE, Tree.of_words, 4, words)
        self.refused(Cause.TREE, Tree(4, [(0, 1)]).union, Tree(64, [(60, 1)]))

    def test_work_and_list(self) -> None:
        """The package lends enough; the calls themselves can be lent too little."""
        state = calls.words(calls.STATE_WORDS - 1)
        self.assertEqual(calls.fresh(4, state), Cause.WORK)
        state = calls.words(calls.STATE_WORDS)
        calls.fresh(4, state)
        calls.add(state, 0, 0, 1)
        answer = calls.pairs(state, b"a", calls.work(31), calls.words(1))
        self.refused(Cause.WORK, calls.counted, answer)
        answer = calls.chain(state, 0, 1, b"a", calls.work(256), calls.words(0))
        self.refused(Cause.LIST, calls.told, answer)

    def test_frame(self) -> None:
        pages = self.register.pages("a")
        self.assertEqual(list(read_pages("a", pages)), [(0, 1)])
        self.assertEqual(list(read_pages(b"a", pages.decode())), [(0, 1)])
        for expression, printed in [("b", pages), ("a", pages[:-1]), ("a", b""), ("a", pages * 2), ("a", "é" * 73), ("a", b"\0" * 1000)]:
            self.refused(Cause.FRAME, read_pages, expression, printed)

    def test_kind(self) -> None:
        for kind in [0, 1, 7, 12, *OUTSIDE]:
            self.refused(Cause.KIND, self.register.preview, Edit(kind), "a")

    def test_not_opened(self) -> None:
        words = self.register.words()
        for wrong in [[], words[:-1], [0] * len(words), [1 << 32, *words], [-1, *words], [4, 4097, *words[2:]]]:
            self.refused(Cause.NOT_OPENED, Register.of_words, wrong)

    def test_other_version(self) -> None:
        """Words without the mark, and those of another version, have messages of their own."""
        words = self.register.words()
        with self.assertRaisesRegex(Refusal, "no mark of a register"):
            Register.of_words(words[3:])
        words[1] = 2
        with self.assertRaisesRegex(Refusal, "of version 2, and this package reads version 1"):
            Register.of_words(words)

    def test_touched(self) -> None:
        self.refused(Cause.TOUCHED, self.register.withdraw, 1)

    def test_withdrawn(self) -> None:
        self.register.withdraw(3)
        self.refused(Cause.WITHDRAWN, self.register.add, 0, "a", 3)
        self.refused(Cause.WITHDRAWN, self.register.lock, 3)
        self.refused(Cause.WITHDRAWN, self.register.offsets, 3, [])

    def test_tie(self) -> None:
        ties = [(0, 1, -20001, 0), (0, 1, 0, 20001), (0, 1, 1, 0), (0, 1, 0, 1 << 32), (0, 1, 0, 10**30), (0, 1, -(10**30), 0), (0, 1, -(1 << 32), 0)]
        for tie in ties:
            self.refused(Cause.TIE, self.register.offsets, 0, [tie])
        self.refused(Cause.TIE, self.register.offsets, 0, [Tie(0, 1, 0, 0)] * 1025)
        self.assertIsNotNone(self.register.offsets(0, [Tie(0, 1, 0, 0)] * 1024))

    def test_anchors(self) -> None:
        self.refused(Cause.ANCHORS, self.register.sole_support, 0, "a", [1, 0])
        self.refused(Cause.ANCHORS, self.register.sole_support, 0, "a", [1, 1])

    def test_none_in_use(self) -> None:
        register = Register(1)
        register.withdraw(0)
        self.refused(Cause.NONE_IN_USE, register.close_up)

    def test_all_are_here(self) -> None:
        """A cause without its test is seen."""
        tested = "_".join(name for name in dir(self) if name.startswith("test_")).upper()
        self.assertEqual([cause.name for cause in Cause if cause.name not in tested], [])

    def test_first_cause(self) -> None:
        """Numbers that the types do not hold keep the order of causes."""
        self.register.lock(0)
        self.refused(Cause.RECORD, self.register.add, 0, "A", -1)
        self.refused(Cause.LABEL, self.register.add, 0, "A", 1)
        self.refused(Cause.RECORD, self.register.chain, 65536, 0, "a)")
        self.refused(Cause.RECORD, self.register.offsets, 0, [(0, 1, 0, 10**30), (0, -1, 0, 0)])
        self.refused(Cause.RECORD, self.register.preview, Edit.add(-1, "A", 0), "a)")

    def test_unchanged(self) -> None:
        """A refused call leaves the register as it was."""
        words = self.register.words()
        for call, arguments in [(self.register.add, (65536, "a", 1)), (self.register.add, (0, "A", 1)), (self.register.pairs, ("a)",))]:
            with self.assertRaises(Refusal):
                call(*arguments)
        self.assertEqual(self.register.words(), words)


class Wrong(unittest.TestCase):
    """Arguments of a wrong type raise TypeError, and do nothing."""

    def test_types(self) -> None:
        register = Register(4)
        words = register.words()
        numbers: list[Any] = [None, "1", 1.0, b"1", [], (1,), object()]
        letters: list[Any] = [None, 0, b"a", ["a"], 1.0]
        texts: list[Any] = [None, 0, ["a"], bytearray(b"a"), memoryview(b"a"), object()]
        wrong: list[tuple[Callable[..., Any], tuple[Any, ...]]] = []
        for number in numbers:
            wrong += [(Register, (number,)), (register.lock, (number,)), (register.unlock, (number,)), (register.withdraw, (number,))]
            wrong += [(register.reinstate, (number,)), (register.is_locked, (number,)), (register.is_withdrawn, (number,))]
            wrong += [(register.add, (number, "a", 1)), (register.add, (0, "a", number)), (register.remove, (number, "a", 1))]
            wrong += [(register.chain, (number, 0, "a")), (register.chain, (0, number, "a")), (register.preview, (Edit.lock(number), "a"))]
            wrong += [(register.sole_support, (number, "a", [0])), (register.sole_support, (0, "a", [number])), (register.offsets, (number, []))]
            wrong += [(register.offsets, (0, [(0, 1, number, 1)])), (register.offsets, (0, [(number, 1, 1, 1)])), (Tree, (number,))]
            wrong += [(Tree, (4, [(number, 0)])), (Register.of_words, ([number],)), (Tree.of_words, (4, [number]))]
        for letter in letters:
            wrong += [(register.add, (0, letter, 1)), (register.remove, (0, letter, 1)), (register.total, (letter,))]
            wrong += [(register.generations, ([letter],)), (register.preview, (Edit.add(0, letter, 1), "a"))]
        for text in texts:
            wrong += [(register.pairs, (text,)), (register.pairs_by_trees, (text,)), (register.chain, (0, 1, text)), (register.pages, (text,))]
            wrong += [(read_pages, (text, b"")), (read_pages, ("a", text)), (register.preview, (Edit.lock(0), text))]
            wrong += [(register.sole_support, (0, text, [0]))]
        wrong += [(register.generations, (3,)), (register.sole_support, (0, "a", 1)), (register.offsets, (0, 3)), (register.offsets, (0, [3]))]
        wrong += [(register.offsets, (0, [(0, 1, 2)])), (register.pairs, ("a", "1")), (register.pairs, ("a", 1.5)), (register.preview, (None, "a"))]
        wrong += [(register.preview, ("undo", "a")), (register.preview, ("add 0 a 1", "a")), (register.preview, ((2, 0, "a", 1), "a"))]
        wrong += [(Tree(4).union, (None,)), (Tree(4).product, ([(0, 1)],)), (Register.of_words, (b"1234",)), (Tree.of_words, (4, b"12345678"))]
        wrong += [(Tree, (4, [0])), (Register, ()), (register.add, (0, "a")), (lambda tree: tree | {(0, 1)}, (Tree(4),))]
        for call, arguments in wrong:
            with self.subTest(call=call, arguments=arguments), self.assertRaises(TypeError):
                call(*arguments)
        self.assertEqual(register.words(), words)

    def test_words(self) -> None:
        """Cells of a sheet are text: what was wanted is said in words."""
        register: Any = Register(4)
        with self.assertRaisesRegex(TypeError, "^a number is an int, not str$"):
            register.add("0", "a", 1)
        with self.assertRaisesRegex(TypeError, "^a letter is a str, not int$"):
            register.add(0, 1, "a")
        with self.assertRaisesRegex(TypeError, "^an edit is an Edit, as in .*, not str$"):
            register.preview("undo", "a")

    def test_most(self) -> None:
        with self.assertRaises(ValueError):
            Register(4).pairs("a*", most=-1)
        self.assertEqual(len(Register(4).pairs("a*", most=10**30)), 4)

    def test_calls(self) -> None:
        """The calls themselves take what their types hold, in the right number, and nothing else."""
        state = calls.words(calls.STATE_WORDS)
        self.assertEqual(calls.fresh(4, state), 0)
        for record in [-1, 65536]:
            with self.assertRaises(OverflowError):
                calls.lock(state, record)
        for arguments in [(state,), (state, 0, 0), (None, 0), (4, 0)]:
            with self.assertRaises(TypeError):
                calls.lock(*arguments)
        for arguments in [(calls.work(3000), 0), (b"a" * 6000, 0), (list(state), 0), (state, 0.5)]:
            with self.assertRaises(ctypes.ArgumentError):
                calls.lock(*arguments)

    def test_numbers_like_integers(self) -> None:
        """What stands for an integer elsewhere does so here."""

        class Last:
            """The last record, asked of the register itself in the midst of a call."""

            def __index__(self) -> int:
                return register.size - 1

        register = Register(True + 2)
        register.add(Last(), "a", 1)
        self.assertEqual(list(register.pairs("a", most=Last())), [(2, 1)])
        self.assertEqual((str(register.chain(Last(), 1, "a")), register.is_locked(Last()), register.is_withdrawn(Last())), ("2 -a-> 1 (1 step)", False, False))

    def test_pickled(self) -> None:
        refusal = pickle.loads(pickle.dumps(Refusal(4)))
        self.assertEqual((refusal.number, str(refusal)), (4, str(Refusal(Cause.LOCKED))))


if __name__ == "__main__":
    unittest.main()
