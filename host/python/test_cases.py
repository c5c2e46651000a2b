"""The sample and the cases of docs/SCOPE.md: S7.8, and S8.1 to S8.5 with K1 to K12."""

from __future__ import annotations

import unittest

from dating import Cause, Refusal, Register, Tree


class Sample(unittest.TestCase):
    def test_sample(self) -> None:
        """S7.8, call by call."""
        register = Register(4)
        register.add(0, "a", 1)
        register.add(2, "a", 1)
        register.lock(1)
        with self.assertRaises(Refusal) as refused:
            register.add(1, "b", 3)
        self.assertEqual((refused.exception.number, refused.exception.cause), (4, Cause.LOCKED))
        self.assertEqual(list(register.pairs("a/^a")), [(0, 0), (0, 2), (2, 0), (2, 2)])
        register.undo()
        register.add(1, "b", 3)
        self.assertEqual([str(step) for step in register.chain(0, 3, "a/b")], ["a + 1", "b + 3"])


class Cases(unittest.TestCase):
    """S8.1, each by both engines where it is a pair question."""

    def setUp(self) -> None:
        self.register = Register(4)
        for from_, letter, to in [(0, "a", 1), (1, "a", 2), (2, "b", 0)]:
            self.register.add(from_, letter, to)

    def pairs(self, expression: str, expected: list[tuple[int, int]]) -> None:
        for ask in (self.register.pairs, self.register.pairs_by_rows, self.register.pairs_by_trees):
            self.assertEqual(list(ask(expression)), expected)
            self.assertEqual(ask(expression.encode(), most=0).total, len(expected))

    def chain(self, from_: int, to: int, expression: str, drawn: str) -> None:
        self.assertEqual(str(self.register.chain(from_, to, expression)), drawn)

    def test_k1(self) -> None:
        self.pairs("a", [(0, 1), (1, 2)])

    def test_k2(self) -> None:
        self.pairs("a/b", [(1, 0)])

    def test_k3(self) -> None:
        self.pairs("^(a/b)", [(0, 1)])

    def test_k4(self) -> None:
        self.pairs("a+", [(0, 1), (0, 2), (1, 2)])

    def test_k5(self) -> None:
        self.pairs("b?", [(0, 0), (1, 1), (2, 0), (2, 2), (3, 3)])

    def test_k6(self) -> None:
        self.pairs("c", [])

    def test_k7(self) -> None:
        self.pairs("(a|b)+", [(from_, to) for from_ in range(3) for to in range(3)])

    def test_k8(self) -> None:
        self.chain(2, 2, "(a|b)+", "2 -b-> 0 -a-> 1 -a-> 2 (3 steps)")

    def test_k9(self) -> None:
        self.chain(0, 0, "a*", "0 (0 steps)")

    def test_k10(self) -> None:
        self.chain(0, 2, "a/a|^b", "0 <-b- 2 (1 step)")

    def test_k11(self) -> None:
        self.assertIsNone(self.register.chain(0, 3, "(a|b|^a|^b)*"))

    def test_k12(self) -> None:
        words = Tree(4, self.register.pairs("a")).words()
        self.assertEqual((len(words), f"{words[0]:012b}"[::-1]), (1, "110001000010"))

    def test_limits(self) -> None:
        """S8.2: 63 letters, depth 8, 256 bytes."""
        self.pairs("|".join("a" * 63), [(0, 1), (1, 2)])
        self.pairs("(" * 8 + "a" + ")" * 8, [(0, 1), (1, 2)])
        for expression in ["|".join("a" * 64), "(" * 9 + "a" + ")" * 9, "a" * 257]:
            with self.assertRaises(Refusal) as refused:
                self.register.pairs(expression)
            self.assertEqual(refused.exception.cause, Cause.LIMITS)

    def test_held(self) -> None:
        """S8.3: after 257 edits 256 undos pass, and the next is refused."""
        register = Register(257)
        for record in range(257):
            register.lock(record)
        for _ in range(256):
            register.undo()
        with self.assertRaises(Refusal) as refused:
            register.undo()
        self.assertEqual(refused.exception.cause, Cause.NONE_HELD)
        self.assertEqual([record for record in range(257) if register.is_locked(record)], [0])

    def test_ring(self) -> None:
        """S8.4: on a ring of three, `a/a/a/a` needs four steps."""
        register = Register(3)
        for from_ in range(3):
            register.add(from_, "a", (from_ + 1) % 3)
        self.assertEqual(str(register.chain(0, 1, "a/a/a/a")), "0 -a-> 1 -a-> 2 -a-> 0 -a-> 1 (4 steps)")

    def test_withdrawn(self) -> None:
        """S8.5: with 3 withdrawn, K5 has no 3 3, and no chain begins or ends there."""
        self.register.withdraw(3)
        self.pairs("b?", [(0, 0), (1, 1), (2, 0), (2, 2)])
        self.assertIsNone(self.register.chain(3, 3, "a*"))
        self.register.reinstate(3)
        self.pairs("b?", [(0, 0), (1, 1), (2, 0), (2, 2), (3, 3)])
        self.chain(3, 3, "a*", "3 (0 steps)")


if __name__ == "__main__":
    unittest.main()
