"""What the package adds to the engine: answers that stay, copies, threads, and the calls that the other tests do not compare."""

from __future__ import annotations

import copy
import os
import pickle
import random
import threading
import unittest

from dating import Edit, Limits, Link, Register, Step, Tie, Tree, page_bytes, read_pages


def made(n: int, links: str) -> Register:
    """A register of links such as `0a1 1a2`."""
    register = Register(n)
    for link in links.split():
        register.add(int(link[0]), link[1], int(link[2]))
    return register


class Answers(unittest.TestCase):
    def test_answers_stay(self) -> None:
        """An answer is the same after other questions and edits."""
        register = made(4, "0a1 1a2 2b0")
        pairs, chain, links = register.pairs("a+"), register.chain(0, 2, "a/a"), register.links()
        loop = register.generations("ab").loop
        register.undo()
        register.add(3, "c", 3)
        register.pairs("(a|b|c)*")
        register.chain(3, 3, "c/c/c")
        register.links()
        self.assertEqual(list(pairs), [(0, 1), (0, 2), (1, 2)])
        self.assertEqual(str(chain), "0 -a-> 1 -a-> 2 (2 steps)")
        self.assertEqual([str(link) for link in links], ["0 a 1", "1 a 2", "2 b 0"])
        self.assertEqual(str(loop), "0 -a-> 1 -a-> 2 -b-> 0 (3 steps)")

    def test_words_are_copies(self) -> None:
        register = made(4, "0a1")
        register.words()[0] = 1
        pairs = register.pairs("a")
        pairs.words()[0] = 7
        tree = Tree(4, pairs)
        tree.words()[0] = 0
        self.assertEqual((register.size, list(pairs), list(tree)), (4, [(0, 1)], [(0, 1)]))

    def test_pairs(self) -> None:
        pairs = made(4, "0a1 1a2 2a3").pairs("a+")
        self.assertEqual((len(pairs), pairs.total, pairs[-1], pairs[1:3]), (6, 6, (2, 3), [(0, 2), (0, 3)]))
        self.assertEqual([pair for pair in [(x, y) for x in range(-1, 5) for y in range(-1, 5)] if pair in pairs], list(pairs))
        self.assertNotIn((0, 1025), pairs)
        for other in ("ab", None, 3, (), (0,), (0, 1, 2), (0.5, 1), [None, 1]):
            self.assertNotIn(other, pairs)
        self.assertEqual(list(reversed(pairs)), list(pairs)[::-1])
        self.assertEqual(pairs.index((1, 2)), 3)
        self.assertEqual(repr(pairs), "<Pairs: 6: (0, 1), (0, 2), (0, 3), (1, 2), (1, 3), (2, 3)>")
        self.assertTrue(repr(made(4, "0a1 1a2 2a3").pairs("a*")).endswith("(1, 1), (1, 2), ..>"))
        with self.assertRaises(IndexError):
            pairs[6]
        # Each iterator is its own.
        first, second = iter(pairs), iter(pairs)
        self.assertEqual((next(first), next(first), next(second)), ((0, 1), (0, 2), (0, 1)))

    def test_most(self) -> None:
        """The smallest pairs, and how many there are, by every call that may give fewer."""
        register = made(4, "0a1 1a2")
        asked = [
            (register.pairs, ("a+",)),
            (register.pairs_by_rows, ("a+",)),
            (register.pairs_by_trees, ("a+",)),
            (register.preview, (Edit.lock(0), "a+")),
            (Tree(4, register.pairs("a+")).pairs, ()),
        ]
        for call, arguments in asked:
            for most in range(5):
                pairs = call(*arguments, most=most)
                self.assertEqual((list(pairs), pairs.total), ([(0, 1), (0, 2), (1, 2)][:most], 3))
            self.assertEqual(list(call(*arguments)), [(0, 1), (0, 2), (1, 2)])
        self.assertNotEqual(register.pairs("a+", most=0), register.pairs("b"))

    def test_equal(self) -> None:
        register, other = made(4, "0a1 1a2"), made(4, "0a1 1a2")
        for ask in (lambda r: r.pairs("a+"), lambda r: r.chain(0, 2, "a+"), lambda r: r.links(), lambda r: Tree(4, r.pairs("a"))):
            self.assertEqual(ask(register), ask(other))
            self.assertEqual(hash(ask(register)), hash(ask(other)))
            self.assertEqual(ask(register), pickle.loads(pickle.dumps(ask(register))))
        # Chains of no steps begin somewhere.
        self.assertNotEqual(register.chain(0, 0, "a*"), register.chain(1, 1, "a*"))
        self.assertNotEqual(register.pairs("a"), register.links())

    def test_steps(self) -> None:
        chain = made(4, "0a1 3b1").chain(0, 3, "a/^b")
        self.assertEqual(list(chain), [Step("a", True, 1), Step("b", False, 3)])
        self.assertEqual((chain.start, chain[1].reached, chain[-1:], len(chain)), (0, 3, [Step("b", False, 3)], 2))
        self.assertEqual(repr(chain), "<Steps: 0 -a-> 1 <-b- 3 (2 steps)>")
        self.assertTrue(Register(1).chain(0, 0, "a?"))

    def test_links(self) -> None:
        links = made(4, "3b1 0a1 0a0").links()
        self.assertEqual(list(links), [Link(0, "a", 0), Link(0, "a", 1), Link(3, "b", 1)])
        self.assertEqual(repr(Register(4).links()), "<Links: 0>")


class Registers(unittest.TestCase):
    def test_copies(self) -> None:
        """A copy has the links, the marks and the held edits, and goes its own way."""
        register = made(4, "0a1 1a2")
        register.lock(2)
        for twin in (copy.copy(register), copy.deepcopy(register), pickle.loads(pickle.dumps(register)), Register.of_words(register.words())):
            self.assertEqual((twin.words(), repr(twin)), (register.words(), "<Register: 4 records, 2 links>"))
            self.assertTrue(twin.is_locked(2))
            twin.undo()
            twin.undo()
            twin.add(3, "z", 3)
            self.assertEqual((list(twin.pairs("!b")), list(register.pairs("!b"))), ([(0, 1), (3, 3)], [(0, 1), (1, 2)]))
            self.assertTrue(register.is_locked(2))

    def test_repr(self) -> None:
        register = Register(1)
        self.assertEqual(repr(register), "<Register: 1 record, no links>")
        register.add(0, "a", 0)
        self.assertEqual(repr(register), "<Register: 1 record, 1 link>")

    def test_longer_words(self) -> None:
        """A state may be longer than a register's words: its front is the register."""
        register = made(4, "0a1")
        longer = Register.of_words([*register.words(), 7, 8, 9])
        self.assertEqual(longer.words(), register.words())

    def test_damaged_words(self) -> None:
        """Over words that no register had every call ends, and answers or refuses."""
        chance = random.Random(int(os.environ.get("SEED", 5)))
        words = made(8, "0a1 1a2 2b0 3c4").words()
        for _ in range(200):
            damaged = words[:]
            for _ in range(chance.randrange(1, 4)):
                damaged[chance.randrange(len(damaged))] = chance.choice([0, 1, 2, 3, chance.randrange(1 << 32), (1 << 32) - 1])
            try:
                register = Register.of_words(damaged)
            except Exception as refusal:
                self.assertEqual(str(refusal)[:11], "refused 16:")
                continue
            for ask in (
                lambda: register.pairs("(a|b)+"),
                lambda: register.pairs_by_trees("(a|b)+"),
                lambda: str(register.chain(0, 2, "a+")),
                lambda: register.generations("ab"),
                lambda: list(register.links()),
                lambda: register.sole_support(1, "a+", [0]),
                lambda: register.offsets(0, []),
                lambda: register.close_up(),
                lambda: register.undo(),
                lambda: repr(register),
            ):
                try:
                    ask()
                except Exception as refusal:
                    self.assertEqual(str(refusal)[:8], "refused ")

    def test_threads(self) -> None:
        """Several threads ask one register, and each gets its own answer."""
        register = Register(256)
        for record in range(255):
            register.add(record, "a", record + 1)
        register.add(0, "b", 1)
        expected = {"a": 255, "a+": 255 * 128, "b": 1, "a*": 257 * 128, "a/a": 254}
        wrong: list[str] = []

        def ask(seed: int) -> None:
            chance = random.Random(seed)
            for _ in range(40):
                expression = chance.choice(list(expected))
                pairs = register.pairs(expression)
                if len(pairs) != expected[expression] or list(pairs) != sorted(set(pairs)):
                    wrong.append(expression)
                chain = register.chain(3, 90, "a+")
                if chain is None or [step.reached for step in chain] != list(range(4, 91)):
                    wrong.append("chain")

        threads = [threading.Thread(target=ask, args=(seed,)) for seed in range(4)]
        for thread in threads:
            thread.start()
        for thread in threads:
            thread.join()
        self.assertEqual(wrong, [])

    def test_growing(self) -> None:
        """Questions after closing up, with a smaller register and other space."""
        register = Register(1024)
        for record in range(2, 1024):
            register.withdraw(record)
        register.add(0, "a", 1)
        self.assertEqual(list(register.pairs("a*")), [(0, 0), (0, 1), (1, 1)])
        self.assertEqual(register.close_up()[:3], [0, 1, None])
        self.assertEqual((register.size, list(register.pairs("a*")), str(register.chain(1, 0, "^a"))), (2, [(0, 0), (0, 1), (1, 1)], "1 <-a- 0 (1 step)"))
        self.assertEqual(len(Register(1024).pairs("a*|b/c")), 1024)


class Calls(unittest.TestCase):
    def test_generations(self) -> None:
        register = made(5, "0a1 1a2 0b2 3c0")
        register.withdraw(4)
        self.assertEqual(register.generations("ab"), ({0: 0, 1: 1, 2: 2, 3: 0}, None))
        self.assertEqual(register.generations(["a", "b", "c", "a"]).numbers, {0: 1, 1: 2, 2: 3, 3: 0})
        self.assertEqual(register.generations("").numbers, {0: 0, 1: 0, 2: 0, 3: 0})
        register.add(2, "a", 1)
        numbers, loop = register.generations("a")
        self.assertEqual((numbers, str(loop), loop.start), (None, "1 -a-> 2 -a-> 1 (2 steps)", 1))

    def test_sole_support(self) -> None:
        """Against its meaning by pair questions."""
        chance = random.Random(int(os.environ.get("SEED", 11)))
        fallen = 0
        for _ in range(300):
            n = chance.randrange(1, 9)
            register = Register(n)
            for link in {(chance.randrange(n), chance.choice("ab"), chance.randrange(n)) for _ in range(chance.randrange(2 * n))}:
                register.add(*link)
            core, anchors = chance.randrange(n), sorted(chance.sample(range(n), chance.randrange(n + 1)))
            expression = chance.choice(["a+", "(a|b)*", "a/^b?", "a"])
            without = copy.copy(register)
            for link in without.links():
                if core in (link.from_, link.to):
                    without.remove(*link)

            def supported(of: Register) -> set[int]:
                return {from_ for from_, to in of.pairs(expression) if to in anchors}

            expected = sorted(supported(register) - supported(without) - {core})
            self.assertEqual(register.sole_support(core, expression, anchors), expected)
            fallen += len(expected)
        if "SEED" not in os.environ:
            self.assertGreater(fallen, 30)

    def test_pages(self) -> None:
        register = Register(30)
        pages = register.pages("a*")
        self.assertEqual(len(pages), page_bytes(30))
        self.assertTrue(pages.startswith(b"a*  ") and pages.endswith(b"\n"))
        self.assertEqual(read_pages("a*", pages), register.pairs("a*"))
        empty = register.pages("a")
        self.assertEqual((len(empty), list(read_pages("a", empty))), (page_bytes(0), []))
        # More than a page.
        self.assertEqual(read_pages("a?", Register(1024).pages("a?")).total, 1024)

    def test_offsets(self) -> None:
        register = Register(4)
        ties = [Tie(0, 1, 31, 38), Tie(1, 2, -5, 5), (0, 2, 30, 34)]
        self.assertEqual(register.offsets(0, ties), [Limits(0, 0), Limits(31, 38), Limits(30, 34), None])
        self.assertEqual(register.offsets(2, ties), [Limits(-34, -30), Limits(-3, 5), Limits(0, 0), None])
        self.assertIsNone(register.offsets(0, [*ties, (2, 0, 0, 9)]))
        self.assertEqual(register.offsets(3, []), [None, None, None, Limits(0, 0)])

    def test_close_up(self) -> None:
        register = made(5, "1a3 3b3")
        register.lock(3)
        for record in (0, 2):
            register.withdraw(record)
        self.assertEqual(register.close_up(), [None, 0, None, 1, 2])
        self.assertEqual((register.size, [str(link) for link in register.links()], register.is_locked(1)), (3, ["0 a 1", "1 b 1"], True))

    def test_trees(self) -> None:
        """The algebra against Python's sets."""
        chance = random.Random(int(os.environ.get("SEED", 7)))
        for n in [1, 2, 3, 5, 16, 33]:
            some = lambda: {(chance.randrange(n), chance.randrange(n)) for _ in range(chance.randrange(2 * n + 1))}  # noqa: E731
            a, b = some(), some()
            left, right = Tree(n, a), Tree(n, b)
            product = lambda p, q: {(x, z) for x, y in p for w, z in q if y == w}  # noqa: E731
            inverse = lambda p: {(y, x) for x, y in p}  # noqa: E731
            closure = set(a)
            while product(closure, a) - closure:
                closure |= product(closure, a)
            for tree, pairs in [
                (left, a),
                (left | right, a | b),
                (left & right, a & b),
                (left - right, a - b),
                (left @ right, product(a, b)),
                (left.product(right, inverted=True), product(inverse(a), b)),
                (left.product(right, other_inverted=True), product(a, inverse(b))),
                (left.product(right, True, True), product(inverse(a), inverse(b))),
                (left.transpose(), inverse(a)),
                (left.closure(), closure),
            ]:
                self.assertEqual((list(tree), len(tree), bool(tree)), (sorted(pairs), len(pairs), bool(pairs)))
                self.assertEqual((tree, hash(tree), tree.n), (Tree(n, pairs), hash(Tree(n, pairs)), n))
                self.assertEqual(Tree.of_words(n, tree.words()), tree)
        self.assertEqual(repr(Tree(3, [(0, 1)])), "<Tree: below 3, 1 pairs>")
        self.assertNotEqual(Tree(3), Tree(4))


if __name__ == "__main__":
    unittest.main()
