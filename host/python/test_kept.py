"""Drafts, lists of edits, histories, sheets, explanations: what the package adds for people."""

from __future__ import annotations

import copy
import os
import pickle
import random
import tempfile
import time
import unittest
from pathlib import Path
from zlib import crc32

import dating
from dating import Cause, Damaged, Draft, Edit, NotKept, Refusal, Register, hangs, sheets
from dating.history import HEAD, Journal

# The most that opening a history may take, beside going over its lines in plain Python; it takes some 20 times that.
TIMES = 40
TRIES = 8
LINES = 156_000


def gone_over(text: bytes) -> None:
    """A plain piece of work over the lines of a history, for a measure of the processor as it is now: each is parted, and has its check."""
    check = 0
    for line in text.split(b"\n"):
        call, _, _ = line.partition(b"  # ")
        check = crc32(line, check)
        b"%08x" % check
        call.split(b" ")


class Lists(unittest.TestCase):
    def test_all_or_none(self) -> None:
        register = Register(4)
        register.apply(Edit.add(0, "a", 1))
        before = copy.copy(register)
        with self.assertRaises(Refusal) as refused:
            register.apply([Edit.lock(1), Edit.add(1, "a", 2), Edit.lock(2)])
        self.assertEqual((refused.exception.cause, refused.exception.place), (Cause.LOCKED, 1))
        self.assertEqual(str(refused.exception), "refused 4: an end of the link is locked: 1")
        self.assertEqual(register, before)
        register.apply([])
        register.apply(iter([Edit.lock(1), Edit.undo(), Edit.add(1, "a", 2)]))
        self.assertEqual([str(edit) for edit in register.held], ["add 1 a 2", "add 0 a 1"])
        for wrong in (None, "lock 1", [None], [(4, 1)]):
            with self.assertRaises(TypeError):
                register.apply(wrong)  # type: ignore[arg-type]

    def test_equal(self) -> None:
        one, other = Register(3), Register(3)
        self.assertEqual(one, other)
        one.lock(1)
        self.assertNotEqual(one, other)
        one.undo()
        self.assertEqual(one, other)
        one.lock(1)
        one.unlock(1)
        self.assertNotEqual(one, other, "the held edits differ")
        self.assertNotEqual(Register(3), Register(4))
        self.assertFalse(one == 3)
        with self.assertRaises(TypeError):
            hash(one)

    def test_held(self) -> None:
        """Against a list of what was done, with more edits than are held."""
        rng = random.Random(int(os.environ.get("SEED", 3)))
        register = Register(6)
        done: list[str] = []
        for _ in range(600):
            edit = rng.choice([Edit.add, Edit.remove])(rng.randrange(6), rng.choice("abc"), rng.randrange(6))
            edit = rng.choice([edit, edit, rng.choice([Edit.lock, Edit.unlock, Edit.withdraw, Edit.reinstate])(rng.randrange(6)), Edit.undo()])
            try:
                register.apply(edit)
            except Refusal:
                continue
            if edit == Edit.undo():
                done.pop()
            else:
                done = [*done, str(edit)][-256:]
        self.assertEqual([str(edit) for edit in register.held], done[::-1])


class Drafts(unittest.TestCase):
    def test_left_by_an_exception(self) -> None:
        register = Register(3)
        with self.assertRaises(ZeroDivisionError):
            with register.draft() as draft:
                draft.add(0, "a", 1)
                raise ZeroDivisionError
        self.assertEqual(register, Register(3))

    def test_asks_with_the_edits_made(self) -> None:
        register = Register(3)
        with register.draft() as draft:
            draft.add(0, "a", 1)
            self.assertEqual((len(draft.pairs("a")), len(register.pairs("a"))), (1, 0))
            self.assertEqual(list(draft.preview(Edit.add(1, "a", 2), "a/a")), [(0, 2)])
            with self.assertRaises(Refusal):
                draft.add(0, "a", 1)
            draft.lock(2)
            draft.undo()
            self.assertEqual([str(edit) for edit in draft.edits], ["add 0 a 1"])
        self.assertEqual([str(link) for link in register.links()], ["0 a 1"])
        with self.assertRaises(ValueError):
            draft.add(1, "a", 1)

    def test_undo_stays_in_the_draft(self) -> None:
        register = Register(3)
        register.lock(0)
        with register.draft() as draft:
            with self.assertRaisesRegex(Refusal, "the draft has no edit"):
                draft.undo()
        self.assertTrue(register.is_locked(0))

    def test_another_person_between(self) -> None:
        register = Register(3)
        draft = register.draft()
        draft.add(0, "a", 1)
        draft.add(1, "a", 2)
        register.lock(2)
        with self.assertRaises(Refusal) as refused:
            draft.save()
        self.assertEqual((refused.exception.cause, refused.exception.place), (Cause.LOCKED, 1))
        self.assertEqual(len(register.links()), 0)
        with self.assertRaises(Refusal):
            draft.renew()
        self.assertEqual((len(draft.edits), draft.is_locked(2)), (2, False))
        draft.undo()
        self.assertTrue(draft.is_locked(2))
        draft.save()
        self.assertEqual([str(link) for link in register.links()], ["0 a 1"])
        self.assertIsInstance(draft, Draft)


class Histories(unittest.TestCase):
    def setUp(self) -> None:
        folder = tempfile.TemporaryDirectory()
        self.addCleanup(folder.cleanup)
        self.path = Path(folder.name) / "house.txt"

    def test_the_very_register(self) -> None:
        """Random calls, through a file and without one: the same register, held edits too."""
        rng = random.Random(int(os.environ.get("SEED", 5)))
        with dating.open(self.path, records=20) as register:
            plain = Register(20)
            for _ in range(400):
                kind = rng.randrange(12)
                record, other = rng.randrange(register.size), rng.randrange(register.size)
                for each in (register, plain):
                    try:
                        if kind < 6:
                            each.add(record, "ab"[kind % 2], other)
                        elif kind < 10:
                            [each.lock, each.unlock, each.withdraw, each.reinstate][kind - 6](record)
                        elif kind == 10:
                            each.undo()
                        elif rng.random() < 0 or each.size > 15:
                            each.close_up()
                    except Refusal:
                        pass
            self.assertEqual(register, plain)
        with dating.open(self.path) as again:
            self.assertEqual(again, plain)
            self.assertEqual(copy.copy(again), pickle.loads(pickle.dumps(again)))

    def test_what_was_done_since(self) -> None:
        with dating.open(self.path, records=5) as register:
            begun = register.mark
            self.assertEqual(register.since(begun), [])
            register.lock(1)
            middle = register.mark
            register.apply([Edit.unlock(1), Edit.add(0, "a", 1)])
            self.assertEqual([call for call, _ in register.since(begun) or []], ["do unlock 1, add 0 a 1", "lock 1"])
            self.assertEqual([call for call, _ in register.since(middle) or []], ["do unlock 1, add 0 a 1"])
            self.assertEqual(len(register.since("0-00000000") or []), 3)
            for other in ("", "x", "1-00000000", "99-00000000", begun + "0", "2-" + begun[2:]):
                self.assertIsNone(register.since(other))
            self.assertEqual(register.held_count, len(register.held))

    def test_a_draft_is_one_line(self) -> None:
        with dating.open(self.path, records=4) as register:
            with register.draft() as draft:
                draft.add(0, "a", 1)
                draft.lock(1)
        self.assertEqual(self.path.read_text().splitlines()[-1].split("  # ")[0], "do add 0 a 1, lock 1")

    def test_closing_up_is_kept_with_its_table(self) -> None:
        with dating.open(self.path, records=6) as register:
            register.withdraw(2)
            register.withdraw(3)
            self.assertEqual(register.closed_up(), [0, 1, None, None, 2, 3])
            self.assertEqual(register.size, 6)
            self.assertEqual(register.close_up(), [0, 1, None, None, 2, 3])
        self.assertIn(" old and new: 0-1 0-1, 2-3 gone, 4-5 2-3 ", self.path.read_text().splitlines()[-1])
        with dating.open(self.path) as again:
            self.assertEqual((again.size, again.held), (4, []))

    def test_closed(self) -> None:
        register = dating.open(self.path, records=3)
        register.close()
        with self.assertRaisesRegex(NotKept, "is closed; the call is not made"):
            register.lock(0)
        self.assertEqual(register.locked(), [])

    def test_a_reader_reads_on(self) -> None:
        with dating.open(self.path, records=3) as register, dating.open(self.path, read_only=True) as reader:
            for record in range(3):
                register.lock(record)
                self.assertIn("1 call more", reader.refresh())
                self.assertEqual(reader.refresh(), "")
                self.assertEqual(reader, register)
            # An earlier line changed in place, and a line more: it is not gone on with.
            text = self.path.read_bytes()
            self.path.write_bytes(text.replace(b"lock 1", b"lock 7"))
            self.assertIn("no longer read", reader.refresh())
            self.assertEqual(reader.locked(), [0, 1, 2])

    def test_not_there(self) -> None:
        with self.assertRaisesRegex(NotKept, "has no register yet"):
            dating.open(self.path)
        with self.assertRaisesRegex(NotKept, "is not there"):
            dating.open(self.path, read_only=True)
        self.path.write_text("open 9\nadd 5 t 2\n")
        with self.assertRaisesRegex(Damaged, "no history of a dating register"):
            dating.open(self.path)
        self.assertEqual(self.path.read_text(), "open 9\nadd 5 t 2\n")

    def test_undo_does_not_reach_into_a_sheet(self) -> None:
        sheet = sheets.read(sheets.text(self.locked()))
        with dating.open(self.path, records=3) as register:
            register.replace(sheet.n, sheet.edits)
        with dating.open(self.path) as register:
            self.assertEqual(register.locked(), [1])
            with self.assertRaises(Refusal):
                register.undo()
            register.unlock(1)
            register.undo()
            with self.assertRaises(Refusal):
                register.undo()
            kept = copy.copy(register)
            with self.assertRaises(Refusal):
                kept.undo()

    def locked(self) -> Register:
        register = Register(3)
        register.add(0, "a", 1)
        register.lock(1)
        return register

    def test_sheets(self) -> None:
        register = self.locked()
        text = sheets.text(register)
        again = sheets.read(text).register()
        self.assertEqual((again.links(), again.locked(), again.held), (register.links(), [1], []))
        lines = text.splitlines(keepends=True)
        for wrong in ["".join(lines[:-1]), "".join(lines[:2] + lines[3:]), text[:-1], text[:-20], text.replace("add 0 a 1", "add 0 a 7"), ""]:
            with self.assertRaises(sheets.NoSheet, msg=wrong):
                sheets.read(wrong)

    def test_ten_years(self) -> None:
        """300 edits a week for ten years are opened in TIMES the processor time of going over their lines."""
        links = [f"{place % 900} {'tomxyz'[place // 900]} {place * 7 % 900}" for place in range(3000)]
        calls = ["open 930", *(f"add {link}" for link in links)]
        while len(calls) < LINES:
            link = links[len(calls) % 3000]
            calls += [f"remove {link}", f"add {link}"]
        journal = Journal()
        for call in calls:
            journal.take(journal.sealed(call), journal.state, None)
        text = HEAD + b"".join(line + b"\n" for line in journal.lines)
        self.path.write_bytes(text)
        # Beside other work a processor is slower: the shortest of some counts, of both.
        least = plain = float("inf")
        for _ in range(TRIES):
            begun = time.process_time()
            gone_over(text)
            plain = min(plain, time.process_time() - begun)
            begun = time.process_time()
            with dating.open(self.path) as again:
                least = min(least, time.process_time() - begun)
                self.assertEqual(sorted(map(str, again.links())), sorted(links))
            if least < TIMES * plain:
                break
        print(f"python: {len(calls):,} lines are opened in {least:.2f} s of processor time, {least / plain:.0f} times that of going over them")
        self.assertLess(least, TIMES * plain)


class Explanations(unittest.TestCase):
    def test_against_the_chain(self) -> None:
        """There is a chain exactly if `why` says so; what it says of the parts is what the pairs say."""
        rng = random.Random(int(os.environ.get("SEED", 11)))
        for _ in range(60):
            register = Register(7)
            for _ in range(rng.randrange(14)):
                try:
                    register.add(rng.randrange(7), rng.choice("abc"), rng.randrange(7))
                except Refusal:
                    pass
            parts = [rng.choice(["a", "^b", "(a|^b)*", "c+", "!a", "a?", "(a/b|c)"]) for _ in range(rng.randrange(1, 4))]
            expression = "/".join(parts)
            from_, to = rng.randrange(7), rng.randrange(7)
            why = register.why(from_, to, expression)
            self.assertEqual(bool(why), (from_, to) in register.pairs(expression))
            for reach in why.reaches:
                for place, found in enumerate(reach.onward, 1):
                    pairs = register.pairs("/".join(reach.parts[:place]))
                    self.assertEqual(found, [y for x, y in pairs if x == from_])
                for place, found in enumerate(reach.back, 1):
                    pairs = register.pairs("/".join(reach.parts[-place:]))
                    self.assertEqual(found, [x for x, y in pairs if y == to])
            steps, cores = hangs(register, from_, to, expression)
            for core in range(7):
                if steps is not None and core not in (from_, to):
                    self.assertEqual(core in cores, self.gone(register, core, from_, to, expression), (core, expression))

    def gone(self, register: Register, core: int, from_: int, to: int, expression: str) -> bool:
        without = copy.copy(register)
        for link in without.links_of(core):
            without.remove(*link)
        return without.chain(from_, to, expression) is None


if __name__ == "__main__":
    unittest.main()
