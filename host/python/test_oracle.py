"""The package against the independent program under tests/oracle, and against another system's answers on the sheets under bench.

Sessions of frames are answered by a `Register` as the program answers them, and by the independent program; what both print must be the same. Frames
that no call of a register answers (broken, of no kind, before any open, or an open above the program's 64 records) are the test's own to refuse, and
are not counted.
"""

from __future__ import annotations

import os
import random
import subprocess
import unittest
from pathlib import Path
from typing import Callable, Optional

from dating import Cause, Edit, Pairs, Refusal, Register, Steps, sheets

ROOT = Path(__file__).resolve().parents[2]
ORACLE = ROOT / "target/oracle/release"

# Each is seed and frames. One of 5,000 frames or more fills a register. If SEED is in the environment, others from it on in their place; how many calls,
# refusals and edits there must be is known of the fixed ones alone.
SESSIONS = [(101, 1500), (102, 1500), (103, 1500), (104, 1500), (105, 1500), (106, 6000)]
PREVIEWS = [*range(201, 231)]
DRAWN = "SEED" in os.environ
if DRAWN:
    SESSIONS = [(int(os.environ["SEED"]), 1500), (int(os.environ["SEED"]) + 1, 6000)]
    PREVIEWS = [*range(int(os.environ["SEED"]), int(os.environ["SEED"]) + 10)]


def run(program: str, given: bytes = b"", *arguments: object) -> bytes:
    """What a program of the oracle prints."""
    path = ORACLE / program
    if not path.is_file():
        raise FileNotFoundError(f"{path} is missing: tests/python/run builds it")
    return subprocess.run([path, *map(str, arguments)], input=given, stdout=subprocess.PIPE, check=True).stdout


def two(number: int) -> bytes:
    return number.to_bytes(2, "little")


def frame(kind: int, *parts: bytes) -> bytes:
    body = b"".join(parts)
    return two(len(body) + 2) + two(kind) + body


def letter(label: int) -> str:
    """a to z; above them a character that is no letter."""
    return chr(ord("a") + label)


def pair_lines(pairs: Pairs) -> list[str]:
    return [f"pairs {pairs.total}", *(f"{from_} {to}" for from_, to in pairs)]


def chain_lines(steps: Optional[Steps]) -> list[str]:
    return ["none"] if steps is None else [f"chain {len(steps)}", *map(str, steps)]


class Session:
    """A session of the program, answered by a register. Counts the calls that are the register's to answer."""

    def __init__(self) -> None:
        self.register: Optional[Register] = None
        self.calls = 0
        self.refused: set[int] = set()

    def printed(self, frames: bytes) -> list[str]:
        """The lines that the program prints for frames."""
        lines, at = [], 0
        while at < len(frames):
            length = int.from_bytes(frames[at : at + 2], "little")
            inside = frames[at + 2 : at + 2 + length]
            if at + 2 > len(frames) or not 2 <= length <= 1024 or len(inside) != length:
                return [*lines, "refused 14"]
            at += 2 + length
            try:
                lines += self.answer(int.from_bytes(inside[:2], "little"), inside[2:])
            except Refusal as refusal:
                self.refused.add(refusal.number)
                lines.append(f"refused {refusal.number}")
        return lines

    def answer(self, kind: int, body: bytes) -> list[str]:
        sizes = {1: 2, 2: 5, 3: 5, 4: 2, 5: 2, 6: 0, 9: 1, 10: 2, 11: 2}
        if not 1 <= kind <= 11:
            raise Refusal(Cause.KIND)
        if len(body) != sizes.get(kind, len(body)) or kind == 8 and len(body) < 4:
            raise Refusal(Cause.FRAME)
        if kind == 1:
            return self.open(int.from_bytes(body, "little"))
        if self.register is None:
            raise Refusal(Cause.NOT_OPENED)
        self.calls += 1
        first, last = int.from_bytes(body[:2], "little"), int.from_bytes(body[-2:], "little")
        if kind == 7:
            return pair_lines(self.pairs(body))
        if kind == 8:
            return chain_lines(self.register.chain(first, int.from_bytes(body[2:4], "little"), body[4:]))
        if kind == 9:
            return [f"total {self.register.total(letter(body[0]))}"]
        edits: dict[int, Callable[[], None]] = {
            2: lambda: self.register.add(first, letter(body[2]), last),
            3: lambda: self.register.remove(first, letter(body[2]), last),
            4: lambda: self.register.lock(first),
            5: lambda: self.register.unlock(first),
            6: lambda: self.register.undo(),
            10: lambda: self.register.withdraw(first),
            11: lambda: self.register.reinstate(first),
        }
        edits[kind]()
        return ["ok"]

    def open(self, n: int) -> list[str]:
        if n > 64:
            raise Refusal(Cause.SIZE)
        self.calls += 1
        self.register = Register(n)
        return ["ok"]

    def pairs(self, text: bytes) -> Pairs:
        """By both engines, of which every other one is given text."""
        spelt = text.decode("latin-1")
        pairs = self.register.pairs(spelt if spelt.isascii() else text)
        if self.calls % 5 == 0 and pairs != self.register.pairs_by_trees(text):
            raise AssertionError(f"the engines differ on {spelt!r}")
        return pairs


class Oracle(unittest.TestCase):
    def compared(self, frames: bytes) -> Session:
        session = Session()
        printed = session.printed(frames)
        expected = run("oracle-program", frames).decode().splitlines()
        for at, (ours, theirs) in enumerate(zip(printed, expected)):
            self.assertEqual(ours, theirs, f"line {at + 1}")
        self.assertEqual(len(printed), len(expected))
        return session

    def test_typed_sessions(self) -> None:
        """Typed sessions that are stored with what the program prints."""
        stored = sorted([*(ROOT / "examples").glob("*.txt"), *(ROOT / "tests/program/cases").glob("*.lines")])
        self.assertGreaterEqual(len(stored), 7)
        for path in stored:
            with self.subTest(path.name):
                frames = run("oracle-lines", path.read_bytes())
                self.assertEqual(Session().printed(frames), path.with_suffix(".expected").read_text().splitlines())

    def test_random_sessions(self) -> None:
        """Random registers of up to 64 records with edits, undos, totals, pair and chain questions."""
        calls, refused = 0, set()
        for seed, count in SESSIONS:
            with self.subTest(seed=seed):
                session = self.compared(run("oracle-frames", b"", seed, count))
                calls += session.calls
                refused |= session.refused
        # 15, 14 and 16 are the test's own; 17 and 18 are of withdrawn records.
        known = {1, 2, 3, 4, 5, 6, 7, 8, 9, 10, 17, 18}
        self.assertLessEqual(refused - {14, 15, 16}, known)
        if not DRAWN:
            self.assertLessEqual(known, refused)
            self.assertGreater(calls, 10_000)
        print(f"python: {calls:,} calls of random sessions as the independent program answers them")

    def test_previews(self) -> None:
        """A preview is what the pair question gives after the edit, which the independent program makes and takes back."""
        previews = accepted = 0
        for seed in PREVIEWS:
            chance = random.Random(seed)
            n = chance.choice([1, 2, 5, 16, 64])
            register, frames, printed = Register(n), frame(1, two(n)), ["ok"]
            # Fewer than 256 edits, so that none is forgotten.
            for _ in range(60):
                from_, label, to = chance.randrange(n + 1), chance.choice([0, 0, 1, 26]), chance.randrange(n)
                name = chance.choice(["add", "add", "add", "remove", "lock", "unlock", "withdraw", "reinstate"])
                of_link = name in ("add", "remove")
                given = (from_, letter(label), to) if of_link else (from_,)
                kind = getattr(Edit, name)(*given).kind
                edit = frame(kind, two(from_), bytes([label]), two(to)) if of_link else frame(kind, two(from_))
                text = chance.choice(["a", "a/^a", "(a|b)+", "^b?", "a*/b", "!a", "a)"])
                # The edit, the question, the edit taken back; so the preview's answer is that of the question, unless the edit is refused.
                lines = self.previewed(register, getattr(Edit, name)(*given), text)
                refused_edit = lines[0].startswith("refused") and lines[0] not in ("refused 9", "refused 10")
                if refused_edit:
                    frames, printed = frames + edit, printed + lines
                else:
                    frames, printed = frames + edit + frame(7, text.encode()) + frame(6), [*printed, "ok", *lines, "ok"]
                    accepted += 1
                previews += 1
                # Now the edit is made in earnest.
                frames += edit
                try:
                    getattr(register, name)(*given)
                    printed.append("ok")
                except Refusal as refusal:
                    printed.append(f"refused {refusal.number}")
            self.assertEqual(printed, run("oracle-program", frames).decode().splitlines(), f"seed {seed}")
        if not DRAWN:
            self.assertGreater(accepted, 300)
            self.assertGreater(previews - accepted, 300)
        print(f"python: {previews:,} previews as the independent program answers them, {accepted:,} of edits that can be made")

    def previewed(self, register: Register, edit: Edit, text: str) -> list[str]:
        words = register.words()
        try:
            lines = pair_lines(register.preview(edit, text))
        except Refusal as refusal:
            lines = [f"refused {refusal.number}"]
        self.assertEqual(register.words(), words)
        return lines


def mix(word: int) -> int:
    """A pair word as bench/sheets/README.md mixes it."""
    word = word * 0x9E3779B1 & 0xFFFFFFFF
    word = (word ^ word >> 15) * 0x85EBCA77 & 0xFFFFFFFF
    return word ^ word >> 13


class Sheets(unittest.TestCase):
    """Registers of full size, with the answers that another system gave."""

    def test_sheets(self) -> None:
        questions = 0
        for name in ("small", "sheet", "ring"):
            with self.subTest(name):
                register = sheets.read((ROOT / f"bench/sheets/{name}.txt").read_text()).register()
                asked = [line.split() for line in (ROOT / f"bench/sheets/{name}.questions").read_text().splitlines()]
                answers = (ROOT / f"bench/sheets/{name}.answers").read_text().splitlines()
                given = [self.answer(register, at, line) for at, line in enumerate(asked) if line[0] != "edit"]
                self.assertEqual(given, answers)
                questions += len(given)
        self.assertGreater(questions, 100)
        print(f"python: {questions:,} questions on sheets as another system answers them")

    def answer(self, register: Register, at: int, line: list[str]) -> str:
        if line[0] == "pairs":
            words = register.pairs(line[2]).words()
            return f"pairs {at} {len(words)} {sum(map(mix, words)) & 0xFFFFFFFF:08x}"
        steps = register.chain(int(line[2]), int(line[3]), line[4])
        if steps is None:
            return f"chain {at} none -"
        checksum = 0
        for word in steps.words():
            checksum = checksum * 31 + word + 1 & 0xFFFFFFFF
        return f"chain {at} {len(steps)} {checksum:08x}"


if __name__ == "__main__":
    unittest.main()
