#!/usr/bin/env python3
"""anything.py [LINES]: lines of any kind, from requests half right to bytes at random, get an answer in words, and none changes what it should not: after each
line that is refused, fails or is no request the register is as it was. Half of them are of a fixed seed, and half of SEED, if it is in the environment."""
import os
import random
import sys
import tempfile

from dating import Register
from dating.kept import Kept
from dating.shell import help
from dating.shell.session import Quit, Session

LINES = 4000
WORDS = ["0", "1", "2", "3", "99", "-1", "1,024", "a", "b", "t", "ab", "A", "é", "a+", "a/b", "(a|b)*", "!a", "a**", "t/"]
WORDS += ["> out.txt", ">", ">>", ",", "#", '"', "near", "chain", "some", "links.csv", "from=1", "json", "text", "csv", "add", "undo", "lock"]
WORDS += ['"x y"', "\x1b[2J", "\udcff", "99999999999999999999", "nobody"]
# Requests that open another file, or end.
PASSED = ("quit", "read")


def line(rng):
    kind = rng.randrange(12)
    if kind == 0:
        return "".join(chr(rng.choice([rng.randrange(1, 128), rng.randrange(128, 0x3000)])) for _ in range(rng.randrange(40))).replace("\n", "")
    word = rng.choice([word for word in help.REQUESTS if word not in PASSED])
    if kind == 1:
        word = word[: rng.randrange(len(word))] + rng.choice("xyz ") + word[rng.randrange(len(word)) :]
    if kind < 5:
        sample = help.REQUESTS.get(word, help.REQUESTS["add"]).sample().split(" ")
        sample[rng.randrange(len(sample))] = rng.choice(WORDS)
        return " ".join(sample)
    return " ".join([word, *(rng.choice(WORDS) for _ in range(rng.randrange(6)))])


def key(register):
    return (register.links(), register.locked(), register.withdrawn(), len(register.held)) if register.is_open else None


def main():
    rng, drawn = random.Random(17), random.Random(int(os.environ.get("SEED", 18)))
    os.chdir(tempfile.mkdtemp())
    with open("links.csv", "w") as file:
        file.write("from,letter,to\n0,a,1\n1,b,2\nx,y,z\n")
    said = []
    session = Session(Kept(), said.append)
    counts = {"done": 0, "failed": 0, "silent": 0}
    for place in range(int(sys.argv[1]) if sys.argv[1:] else LINES):
        text = line(drawn if place % 2 else rng)
        if place % 100 == 0:
            text = "open 5"
        session.mode = "text"
        before = key(session.register)
        try:
            told = session.line(text)
        except Quit:
            continue
        except BaseException:
            print(f"anything.py: {text!r}")
            raise
        counts["silent" if told is None else "failed" if told.failed else "done"] += 1
        if told is not None:
            assert told.text or not told.failed, text
            if told.failed and not text.startswith("import some"):
                assert key(session.register) == before, f"{text!r} failed, and has changed the register"
    assert isinstance(session.register, Register)
    total = sum(counts.values())
    print(f"shell: {total} lines of any kind: {counts['done']} done, {counts['failed']} refused, failed or no request, {counts['silent']} say nothing")


main()
