#!/usr/bin/env python3
"""programs.py SHELL LINES DATING SESSION ..: what the shell says is what the programs print, for the requests that they know: each typed SESSION, and
random ones, made here, with faulty expressions and records that are not there. The shell's words are read back into the programs' lines."""
import os
import random
import re
import subprocess
import sys

import answers

SEEDS = [*range(1, 9), *([int(os.environ["SEED"])] if "SEED" in os.environ else [])]
REQUESTS = 1500  # of each random session
WORDS = ["add"] * 8 + ["remove"] * 3 + ["undo", "pairs", "chain"] * 2 + ["lock", "unlock", "withdraw", "reinstate", "total"]  # by how often they come
REFUSED = re.compile(r"line \d+, .*: refused (\d+): .*")
SUMS = re.compile(r"[\d,]+ lines: [\d,]+ done, [\d,]+ refused or failed")
TOTAL = re.compile(r"(no|[\d,]+) links? [a-z]")


def plain(typed, printed):
    """The programs' lines for what the shell printed."""
    lines = iter(printed.splitlines())
    waiting = None
    for request in typed:
        word, *rest = request.split(None, 3) or ["#"]
        if word.startswith("#"):
            continue
        line = waiting or next(lines)
        waiting = None
        if refused := REFUSED.fullmatch(line):
            yield f"refused {refused[1]}"
            # the text and the mark under it, if it was an expression
            waiting = next((line for line in lines if not line.startswith("  ")), None)
        elif word == "pairs":
            pairs = answers.pairs(line, lines)
            yield f"pairs {len(pairs)}"
            yield from (f"{first} {second}" for first, second in pairs)
        elif word == "chain":
            steps = answers.chain(line, lines, (int(rest[0]), int(rest[1])))
            yield "none" if steps is None else f"chain {len(steps)}"
            yield from (f"{letter} {sense} {reached}" for letter, sense, reached in steps or [])
        elif word == "total":
            yield f"total {answers.number(TOTAL.fullmatch(line)[1])}"
        else:
            # the shell says too which edit is undone, and what an open loses
            yield line.split(":")[0]
    left = waiting or next(lines, None)
    assert left is None or SUMS.fullmatch(left), f"{left} answers nothing"


def expression(rng, depth=3):
    """A random expression; now and then something that is none."""
    kind = rng.randrange(9 if depth else 3)
    if kind < 3:
        text = rng.choice("abcd")
    elif kind < 4:
        text = rng.choice(["!a", "!^b", "!(a|^b)", "!(c)"])
    elif kind < 6:
        text = expression(rng, depth - 1) + "/" + expression(rng, depth - 1)
    elif kind < 7:
        text = expression(rng, depth - 1) + "|" + expression(rng, depth - 1)
    else:
        text = "(" + expression(rng, depth - 1) + ")"
    text = rng.choice(["", "", "^"]) + text + rng.choice(["", "", "", "*", "+", "?"])
    if rng.randrange(40) == 0:
        at = rng.randrange(len(text) + 1)
        text = text[:at] + rng.choice("ab()|/^!*+?A.") + text[at + rng.randrange(2) :]
    return text or "a"


def session(seed):
    """Random requests: a small register filled with links, edited and asked."""
    rng = random.Random(seed)
    n = rng.choice([1, 2, 5, 9, 33, 64])
    record = lambda: rng.choice([rng.randrange(n)] * 30 + [n, 99, 65535])
    yield "open 0"
    yield rng.choice(["undo", "pairs a", "total a"])
    yield f"open {n}"
    for _ in range(REQUESTS):
        word = rng.choice(WORDS)
        if word in ("add", "remove"):
            yield f"{word} {record()} {rng.choice('abcd')} {record()}"
        elif word == "undo":
            yield word
        elif word == "total":
            yield f"{word} {rng.choice('abcdz')}"
        elif word == "pairs":
            yield f"{word} {expression(rng)}"
        elif word == "chain":
            yield f"{word} {record()} {record()} {expression(rng)}"
        else:
            yield f"{word} {record()}"


def output(command, text, statuses=(0,)):
    run = subprocess.run(command, input=text, capture_output=True, timeout=60)
    if run.returncode not in statuses or run.stderr:
        sys.exit(f"programs.py: {command[0]} ended with status {run.returncode}: {run.stderr[:200]}")
    return run.stdout


def main():
    shell, encoder, program, *files = sys.argv[1:]
    sessions = [(file, open(file).read().splitlines()) for file in files]
    sessions += [(f"the session with seed {seed}", list(session(seed))) for seed in SEEDS]
    refusals, count = set(), 0
    for name, typed in sessions:
        text = "".join(line + "\n" for line in typed).encode()
        printed = output([program], output([encoder], text)).decode().splitlines()
        said = list(plain(typed, output([shell], text, (0, 1)).decode()))
        if said != printed:
            at = next((at for at, (one, other) in enumerate(zip(said, printed)) if one != other), min(len(said), len(printed)))
            sys.exit(f"programs.py: {name}: line {at + 1}: the shell says {said[at : at + 1]}, the programs {printed[at : at + 1]}")
        refusals |= {line for line in printed if line.startswith("refused")}
        count += len(typed)
    print(f"shell: {count} typed requests are answered as the programs answer them, {len(refusals)} different refusals among them")


main()
