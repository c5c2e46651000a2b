#!/usr/bin/env python3
"""sheets.py SHELL SHEET ..: reads each sheet of bench/sheets in the shell, then types it, links, questions and edits, and holds the answers to those stored
beside it: how many pairs or steps, and the checksum over them (bench/sheets/README.md), read back from what the shell prints."""
import pathlib
import re
import subprocess
import sys
import time

import answers

MASK = 0xFFFFFFFF
TIMEOUT = 120  # seconds


def requests(path):
    """The typed requests of a sheet and of its questions, each with its index among the questions, or none."""
    for line in path.read_text().splitlines():
        if not line.startswith("#"):
            yield None, line
    for index, line in enumerate(path.with_suffix(".questions").read_text().splitlines()):
        word, *rest = line.split(" ")
        if word == "edit":
            yield None, "add " + " ".join(rest)
            yield None, "remove " + " ".join(rest)
        elif word in ("pairs", "chain"):
            yield index, " ".join([word] + rest[1:])
        else:
            sys.exit(f"sheets.py: {line} is no question")


def opened(shell, path):
    """The sheet is read whole by the shell, as it stands."""
    run = subprocess.run([shell], input=f"read {path}\n", capture_output=True, text=True, timeout=TIMEOUT)
    if run.returncode != 0 or run.stderr:
        sys.exit(f"sheets.py: {path.name} cannot be read: {run.stdout}{run.stderr}")


def mix(word):
    word = word * 0x9E3779B1 & MASK
    word ^= word >> 15
    word = word * 0x85EBCA77 & MASK
    return word ^ word >> 13


def result(question, lines):
    """The count and the checksum of an answer."""
    word, *rest = question.split(" ")
    if word == "pairs":
        pairs = answers.pairs(next(lines), lines)
        return f"{len(pairs)} {sum(mix(first * 1024 + second) for first, second in pairs) & MASK:08x}"
    steps = answers.chain(next(lines), lines, (int(rest[0]), int(rest[1])))
    if steps is None:
        return "none -"
    checksum = 0
    for letter, sense, reached in steps:
        step = ((ord(letter) - ord("a")) * 2 + (sense == "-")) * 1024 + reached
        checksum = (checksum * 31 + step + 1) & MASK
    return f"{len(steps)} {checksum:08x}"


def check(shell, path):
    opened(shell, path)
    typed = list(requests(path))
    stored = path.with_suffix(".answers").read_text().splitlines()
    text = "".join(line + "\n" for _, line in typed)
    begun = time.monotonic()
    run = subprocess.run([shell], input=text, capture_output=True, text=True, timeout=TIMEOUT)
    seconds = time.monotonic() - begun
    if run.returncode not in (0, 1) or run.stderr:
        sys.exit(f"sheets.py: {path.name}: the shell ended with status {run.returncode}: {run.stderr}")
    lines = iter(run.stdout.splitlines())
    found, edits = [], {}
    for index, line in typed:
        if index is None:
            edit = re.sub(r"line \d+, .*: refused", "refused", next(lines))
            edits[edit] = edits.get(edit, 0) + 1
        else:
            found.append(f"{line.split(' ')[0]} {index} {result(line, lines)}")
    left = next(lines, None)
    if left is not None and (run.returncode == 0 or " done, " not in left):
        sys.exit(f"sheets.py: {path.name}: {left} answers nothing")
    for one, other in zip(found, stored, strict=True):
        if one != other:
            sys.exit(f"sheets.py: {path.name}: {one}, stored is {other}")
    print(f"sheet {path.stem}: {len(typed)} typed requests, {len(found)} answers as stored, in {seconds:.1f} seconds")
    for edit, times in sorted(edits.items()):
        if edit != "ok":
            print(f"  {times} times {edit}")


def main():
    shell, *sheets = sys.argv[1:]
    for sheet in sheets:
        check(shell, pathlib.Path(sheet))


main()
