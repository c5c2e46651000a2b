#!/usr/bin/env python3
"""examples.py HOUSE: every example of the shell's help is answered as it says, in the house of examples/surveyor.txt up to its lock; every request is in the
overview, which fits a screen; and the nearest request to a slip is the right one."""
import os
import re
import sys
import tempfile

from dating.kept import Kept
from dating.shell import help
from dating.shell.session import Quit, Session

TIME = re.compile(r"20\d\d-\d\d-\d\dT[\d:]{8}Z")
# Of files that are not there.
PASSED = ("read ", "import ")


def house(path):
    """The house as it stands once the master is locked, and what it prints."""
    printed = []
    session = Session(Kept(), printed.append)
    edits = [line for line in open(path).read().splitlines() if line and not line.startswith("#")]
    for line in edits[: edits.index("add 8 m 0")]:
        session.line(line)
    assert set(printed) == {"ok\n"}, printed
    printed.clear()
    return session, printed


def main():
    tried = 0
    path = os.path.abspath(sys.argv[1])
    os.chdir(tempfile.mkdtemp())
    for entry in [*help.REQUESTS.values(), help.EXPRESSION]:
        session, printed = house(path)
        parts = re.split(r"(?:^|\n)dating> ", "\n".join(entry.example))[1:]
        assert parts, entry.word
        for part in parts:
            typed, _, wanted = part.partition("\n")
            if typed.startswith(PASSED):
                continue
            printed.clear()
            try:
                told = session.line(typed)
            except Quit:
                continue
            said = told.text if told.failed else "".join(printed).rstrip("\n")
            assert TIME.sub("", said) == TIME.sub("", wanted), f"{typed}\n{said}\n-- wanted\n{wanted}"
            tried += 1
        assert len([line for line in entry.text().split("\n") if len(line) > 82]) == 0, entry.word
    words = set(re.findall("[a-z]+", help.OVERVIEW))
    assert set(help.REQUESTS) <= words, set(help.REQUESTS) - words
    assert len(help.OVERVIEW.split("\n")) <= 22 and max(map(len, help.OVERVIEW.split("\n"))) <= 80, help.OVERVIEW
    slips = {"pair": "pairs", "chian": "chain", "ad": "add", "OPEN": "open", "gen": "generations", "delete": "remove", "unlok": "unlock", "sohw": "show"}
    for slip, meant in slips.items():
        assert help.nearest(slip).word == meant, slip
    print(f"shell: {tried} examples of help are answered as they say, {len(help.REQUESTS)} requests")


main()
