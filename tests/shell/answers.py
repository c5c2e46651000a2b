"""What the shell prints, read back: a list of pairs, a chain as it is drawn."""
import re

HEAD = re.compile(r"(no|[\d,]+) pairs?")
DRAWN = re.compile(r"(\d+)(.*) \(([\d,]+) steps?\)")
STEP = re.compile(r"(?:-([a-z])->|<-([a-z])-) (\d+)")
INDENT = "    "
WIDTH = 78


def number(text):
    """A count, in figures with commas or as `no`."""
    return 0 if text == "no" else int(text.replace(",", ""))


def pairs(line, lines):
    """The pairs whose head is the line, read from the lines after it."""
    found = HEAD.fullmatch(line)
    assert found, f"{line} is no head of pairs"
    return [tuple(map(int, next(lines).split(" "))) for _ in range(number(found[1]))]


def chain(line, lines, ends):
    """The steps of a chain between these ends, (letter, sense, record reached), drawn from the line on over as many as it takes; or None."""
    if line.startswith("no chain"):
        assert line.split(":")[0] == "no chain of any length from {} to {}".format(*ends), line
        return None
    while not line.endswith(")"):
        more = next(lines)
        assert more.startswith(INDENT) and len(more) <= WIDTH, more
        line += " " + more[len(INDENT) :]
    drawn = DRAWN.fullmatch(line)
    assert drawn, f"{line[:200]} is no chain"
    steps = [(forward or back, "+" if forward else "-", int(reached)) for forward, back, reached in STEP.findall(drawn[2])]
    assert "".join(f" -{letter}-> {to}" if sense == "+" else f" <-{letter}- {to}" for letter, sense, to in steps) == drawn[2], line[:200]
    assert number(drawn[3]) == len(steps), line[-40:]
    assert (int(drawn[1]), steps[-1][2] if steps else int(drawn[1])) == ends, line[:200]
    return steps
