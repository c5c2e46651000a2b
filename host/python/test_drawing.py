"""Pictures: the example of the building, as its session draws it, and what the text of a picture says. With PICTURES, a folder, in the environment each
picture is laid there too, for `tests/pictures/run` to have it drawn.
"""

from __future__ import annotations

import os
import unittest
from pathlib import Path

from dating import Cause, Kept, Refusal, Register, Steps, drawing
from dating.names import Names
from dating.shell.session import Quit, Session

BUILDING = Path(__file__).resolve().parents[2] / "examples/building"

# The links m of the survey, with the chain from 4 over its link o.
SMALL = r"""// Links m of 8 records, by generation; 2 records without such links are not drawn
// The chain from 4 to 0, of 3 steps
digraph register {
    graph [rankdir=BT, ranksep=0.75, nodesep=0.25, labelloc=t, fontname="Helvetica", fontsize=16];
    node [shape=ellipse, width=0.6, height=0.4, margin="0.06,0.04", fontname="Helvetica", fontsize=14];
    edge [color=gray40, arrowsize=0.7, fontname="Helvetica", fontsize=12];
    label="Links m of 8 records, by generation; 2 records without such links are not drawn\nThe chain from 4 to 0, of 3 steps\n ";

    subgraph {
        rank=source;
        "legend" [shape=plaintext];
        "in use";
        "locked" [shape=box, peripheries=2];
        "withdrawn" [shape=hexagon, style="dashed"];
        "line of the chain, its steps numbered" [shape=point, width=0.05];
        " the chain, its steps numbered" [shape=plaintext];
    }
    "legend" -> "in use" -> "locked" -> "withdrawn" -> "line of the chain, its steps numbered" [style="invis"];
    "line of the chain, its steps numbered" -> " the chain, its steps numbered" [minlen=2, penwidth=4, style="bold", color=black];

    subgraph {
        rank=same;
        "all withdrawn" [shape=plaintext];
        5 [shape=hexagon, style="dashed"];
    }

    subgraph {
        rank=same;
        "generation 0" [shape=plaintext];
        2;
        3 [penwidth=3];
        4 [penwidth=3];
    }

    subgraph {
        rank=same;
        "generation 1" [shape=plaintext];
        1 [penwidth=3];
    }

    subgraph {
        rank=same;
        "generation 2" [shape=plaintext];
        0 [shape=box, peripheries=2, penwidth=3];
    }
    "legend" -> "all withdrawn" -> "generation 0" -> "generation 1" -> "generation 2" [style="invis"];

    1 -> 0 [label=" 3: m", penwidth=4, style="bold", color=black];
    2 -> 0 [label=" m"];
    2 -> 1 [label=" m"];
    3 -> 1 [label=" 2: m", penwidth=4, style="bold", color=black];
    4 -> 3 [label=" 1: o\n ", penwidth=4, style="bold", color=black, constraint=false];
}
"""


def survey() -> Register:
    """Records 0 to 7: a locked master, a chronology, three cores, a withdrawn one, a locked record and a free one that no link touches."""
    register = Register(8)
    for from_, letter, to in [(4, "o", 3), (1, "m", 0), (2, "m", 1), (3, "m", 1), (2, "m", 0)]:
        register.add(from_, letter, to)
    for record in (0, 6):
        register.lock(record)
    register.withdraw(5)
    return register


def kept(name: str, text: str) -> str:
    """A picture, of which a copy may be kept."""
    if folder := os.environ.get("PICTURES"):
        (Path(folder) / name).write_text(text)
    return text


def picture(name: str, register: Register, letters: str, chain: Steps | None = None) -> str:
    return kept(name, register.drawing(letters, chain))


def links(text: str) -> list[str]:
    return [line for line in text.splitlines() if 'label="' in line and " -> " in line]


class Pictures(unittest.TestCase):
    def test_the_building(self) -> None:
        """As its session draws it, before the numbers close up."""
        session = Session(Kept(), lambda text: None)
        texts = {}
        for line in (BUILDING / "session.txt").read_text().splitlines():
            asked, sign, file = line.partition(" > ")
            try:
                if asked.startswith("draw ") and sign:
                    letters, *path = asked.split()[1:]
                    chain = session.register.chain(int(path[0]), int(path[1]), path[2]) if path else None
                    texts[file] = picture(file, session.register, letters, chain)
                elif not sign:
                    session.line(line)
            except Quit:
                break
        self.assertEqual(texts["building.dot"], (BUILDING / "building.dot").read_text())
        # The chain adds its link o and its place in the legend, and takes nothing away.
        counts = [sum(" -> " in line for line in text.splitlines() if line.startswith("    ")) for text in texts.values()]
        self.assertEqual(counts[1], counts[0] + 2)

    def test_a_small_picture(self) -> None:
        register = survey()
        steps = register.chain(4, 0, "o/m+")
        self.assertEqual(picture("small.dot", register, "m", steps), SMALL)
        self.assertEqual(register.drawing("mm", steps), SMALL)

    def test_what_is_asked_for(self) -> None:
        register = survey()
        everything = picture("all.dot", register, "om")
        self.assertEqual(len(links(everything)), 5)
        head = "// Links m and o of 8 records, by generation; 2 records without such links are not drawn\ndigraph register {\n"
        self.assertTrue(everything.startswith(head))
        self.assertTrue('"locked"' in everything and '"withdrawn"' in everything and "the chain" not in everything)
        overlaps = picture("overlaps.dot", register, "o")
        self.assertEqual(len(links(overlaps)), 1)
        self.assertTrue("; 5 records without such links are not drawn\n" in overlaps and '"locked"' not in overlaps)
        none = picture("none.dot", register, "")
        self.assertTrue(none.startswith("// No links of 8 records, by generation; 7 records without such links are not drawn\n"))
        self.assertTrue('\n        5 [shape=hexagon, style="dashed"];\n' in none and '"in use"' not in none and not links(none))
        alone = picture("alone.dot", register, "", register.chain(7, 7, "a*"))
        self.assertTrue("\n// The chain from 7 to 7, of 0 steps\n" in alone and "\n        7 [penwidth=3];\n" in alone)
        fresh = picture("fresh.dot", Register(1), "abc")
        self.assertTrue(fresh.startswith("// Links a, b and c of 1 record, by generation; 1 record without such links is not drawn\n"))

    def test_links_that_lead_back(self) -> None:
        register = survey()
        register.unlock(0)
        register.add(1, "o", 2)
        text = picture("loop.dot", register, "om", register.chain(4, 2, "o/m/o"))
        self.assertIn("\n// no generations: the links o of 1 and m of 2 lead back\ndigraph", text)
        self.assertTrue('"generation' not in text and '" links that lead back"' in text)
        self.assertIn('\n    2 -> 1 [label=" m", penwidth=2, style="dashed", arrowhead=empty, color=black];\n', text)
        self.assertIn('\n    1 -> 2 [label=" 3: o", penwidth=4, style="bold,dashed", arrowhead=empty, color=black];\n', text)
        self.assertIn('"generation 2"', register.drawing("m"))
        register.add(7, "z", 7)
        self.assertIn("\n// no generations: the link z of 7 leads back\n", picture("single.dot", register, "z"))

    def test_crossed_twice(self) -> None:
        register = survey()
        text = picture("twice.dot", register, "m", register.chain(2, 2, "m/^m"))
        self.assertIn('\n    2 -> 0 [label=" 1, 2: m", penwidth=4, style="bold", color=black];\n', text)

    def test_a_part(self) -> None:
        register, names = survey(), Names()
        names.records, names.letters = {4: 'core "A"', 0: "master"}, {"m": "matched"}
        steps = register.chain(4, 0, "o/m+")
        assert steps is not None
        chain = kept("chain.dot", drawing.of_chain(register, steps, names))
        self.assertEqual(len(links(chain)), 3)
        self.assertIn('    4 [label="core \\"A\\"\\n4", penwidth=3];', chain)
        self.assertIn('    3 -> 1 [label=" 2: matched", penwidth=4, style="bold", color=black];', chain)
        near = kept("near.dot", drawing.near(register, 4, 1, names))
        self.assertEqual(len(links(near)), 1)
        self.assertEqual(len(links(kept("nearer.dot", drawing.near(register, 4, 2, names)))), 2)
        self.assertEqual(len(links(drawing.near(register, 4, 0))), 0)
        with self.assertRaises(Refusal):
            drawing.near(register, 8, 1)

    def test_refusals(self) -> None:
        register = survey()
        steps = register.chain(4, 0, "o/m+")
        for letters in ("M", "a b"):
            with self.assertRaises(Refusal) as refused:
                register.drawing(letters, steps)
            self.assertEqual(refused.exception.cause, Cause.LABEL)
        register.remove(4, "o", 3)
        with self.assertRaises(Refusal) as refused:
            register.drawing("m", steps)
        self.assertEqual(refused.exception.cause, Cause.ABSENT)

    def test_more_than_anyone_can_read(self) -> None:
        register = Register(1024)
        for place in range(4000):
            register.add(place % 1023, "abcd"[place // 1023], place % 1023 + 1)
        with self.assertRaisesRegex(drawing.TooMuch, "4,000 links would be drawn, which no one can read"):
            register.drawing("abcd")
        with self.assertRaisesRegex(drawing.TooMuch, "1,023 steps"):
            steps = register.chain(0, 1023, "(a|b)+")
            assert steps is not None
            drawing.of_chain(register, steps)
        text = drawing.near(register, 500, 50)
        self.assertEqual(len(links(text)), 400)
        for line in text.splitlines():
            self.assertTrue(not line or line.startswith("//") or line.endswith((";", "{", "}")), line)


if __name__ == "__main__":
    unittest.main()
