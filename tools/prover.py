"""How the prover is asked of a changed copy of a crate: for tools/mutate."""
import os
import pathlib
import re
import shutil
import subprocess
import sys

ROOT = pathlib.Path(__file__).resolve().parents[1]
CRATES = ROOT / "crates"
# The first error that it tells: its place, and what it says.
ERROR = re.compile(r"^(\S+?): error: (.*)", re.M)


def home():
    """The kit's folder."""
    return pathlib.Path(shutil.which("rt") or sys.exit("rt is missing")).resolve().parents[1]


def words(name, root, incremental):
    """The words of a check, as rt has them; over an incremental folder, if there is one, what did not change is not proved again."""
    kit = home()
    lines = [line.split("#")[0].partition(":") for line in (ROOT / "crates.txt").read_text().splitlines()]
    kind, below = next((left.split()[1:], right.split()) for left, _, right in lines if left.split()[:1] == [name])
    found = ["--crate-name", name, str(root), "--extern", f"std={kit}/rlibs/std.rlib", "-L", f"dependency={kit}/rlibs"]
    for crate in below:
        built = CRATES / crate / "out/rlib"
        found += ["--extern", f"{crate}={built}/{crate}.rlib", "-L", f"dependency={built}"]
    found += ["--antt-project", f"{kit}/rattle/logic/antt-project.json", "--logic-built", f"{kit}/logic_built", "--links", f"{name}="]
    found += ["--crate-type", "staticlib"] if "staticlib" in kind else []
    return [f"{kit}/bin/rattle", "check", *found, *(["--incremental", str(incremental)] if incremental else [])]


def copied(name, folder):
    """A crate copied into a folder: its first file of code."""
    shutil.rmtree(folder, ignore_errors=True)
    for part in ("src", "specs", "proofs"):
        if (CRATES / name / part).is_dir():
            shutil.copytree(CRATES / name / part, folder / part)
    return next(path for path in (folder / "src/main.rt", folder / "src/lib.rt") if path.is_file())


def asked(name, root, incremental, log):
    """proved, refused, no program or untold; and what was said, which is in the log."""
    log.parent.mkdir(parents=True, exist_ok=True)
    with log.open("w") as out:
        status = subprocess.run(words(name, root, incremental), stdout=out, stderr=subprocess.STDOUT).returncode
    said = log.read_text(errors="replace")
    if status == 1 and "logic=not-proved" in said:
        return "refused", said
    return {0: "proved", 3: "untold"}.get(status, "no program"), said


def first_error(said, folder):
    """Where the first error stands in the copy, and what it says; empty if none is told."""
    found = ERROR.search(said)
    return (found.group(1).replace(f"{folder}/", ""), found.group(2)) if found else ("", "")
