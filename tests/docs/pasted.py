#!/usr/bin/env python3
"""What the documents show is what one gets: pasted.py, from the repository, once the programs and the library are made.

README.md: each indented line that is a command is parted at `&&`. A part that proves, installs, serves, tests or measures is only looked for: the files that
it names must be there. Every other part is run, in a folder beside which the repository's own stand by links, and must end with status 0. The block of the
job's output must be part of what the job prints.
README.md and docs/*.md: a fenced block that begins with `dating> ` is typed into the shell, and must be answered as it says; one that begins with `>>> ` is a
session of Python.
"""
import doctest
import os
import pathlib
import re
import subprocess
import sys
import tempfile

ROOT = pathlib.Path(__file__).resolve().parents[2]
TIMEOUT = 120  # seconds
# What a part begins with that takes minutes, installs something or does not end.
LONG = re.compile(r"(rt|bash tests/run|pip|host/(archive|shared|install)|tests/|bench/|.*-m dating\.page|gcc .*pkg-config)\b")
COMMAND = re.compile(r"(?:[A-Z_]+=\S+ )*(\S+)")
KNOWN = {"rt", "bash", "python3", "pip", "gcc", "cargo"}


def fenced(text):
    return re.findall(r"^```\w*\n(.*?)^```$", text, re.M | re.S)


def commands(text):
    """The indented lines that are commands, without their remarks, and the indented blocks that are none."""
    found, shown = [], []
    for block in re.findall(r"(?:^    \S.*\n)+", re.sub(r"^```.*?^```$", "", text, flags=re.M | re.S), re.M):
        lines = [line[4:] for line in block.splitlines()]
        if lines[0].startswith("crates.txt "):  # the list of folders at the end
            continue
        mine = [line for line in lines if is_command(line)]
        found += [re.split(r"\s+# ", line)[0].strip() for line in mine]
        if not mine:
            shown.append("".join(f"{line}\n" for line in lines))
    return found, shown


def is_command(line):
    word = COMMAND.match(line).group(1)
    return word in KNOWN or ("/" in word and os.access(ROOT / word, os.X_OK) and (ROOT / word).is_file())


def missing(part):
    """The files that a part names and that are not there; what is made is under target/."""
    for word in re.findall(r"[\w./-]+", part):
        if re.match(r"(host|tests|bench|examples|tools|docs|crates)/", word) and not (ROOT / word).exists():
            yield word


def done(words, folder, environment, typed):
    return subprocess.run(words, cwd=folder, env=environment, input=typed, capture_output=True, text=True, timeout=TIMEOUT)


def shell(block, folder, environment):
    """What differs when a session is typed into the shell."""
    typed = [line[len("dating> ") :] for line in block.splitlines() if line.startswith("dating> ")]
    run = done([sys.executable, "-m", "dating"], folder, environment, "".join(f"{line}\n" for line in typed))
    said = re.sub(r"^line \d+, .*?: (?=refused)", "", run.stdout, flags=re.M)
    said = re.sub(r"\d+ lines?: \d+ done, .*\n\Z", "", said)
    wanted = "".join(f"{line}\n" for line in block.splitlines() if not line.startswith("dating> "))
    return [] if said == wanted and not run.stderr else [f"the shell answers otherwise than a session says:\n{block}it says:\n{said}{run.stderr}"]


def python(block):
    """What differs when a session of Python is run."""
    test = doctest.DocTestParser().get_doctest(block, {}, "README", "README.md", 0)
    told = []
    doctest.DocTestRunner().run(test, out=told.append)
    return ["a session of Python differs:\n" + "".join(told)] if told else []


def main():
    faults, ran, looked, sessions = [], 0, 0, 0
    sys.path.insert(0, str(ROOT / "host/python"))
    environment = {**os.environ, "PYTHONPATH": str(ROOT / "host/python"), "PYTHONDONTWRITEBYTECODE": "1"}
    sys.dont_write_bytecode = True
    readme = (ROOT / "README.md").read_text()
    with tempfile.TemporaryDirectory() as folder:
        for path in ROOT.iterdir():
            if path.name != ".git":
                (pathlib.Path(folder) / path.name).symlink_to(path)
        lines, shown = commands(readme)
        printed = ""
        for line in lines:
            for part in line.split(" && "):
                faults += [f"README: {word} is not there: {line}" for word in missing(part)]
                if LONG.match(part):
                    looked += 1
                    continue
                run = done(["bash", "-c", part], folder, environment, "")
                ran, printed = ran + 1, printed + run.stdout
                if run.returncode != 0:
                    faults.append(f"README: {part} ends with status {run.returncode}:\n{run.stdout}{run.stderr}")
        faults += [f"README shows what no line of it prints:\n{block}" for block in shown if block not in printed]
        for path in [ROOT / "README.md", *sorted((ROOT / "docs").glob("*.md"))]:
            for block in fenced(path.read_text()):
                if block.startswith("dating> "):
                    sessions += 1
                    faults += [f"{path.name}: {fault}" for fault in shell(block, folder, environment)]
                elif block.startswith(">>> "):
                    sessions += 1
                    faults += [f"{path.name}: {fault}" for fault in python(block)]
    for fault in faults:
        print(fault)
    if not ran or not sessions:
        sys.exit("pasted: the README has no line, or no session, that can be run")
    print(f"pasted: {ran} commands run, {looked} that take long looked for, {sessions} sessions, {len(faults)} faults")
    sys.exit(1 if faults else 0)


main()
