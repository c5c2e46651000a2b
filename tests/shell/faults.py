#!/usr/bin/env python3
"""faults.py [ROUNDS]: a history file through what happens to files. Nothing that was accepted is lost, nothing is there twice, nothing that was refused
is there, and what fails is told.

  killed     a process that edits is killed at random, ROUNDS times, in the midst of writes that go out a few bytes at a time
  full       a disk that is full after each number of bytes of a line, and of a sheet
  denied     a file and a folder without permission
  cut        a last line that ends after each of its bytes
  changed    each byte of a history changed; lines exchanged, doubled, taken out
  two        two who write, one who reads, a file that is put in the place of another
"""
import contextlib
import locale  # what argparse reads later, when nobody else may
import os
import random
import resource
import select
import signal
import sys
import tempfile
import time

from dating import Damaged, Kept, NotKept, Refusal, Register, kept
from dating.files import written
from dating.history import HEAD
from dating.shell.main import main as command

ROUNDS = 2000
SEED = int(os.environ.get("SEED", 7))  # of what is edited, and when it is killed
ROUNDS_A_FILE = 100
ACCEPTED = 3  # calls, at most, before a process is killed
TIMED = 1500  # microseconds, at most, after them
WAIT = 5  # seconds for a call
PAUSE = 0.0001  # seconds between two parts of a write
NOBODY = 65534


def calls_of(path):
    """The calls of a history as its text has them, without a last line that was cut."""
    with open(path, "rb") as file:
        text = file.read()
    lines = text[: text.rfind(b"\n") + 1].decode().splitlines()
    return [line.split("  # ")[0] for line in lines[1:]]


def in_child(work):
    """What a process of its own returns: 0 if the work is done, or the words of what went wrong."""
    reader, writer = os.pipe()
    child = os.fork()
    if child == 0:
        said = b""
        try:
            work()
        except BaseException as error:
            said = f"{type(error).__name__}: {error}".encode()
        os.write(writer, said[:4000])
        os._exit(0)
    os.close(writer)
    with os.fdopen(reader, "rb") as file:
        said = file.read()
    os.waitpid(child, 0)
    assert not said, said.decode()


# Killed


def edits_of(rng, register):
    """Edits without end, some of which are refused."""
    while True:
        kind = rng.randrange(10)
        link = rng.randrange(8), rng.choice("tom"), rng.randrange(8)
        if kind < 5:
            yield f"add {link[0]} {link[1]} {link[2]}", lambda: register.add(*link)
        elif kind < 7:
            yield f"remove {link[0]} {link[1]} {link[2]}", lambda: register.remove(*link)
        elif kind < 8:
            yield "undo", register.undo
        elif kind < 9:
            yield "settle", register.settle
        else:
            pair = [kept.Edit.add(*link), kept.Edit.remove(*link)]
            yield f"do {pair[0]}, {pair[1]}", lambda: register.apply(pair)


def editor(path, seed, writer):
    """Edits the register until it is killed, and says what it tries and what is accepted."""
    rng = random.Random(seed)
    real = os.write

    def slowly(descriptor, text):
        time.sleep(PAUSE)
        return real(descriptor, text[: rng.randrange(1, 12)])

    os.write = slowly
    register = Kept(path)
    if not register.is_open:
        real(writer, b"try open 8\n")
        register.begin(8)
        real(writer, b"ok\n")
    for call, make in edits_of(rng, register):
        real(writer, f"try {call}\n".encode())
        try:
            make()
            real(writer, b"ok\n")
        except Refusal:
            real(writer, b"refused\n")


def waited(reader, calls):
    """What is said up to so many accepted calls."""
    told = b""
    while told.count(b"ok\n") < calls and select.select([reader], [], [], WAIT)[0]:
        part = os.read(reader, 4096)
        if not part:
            break
        told += part
    return told


def killed(folder, rounds):
    rng = random.Random(SEED)
    accepted = cut = in_flight = 0
    path = ""
    for round in range(rounds):
        if round % ROUNDS_A_FILE == 0:
            path = os.path.join(folder, f"killed-{round}.txt")
            calls = []
        reader, writer = os.pipe()
        child = os.fork()
        if child == 0:
            try:
                editor(path, SEED + round, writer)
            except BaseException as error:
                print(f"faults.py: {type(error).__name__}: {error}", file=sys.stderr, flush=True)
            os._exit(3)
        os.close(writer)
        told = waited(reader, rng.randrange(ACCEPTED))
        time.sleep(rng.randrange(TIMED) / 1e6)
        os.kill(child, signal.SIGKILL)
        status = os.waitpid(child, 0)[1]
        with os.fdopen(reader, "rb") as file:
            told = (told + file.read()).decode()
        assert os.WIFSIGNALED(status), f"the process ended by itself, in round {round}"
        lines = told[: told.rfind("\n") + 1].splitlines()
        tried = ""
        for line in lines:
            if line == "ok":
                calls.append(tried)
                accepted += 1
            tried = line.removeprefix("try ")
        there = calls_of(path) if os.path.exists(path) else []
        assert there[: len(calls)] == calls, f"round {round}: an accepted call is lost or there twice"
        further = there[len(calls) :]
        # One may have been written and not yet told: the last that was tried, if nothing was said of it.
        assert further in ([], [tried] if lines and lines[-1].startswith("try ") else []), f"round {round}: {further} was not accepted"
        in_flight += len(further)
        calls = there
        if os.path.exists(path):
            with open(path, "rb") as file:
                cut += not file.read().endswith(b"\n")
    for name in sorted(os.listdir(folder)):
        if name.endswith(".txt"):
            with Kept(os.path.join(folder, name)) as register:
                assert register.size in (0, 8)
    aside = sum(".cut-" in name for name in os.listdir(folder))
    print(f"faults: killed {rounds} times, {accepted} accepted calls, none lost, none twice; {cut} last lines cut, {aside} set aside; {in_flight} untold")


# A full disk


def made(path):
    """A register of three calls, and their text."""
    if os.path.exists(path):
        os.unlink(path)
    register = Kept(path)
    register.begin(4)
    register.add(0, "a", 1)
    register.lock(1)
    return register


@contextlib.contextmanager
def room(size):
    """No file has more bytes than this."""
    before = resource.getrlimit(resource.RLIMIT_FSIZE)
    signal.signal(signal.SIGXFSZ, signal.SIG_IGN)
    resource.setrlimit(resource.RLIMIT_FSIZE, (size, before[1]))
    try:
        yield
    finally:
        resource.setrlimit(resource.RLIMIT_FSIZE, before)


def full(folder):
    path, sheet = os.path.join(folder, "full.txt"), os.path.join(folder, "sheet.txt")
    register = made(path)
    before, calls = os.path.getsize(path), calls_of(path)
    tried = 0
    length = len("add 2 a 3  # 2026-11-16T16:40:02Z 00000000\n")
    for more in range(length):
        with room(before + more):
            try:
                register.add(2, "a", 3)
                raise AssertionError(f"an edit is accepted on a full disk, {more} bytes")
            except NotKept as error:
                assert "cannot be written" in str(error) and "not made" in str(error), error
        assert os.path.getsize(path) == before and calls_of(path) == calls and len(register.links()) == 1
        tried += 1
    register.add(2, "a", 3)
    assert len(calls_of(path)) == 4 and len(register.links()) == 2
    with open(sheet, "wb") as file:
        file.write(b"old\n")
    for size in range(0, 100, 7):
        with room(size):
            try:
                written(sheet, b"x" * 100)
                raise AssertionError("a sheet is written on a full disk")
            except OSError:
                pass
        with open(sheet, "rb") as file:
            assert file.read() == b"old\n"
        tried += 1
    assert [name for name in os.listdir(folder) if name.startswith(".")] == [], "a file beside is left"
    register.close()
    print(f"faults: a disk full at {tried} places, each told, the file and the register as they were; the next edit is accepted")


def denied(folder):
    path = os.path.join(folder, "denied.txt")
    made(path).close()
    os.chmod(path, 0o444)
    locked = os.path.join(folder, "locked")
    os.mkdir(locked, 0o555)
    tries = [
        ([path, "-c", "unlock 1"], 1, "cannot be opened for writing: Permission denied; --read-only reads it"),
        ([path, "--read-only", "-c", "links"], 0, "0 -a-> 1"),
        ([os.path.join(locked, "new.txt"), "-c", "open 3"], 1, "cannot be made: Permission denied"),
        ([path, "--read-only", "-c", f"sheet > {locked}/sheet.txt"], 1, "cannot be written: Permission denied"),
    ]
    for arguments, status, words in tries:
        reader, writer = os.pipe()
        child = os.fork()
        if child == 0:
            os.dup2(writer, 1)
            os.dup2(writer, 2)
            sys.stdout = os.fdopen(1, "w")
            if os.getuid() == 0:
                os.setgid(NOBODY)
                os.setuid(NOBODY)
            code = 99
            try:
                code = command(arguments)
            except BaseException as error:
                print(repr(error), file=sys.stderr)
            finally:
                sys.stderr.flush()
                os._exit(code)
        os.close(writer)
        with os.fdopen(reader) as file:
            said = file.read()
        code = os.waitstatus_to_exitcode(os.waitpid(child, 0)[1])
        assert code == status and words in said, (arguments, code, said)
    print(f"faults: {len(tries)} files and folders without permission, each told")


def cut(folder):
    path = os.path.join(folder, "cut.txt")
    made(path).close()
    with open(path, "rb") as file:
        text = file.read()
    last = text.rindex(b"\n", 0, -1) + 1
    for end in range(last + 1, len(text)):
        for name in os.listdir(folder):
            if ".cut-" in name:
                os.unlink(os.path.join(folder, name))
        with open(path, "wb") as file:
            file.write(text[:end])
        with Kept(path, read_only=True) as register:
            assert "was cut" in register.torn and not register.is_locked(1)
        with Kept(path) as register:
            assert "set aside" in register.torn and register.size == 4 and not register.is_locked(1)
            register.lock(0)
        with open(f"{path}.cut-1", "rb") as file:
            assert file.read() == text[last:end]
        with Kept(path) as register:
            assert not register.torn and register.locked() == [0] and calls_of(path) == ["open 4", "add 0 a 1", "lock 0"]
    # The first lines likewise: a file that was being made.
    for end in range(len(HEAD) + 20):
        if end == len(HEAD):
            continue
        with open(path, "wb") as file:
            file.write(text[:end])
        with Kept(path) as register:
            assert not register.is_open
    print(f"faults: a last line cut at each of {len(text) - last - 1} bytes, told and set aside; a first line at each of {len(HEAD) + 20}")


def changed(folder):
    path = os.path.join(folder, "changed.txt")
    register = made(path)
    register.apply([kept.Edit.unlock(1), kept.Edit.add(1, "b", 2)])
    register.add(3, "c", 3)
    register.undo()
    register.close()
    with open(path, "rb") as file:
        text = file.read()
    lines = text.splitlines(keepends=True)
    tries = [text[:at] + bytes([text[at] ^ flip]) + text[at + 1 :] for at in range(len(text) - 1) for flip in (1, 4, 32)]
    for one in range(1, len(lines)):
        tries.append(b"".join(lines[:one] + [lines[one], *lines[one:]]))
        if one + 1 < len(lines):
            tries.append(b"".join(lines[:one] + lines[one + 1 :]))
            tries.append(b"".join(lines[:one] + [lines[one + 1], lines[one]] + lines[one + 2 :]))
        # Into a remark, an empty line, another call.
        tries += [b"".join(lines[:one] + [new] + lines[one + 1 :]) for new in (b"#" + lines[one][1:], b"\n", b"undo\n", b"lock 3" + lines[one][6:])]
    # A line turned into another that the register would take.
    tries.append(text.replace(b"add 0 a 1 ", b"add 0 a 2 "))
    told = 0
    for wrong in tries:
        with open(path, "wb") as file:
            file.write(wrong)
        try:
            Kept(path).close()
            raise AssertionError(f"not told: {wrong!r}")
        except Damaged as error:
            assert error.line >= 1 and error.why and path in str(error)
            told += 1
        with open(path, "rb") as file:
            assert file.read() == wrong, "a damaged file is written"
    with open(path, "wb") as file:
        file.write(text.replace(b"history 1", b"history 2"))
    try:
        Kept(path).close()
        raise AssertionError("another version is read")
    except Damaged as error:
        assert "version 2" in str(error)
    print(f"faults: {told} changed histories, each told by file, line and text, none written; another version told")


def two(folder):
    path = os.path.join(folder, "two.txt")
    first = made(path)
    for _ in range(3):
        try:
            Kept(path)
            raise AssertionError("two write one file")
        except NotKept as error:
            assert "open for writing elsewhere" in str(error)
    in_child(lambda: refused_elsewhere(path))
    reader = Kept(path, read_only=True)
    assert reader.refresh() == "" and reader == first
    first.add(2, "b", 3)
    assert "1 call more" in reader.refresh() and reader == first
    try:
        reader.unlock(1)
        raise AssertionError("one who reads has written")
    except NotKept:
        pass
    # Another file in its place, and one that another program has written to.
    other = os.path.join(folder, "other.txt")
    made(other).close()
    os.replace(other, path)
    assert "another history" in reader.refresh() or reader == first
    try:
        first.add(3, "b", 3)
        raise AssertionError("an edit goes into a file that is not there")
    except NotKept as error:
        assert "changed by another program" in str(error)
    assert len(first.links()) == 2
    first.close()
    first = Kept(path)
    size = os.path.getsize(path)
    with open(path, "ab") as file:
        file.write(b"# a remark\n")
    try:
        first.add(3, "b", 3)
        raise AssertionError("an edit goes after what another has written")
    except NotKept as error:
        assert "changed by another program" in str(error)
    first.close()
    os.truncate(path, size)
    with Kept(path) as again:
        again.add(3, "b", 3)
    os.unlink(path)
    assert "no longer read" in reader.refresh()
    print("faults: two who write, one who reads, a file put in the place of another, one written by another program, one taken away: each told")


def refused_elsewhere(path):
    try:
        Kept(path)
    except NotKept:
        return
    raise AssertionError("two processes write one file")


def main():
    rounds = sys.argv[1:]
    begun = time.monotonic()
    assert locale is not None
    # In memory where that can be: a kill is as sudden there, and a sync takes no time.
    with tempfile.TemporaryDirectory(dir="/dev/shm" if os.access("/dev/shm", os.W_OK) else None) as folder:
        killed(folder, int(rounds[0]) if rounds else ROUNDS)
    with tempfile.TemporaryDirectory() as folder:
        os.chmod(folder, 0o755)
        full(folder)
        denied(folder)
        cut(folder)
        changed(folder)
        two(folder)
    print(f"faults: all in {time.monotonic() - begun:.0f} seconds")


main()
