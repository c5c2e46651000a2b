"""The command: `python3 -m dating [FILE]`, or `dating-register [FILE]` once it is installed."""

from __future__ import annotations

import argparse
import io
import os
import sys
from collections.abc import Iterable

from ..files import Line, lines
from ..history import Damaged
from ..kept import Kept, NotKept
from ..names import Names, NoNames, unread
from .session import Quit, Session, unwritten
from .terminal import Terminal, is_there

# The status of a command that Ctrl-C ended.
_INTERRUPTED = 130


def main(arguments: list[str] | None = None) -> int:
    """The shell; the status is 0, or 1 if a line was refused or no request, or a file could not be read or written."""
    from .. import __version__

    parser = argparse.ArgumentParser(
        prog="dating-register",
        description="The dating register: typed requests, answered in words; help lists them. What is accepted is in FILE before ok is said.",
    )
    parser.add_argument("file", nargs="?", metavar="FILE", help="the history that the register is kept in; made at open N if it is not there")
    parser.add_argument("-c", action="append", metavar="REQUEST", dest="requests", help="answer this request, and any further -c, and end")
    parser.add_argument("--read-only", action="store_true", help="read the file while another writes it; no edits")
    parser.add_argument("--names", metavar="NAMES", help="a file with names of records and letters")
    parser.add_argument("--version", action="version", version=f"dating-register {__version__}")
    given = parser.parse_args(arguments)
    if given.read_only and given.file is None:
        parser.error("--read-only takes a FILE")
    if isinstance(sys.stdout, io.TextIOWrapper):
        sys.stdout.reconfigure(encoding="utf-8", errors="replace")
    try:
        return _answered(given)
    except KeyboardInterrupt:
        return _INTERRUPTED
    except BrokenPipeError:
        os.dup2(os.open(os.devnull, os.O_WRONLY), sys.stdout.fileno())
        return 0
    except OSError as error:
        print(unwritten(error), file=sys.stderr)
        os.dup2(os.open(os.devnull, os.O_WRONLY), sys.stdout.fileno())
        return 1


def run() -> None:
    """The command as it is installed."""
    sys.exit(main())


def _answered(given: argparse.Namespace) -> int:
    try:
        register = Kept(given.file, given.read_only)
        names = Names.read(given.names) if given.names else Names()
    except (Damaged, NotKept, NoNames) as error:
        print(f"dating: {error}", file=sys.stderr)
        return 1
    except OSError as error:
        print(f"dating: {unread(given.names or given.file, error)}", file=sys.stderr)
        return 1
    with register:
        session = Session(register, _out)
        session.names = names
        if register.torn:
            print(f"dating: {register.torn}", file=sys.stderr)
        if given.requests is not None:
            return _script(session, (Line(number, text, False) for number, text in enumerate(given.requests, 1)), "request")
        if is_there():
            if given.file and not register.is_open:
                _out(f"{given.file} is not there yet, or has no register: open N makes it\n")
            Terminal(session).run()
            return 1 if session.failed else 0
        return _script(session, lines(sys.stdin.buffer))


def _script(session: Session, script: Iterable[Line], unit: str = "line") -> int:
    try:
        sums = session.run(script, "", unit)
    except Quit as end:
        sums = end.args[0]
    if sums.failed:
        session.out(sums.text() + "\n" if session.mode == "text" else "")
    sys.stdout.flush()
    return 1 if sums.failed else 0


def _out(text: str) -> None:
    sys.stdout.write(text)
    sys.stdout.flush()
