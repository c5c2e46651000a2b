"""The command: `python3 -m dating.page FILE`."""

from __future__ import annotations

import argparse
import os
import signal
import sys
import threading

from ..history import Damaged
from ..kept import NotKept, open_
from ..names import Names, NoNames, unread
from ..refusal import Refusal
from .desk import Desk
from .server import Server

_PASSWORD = "DATING_PAGE_PASSWORD"
_SHORTEST = 8


def main(arguments: list[str] | None = None) -> int:
    """Serves the page until it is ended; the status is 1 if it cannot be served."""
    parser = argparse.ArgumentParser(
        prog="python3 -m dating.page",
        description="The dating register as a page in the browser. What is saved is in FILE before the page says so.",
    )
    parser.add_argument("file", metavar="FILE", help="the history that the register is kept in")
    parser.add_argument("--records", type=int, metavar="N", help="make the file, with records 0 to N - 1, if it is not there")
    parser.add_argument("--names", metavar="NAMES", help="a file with names of records and letters")
    parser.add_argument("--port", type=int, default=8000, help="8000 if none is named; 0 takes any that is free")
    parser.add_argument("--read-only", action="store_true", help="read the file while another program writes it; no edits")
    parser.add_argument("--host", default="127.0.0.1", help="another address than 127.0.0.1; a password is needed then, and what is sent is not encrypted")
    parser.add_argument("--password-file", metavar="PASSWORD", help=f"a file whose first line is the password; or {_PASSWORD} has it")
    given = parser.parse_args(arguments)
    if not 0 <= given.port < 1 << 16:
        parser.error("a port is a number from 0 to 65535")
    try:
        password = _password(given.password_file)
        if not (given.host.startswith("127.") or given.host == "localhost") and not password:
            raise NotKept(f"{given.host} can be reached from other machines: --password-file FILE, or {_PASSWORD}, must give a password")
        names = Names.read(given.names) if given.names else Names()
        register = open_(given.file, given.records, given.read_only)
    except (Damaged, NotKept, NoNames) as error:
        return _failed(str(error).replace("records= makes one", "--records N makes one"))
    except Refusal as refusal:
        return _failed(f"--records: {refusal.meaning}")
    except OSError as error:
        return _failed(unread(given.names or given.file, error))
    with register:
        if register.torn:
            print(f"dating.page: {register.torn}", file=sys.stderr)
        try:
            server = Server((given.host, given.port), Desk(register, names), password)
        except OSError as error:
            return _failed(f"{given.host}:{given.port} cannot be served: {error.strerror or error}; --port names another")
        _serve(server, given.host)
    return 0


def _serve(server: Server, host: str) -> None:
    with server:
        # Ended from another thread: whoever serves cannot wait for itself.
        for number in (signal.SIGINT, signal.SIGTERM):
            signal.signal(number, lambda *_: threading.Thread(target=server.shutdown).start())
        print(f"http://{host}:{server.server_port}/ is the page of {server.desk.register.path}; Ctrl-C ends it", flush=True)
        server.serve_forever(poll_interval=0.2)
    server.desk.end()


def _password(path: str | None) -> str:
    if path is None:
        found = os.environ.get(_PASSWORD, "")
    else:
        try:
            with open(path, encoding="utf-8") as file:
                found = file.readline(1000).strip()
        except (OSError, ValueError) as error:
            raise NotKept(f"{path} cannot be read: {error}") from error
        if not found:
            raise NotKept(f"{path} has no password on its first line")
    if found and len(found) < _SHORTEST:
        raise NotKept(f"the password has {len(found)} characters, and {_SHORTEST} are the fewest")
    return found


def _failed(words: str) -> int:
    print(f"dating.page: {words}", file=sys.stderr)
    return 1


def run() -> None:
    """The command as it is run."""
    sys.exit(main())
