"""A register that is kept in a file: its history. What is accepted is written and synced before a call returns; what is refused leaves no trace."""

from __future__ import annotations

import errno
import fcntl
import os
import signal
import stat
import threading
from collections.abc import Iterator, Sequence
from contextlib import contextmanager
from types import TracebackType
from zlib import crc32

from .closing import short
from .history import FORMAT, HEAD, VERSION, Damaged, Journal, version_of
from .questions import State
from .register import Register, fresh
from .terms import Edit
from .texts import count


class NotKept(Exception):
    """A file that cannot be read or written, is open elsewhere, or was changed by another program: what it is, and what can be done. Nothing has changed."""


class _File:
    """The file of a history, locked while it is open for writing."""

    def __init__(self, path: str, descriptor: int, size: int) -> None:
        self.path, self.descriptor, self.size = path, descriptor, size
        self.broken = ""

    def append(self, line: bytes) -> None:
        """Writes a line and syncs it; if that cannot be done, takes back what was written of it."""
        if self.broken:
            raise NotKept(self.broken)
        self.unchanged()
        try:
            written = 0
            while written < len(line):
                written += os.write(self.descriptor, line[written:])
            os.fsync(self.descriptor)
        except BaseException as error:
            self.cut_back(error)
            if isinstance(error, OSError):
                raise NotKept(f"{self.path} cannot be written: {error.strerror}; the call is not made") from error
            raise
        self.size += len(line)

    def cut_back(self, error: BaseException) -> None:
        try:
            os.ftruncate(self.descriptor, self.size)
            os.fsync(self.descriptor)
        except OSError:
            self.broken = f"{self.path} could not be written ({error}), nor what was written be taken back: open it again"

    def unchanged(self) -> None:
        """That nobody else has written the file, moved it or put another in its place."""
        try:
            there = os.stat(self.path)
        except OSError as error:
            raise NotKept(f"{self.path} is gone ({error.strerror}): nothing more is written; sheet > FILE keeps what is here") from error
        mine = os.fstat(self.descriptor)
        if (there.st_ino, there.st_dev) != (mine.st_ino, mine.st_dev) or mine.st_size != self.size:
            raise NotKept(f"{self.path} was changed by another program: nothing more is written; open it again, or sheet > FILE keeps what is here")

    def close(self) -> None:
        os.close(self.descriptor)


class Kept(Register):
    """A register over the file of its history, as `dating.open` gives it; without a file, one that only remembers its calls.

    Questions and edits are those of `Register`. An edit that cannot be written raises `NotKept`, and is not made. `close`, or the end of a `with` block, lets
    the file go.
    """

    __slots__ = ("_journal", "_file", "read_only", "torn", "_seen", "_good", "changed", "_closed")

    read_only: bool
    torn: str
    """What was told of a last line that was cut; empty if none was."""
    changed: int
    """How often it was changed."""

    def __init__(self, path: str | os.PathLike[str] | None = None, read_only: bool = False) -> None:
        self._journal = Journal(os.fspath(path) if path is not None else "")
        self._file: _File | None = None
        self.read_only = read_only
        self.torn = ""
        self.changed = 0
        # The file as one who reads has seen it, and how much of it is whole lines, with their check.
        self._seen: tuple[int, ...] | None = None
        self._good = 0, 0
        self._closed = False
        self._keep(self._journal.state)
        self._reach = None
        if path is not None:
            self._open()

    # The file

    @property
    def path(self) -> str:
        """The file; empty without one."""
        return self._journal.path

    @property
    def is_open(self) -> bool:
        """Whether a register has been opened in it."""
        return self.size > 0

    def _open(self) -> None:
        path = self.path
        try:
            if not stat.S_ISREG(os.stat(path).st_mode):
                raise NotKept(f"{path} is no file that can be kept in: a folder or a device")
            descriptor = os.open(path, (os.O_RDONLY if self.read_only else os.O_RDWR | os.O_APPEND) | os.O_CLOEXEC)
        except FileNotFoundError:
            if self.read_only:
                raise NotKept(f"{path} is not there: without --read-only, open N makes it") from None
            return
        except OSError as error:
            hint = "" if self.read_only or not os.access(path, os.R_OK) else "; --read-only reads it"
            raise NotKept(f"{path} cannot be {'read' if self.read_only else 'opened for writing'}: {error.strerror}{hint}") from error
        try:
            if not self.read_only:
                _lock(descriptor, path)
            text = _whole(descriptor, path)
            self._load(text, descriptor)
        except BaseException:
            os.close(descriptor)
            raise
        if self.read_only:
            os.close(descriptor)

    def _load(self, text: bytes, descriptor: int) -> None:
        self._seen = _status(os.fstat(descriptor))
        good = text.rfind(b"\n") + 1
        self._good = good, crc32(text[:good])
        if good == 0 and not HEAD.startswith(text):
            raise _no_history(self.path, text)
        if good:
            head = text[: text.index(b"\n")]
            if version_of(head) is None:
                raise _no_history(self.path, head)
            if version_of(head) != VERSION:
                raise Damaged(self.path, 1, head.decode(), f"a history of version {version_of(head)}; this program reads version {VERSION}")
            self._journal.read(text[len(head) + 1 : good])
        if good < len(text):
            self._set_aside(text[good:], good, descriptor)
        self._keep(self._journal.state)
        self._reach = self._journal.reach
        if not self.read_only:
            self._file = _File(self.path, descriptor, good)

    def _set_aside(self, rest: bytes, good: int, descriptor: int) -> None:
        """Keeps a last line that was cut in a file beside, and takes it off."""
        cut = f"the last line of {self.path} was cut, and was never accepted: {rest[:80].decode(errors='replace')!r}"
        if self.read_only:
            self.torn = f"{cut}; it is passed over"
            return
        place = 1
        while os.path.exists(beside := f"{self.path}.cut-{place}"):
            place += 1
        try:
            with open(beside, "xb") as file:
                file.write(rest)
                file.flush()
                os.fsync(file.fileno())
            os.ftruncate(descriptor, good)
            os.fsync(descriptor)
        except OSError as error:
            raise NotKept(f"{cut}; it cannot be set aside in {beside}: {error.strerror}; --read-only reads the rest") from error
        self.torn = f"{cut}; it is set aside in {beside}"

    def _make_file(self) -> _File:
        """A new file, its name synced; it is empty."""
        try:
            descriptor = os.open(self.path, os.O_RDWR | os.O_APPEND | os.O_CREAT | os.O_EXCL | os.O_CLOEXEC, 0o666)
        except OSError as error:
            raise NotKept(f"{self.path} cannot be made: {error.strerror}; the call is not made") from error
        try:
            _lock(descriptor, self.path)
            folder = os.open(os.path.dirname(self.path) or ".", os.O_RDONLY | os.O_DIRECTORY)
            try:
                os.fsync(folder)
            finally:
                os.close(folder)
        except BaseException:
            os.close(descriptor)
            raise
        return _File(self.path, descriptor, 0)

    def refresh(self) -> str:
        """For one who reads: takes what another has written since, and tells of it; empty if nothing has changed."""
        if not self.read_only or self._seen is None or self._closed:
            return ""
        with self._turn:
            before = self.calls
            try:
                if _status(os.stat(self.path)) == self._seen:
                    return ""
                onward = self._read_on()
            except (OSError, NotKept, Damaged) as error:
                self._seen = None
                return f"{self.path} has changed, and is no longer read: {error}; answers are of what it was"
            if onward and self.calls == before:
                return ""
            self.changed += 1
            more = f"{count(self.calls - before, 'call')} more" if onward else "another history"
            return f"{self.path} has changed since it was read: {more}; answers are of what it is now"

    def _read_on(self) -> bool:
        """Takes the calls that were written since; if what was read before has changed, all of them anew, and that is no going on."""
        descriptor = os.open(self.path, os.O_RDONLY | os.O_CLOEXEC)
        try:
            seen, text = _status(os.fstat(descriptor)), _whole(descriptor, self.path)
        finally:
            os.close(descriptor)
        length, check = self._good
        onward = length > 0 and len(text) >= length and crc32(text[:length]) == check
        if onward:
            good = text.rfind(b"\n") + 1
            self._journal.read(text[length:good])
            self._good = good, crc32(text[length:good], check)
        else:
            again = Kept(self.path, read_only=True)
            self._journal, self._good = again._journal, again._good
        self._seen, self._words, self._reach = seen, self._journal.state, self._journal.reach
        return onward

    def close(self) -> None:
        """Lets the file go."""
        if self._file is not None:
            self._file.close()
            self._file = None
        self._closed = True

    def __enter__(self) -> Kept:
        return self

    def __exit__(self, kind: type[BaseException] | None, error: BaseException | None, traceback: TracebackType | None) -> None:
        self.close()

    def __del__(self) -> None:
        if getattr(self, "_file", None) is not None:
            self.close()

    # Changes

    def _write(self, line: str, state: State, reach: int | None, remark: str = "") -> None:
        if self.read_only or self._closed:
            raise NotKept(f"{self.path or 'the register'} is {'closed' if self._closed else 'open for reading alone'}; the call is not made")
        if line == "close":
            remark = f"old and new: {short(self.closed_up())}"
        sealed = self._journal.sealed(line, remark)
        with _uninterrupted():
            if self.path:
                self._file = self._file or self._make_file()
                # A file that is empty has no first line yet.
                self._file.append(sealed if self._file.size else HEAD + sealed)
            self._journal.take(sealed, state, reach)
            self.changed += 1
            super()._write(line, state, reach)

    def begin(self, n: int) -> None:
        """Begins afresh with n records; what was there before is in the history alone."""
        with self._turn:
            self._write(f"open {n}", fresh(n), None)

    def settle(self) -> None:
        """What is done stays done: undo does not reach before this."""
        with self._turn:
            self._write("settle", type(self._words).from_buffer_copy(self._words), 0)

    def replace(self, n: int, edits: Sequence[Edit], remark: str = "") -> None:
        """Begins afresh with n records and these edits, all or none; undo does not reach into them."""
        with self._turn:
            made = Register(n)
            made.apply(edits)
            self._write(", ".join([f"do open {n}", *map(str, edits), "settle"]), made._words, 0, remark)

    @property
    def calls(self) -> int:
        """How many calls the history has."""
        return len(self._journal.lines)

    def latest(self, most: int) -> list[tuple[str, str]]:
        """The latest calls, the last first: each as it was typed, and its time."""
        return self._journal.latest(most)

    @property
    def mark(self) -> str:
        """What tells this history from any other, and from itself before and after: its lines, and the check over them."""
        return f"{len(self._journal.lines)}-{self._journal.check:08x}"

    def since(self, mark: str) -> list[tuple[str, str]] | None:
        """The calls that were made since the history stood at this mark, the last first; none if it never did."""
        with self._turn:
            return [] if mark == self.mark else self._journal.since(mark)


def open_(path: str | os.PathLike[str], records: int | None = None, read_only: bool = False) -> Kept:
    """The register that is kept in a file. With `records`, a file that is not there yet is made, for a register of so many records; without, it must be
    there. One at a time has it open for writing; others read it with `read_only`.

    >>> import os, tempfile
    >>> folder = tempfile.TemporaryDirectory()
    >>> path = os.path.join(folder.name, "house.txt")
    >>> with open_(path, records=9) as register:
    ...     register.add(5, "t", 2)
    >>> with open_(path) as register:
    ...     register.undo()
    ...     print(register)
    <Kept: 9 records, no links>
    >>> folder.cleanup()
    """
    kept = Kept(path, read_only)
    if not kept.is_open:
        if records is None or read_only:
            kept.close()
            raise NotKept(f"{os.fspath(path)} has no register yet: records= makes one")
        kept.begin(records)
    return kept


def _no_history(path: str, text: bytes) -> Damaged:
    hint = "if it is a sheet or a list of requests, open another file and read this one there"
    return Damaged(path, 1, text[:200].decode(errors="replace"), f"no history of a dating register, whose first line is {FORMAT!r} and a version; {hint}")


def _status(status: os.stat_result) -> tuple[int, ...]:
    """What tells whether a file has changed."""
    return status.st_dev, status.st_ino, status.st_size, status.st_mtime_ns


def _lock(descriptor: int, path: str) -> None:
    try:
        fcntl.flock(descriptor, fcntl.LOCK_EX | fcntl.LOCK_NB)
    except OSError as error:
        if error.errno not in (errno.EAGAIN, errno.EACCES):
            raise NotKept(f"{path} cannot be locked: {error.strerror}") from error
        raise NotKept(f"{path} is open for writing elsewhere: --read-only reads it") from None


def _whole(descriptor: int, path: str) -> bytes:
    parts = []
    try:
        while part := os.read(descriptor, 1 << 20):
            parts.append(part)
    except OSError as error:
        raise NotKept(f"{path} cannot be read: {error.strerror}") from error
    return b"".join(parts)


@contextmanager
def _uninterrupted() -> Iterator[None]:
    """A call is written and taken, or neither: Ctrl-C waits for its end."""
    if threading.current_thread() is not threading.main_thread():
        yield
        return
    before = signal.pthread_sigmask(signal.SIG_BLOCK, [signal.SIGINT, signal.SIGTERM])
    try:
        yield
    finally:
        signal.pthread_sigmask(signal.SIG_SETMASK, before)
