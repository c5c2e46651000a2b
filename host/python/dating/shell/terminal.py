"""The terminal: typed lines, and how much of an answer is a screenful."""

from __future__ import annotations

import os
import sys

from ..texts import count
from . import help
from .session import Quit, Session
from .told import Told

try:
    import readline
except ImportError:
    readline = None  # type: ignore[assignment]

# What is taken where the terminal tells no size, and the lines of a screenful that are left for the remark after it and for the prompt.
_USUAL = os.terminal_size((80, 24))
_LEFT = 2
# A terminal's own line has no more bytes than this; what is typed beyond is gone.
_TERMINAL_LINE = 4095
_YES = ("y", "yes")
_NO = ("n", "no")


def is_there() -> bool:
    """Whether requests come from a terminal and answers go to one."""
    return sys.stdin.isatty() and sys.stdout.isatty()


def screenful(text: str, size: os.terminal_size) -> int:
    """The characters of a text that fill the screen, up to the end of a line; all of it if it fits. One line at least."""
    room, used, end = max(1, size.lines - _LEFT), 0, 0
    for line in text.splitlines(keepends=True):
        used += max(1, -(-len(line.rstrip("\n")) // size.columns))
        if used > room and end:
            break
        end += len(line)
    return end


class Terminal:
    """Requests typed on a terminal, with a line editor where Python has one."""

    def __init__(self, session: Session) -> None:
        self.session = session
        self.rest = ""
        session.ask, session.screen, session.more = self.ask, self.show, self.more
        if readline is not None:
            readline.set_completer(_complete)
            readline.set_completer_delims(" ")
            readline.parse_and_bind("tab: complete")

    def run(self) -> None:
        """Answers what is typed, up to quit or the end of the input."""
        session = self.session
        where = f"{session.register.path}{', for reading alone' if session.register.read_only else ''}" if session.register.path else ""
        kept = f"Kept in {where}" if where else "Kept nowhere: sheet > FILE writes it"
        session.out(f"The dating register. {kept}; help lists the requests; quit ends.\n")
        interrupted = False
        while True:
            try:
                line = input(help.PROMPT)
                interrupted = False
                self.answered(line)
            except KeyboardInterrupt:
                # The line is taken back; a second time it is the end.
                session.out("\n")
                if interrupted and self.leaves("Ctrl-C"):
                    return
                if not interrupted:
                    session.out("the line is taken back; Ctrl-C again, or quit, ends\n" if session.unsaved else "")
                interrupted = True
            except EOFError:
                interrupted = False
                session.out("\n")
                if self.leaves("the end of the input"):
                    return
            except Quit:
                if self.leaves("quit"):
                    return

    def answered(self, line: str) -> None:
        """Answers a line; Ctrl-C in the midst is told, since the call may have been made."""
        try:
            self.typed(line)
        except KeyboardInterrupt:
            self.session.out("\ninterrupted; what was accepted stays, and history lists it\n")

    def typed(self, line: str) -> None:
        session = self.session
        changed = session.register.refresh()
        if changed:
            session.out(changed + "\n")
        if readline is None and len(line.encode("utf-8", "surrogateescape")) >= _TERMINAL_LINE:
            session.out(f"no request: a terminal's line has at most {_TERMINAL_LINE:,} bytes, and this one may have been cut; read FILE takes longer ones\n")
            session.failed = True
            return
        told = session.line(line)
        if told is not None and told.failed:
            session.failed = True
            session.tell(told, "", line.strip())

    def leaves(self, how: str) -> bool:
        """Whether the session ends; asked if work would be lost."""
        session = self.session
        if not session.unsaved:
            return True
        try:
            return self.asked(f"{count(session.unsaved, 'change')} kept nowhere would be lost by {how}; sheet > FILE keeps them. End all the same?")
        except EOFError:
            # Asked, and the input has ended again.
            session.out("\n")
            return True

    def ask(self, question: str) -> bool:
        try:
            return self.asked(question)
        except EOFError:
            self.session.out("\n")
            return False

    def asked(self, question: str) -> bool:
        """The answer to a question; Ctrl-C is no."""
        self.session.out(question + "\n")
        while True:
            try:
                answer = input("yes or no? ").strip().lower()
            except KeyboardInterrupt:
                self.session.out("\n")
                return False
            if readline is not None and readline.get_current_history_length():
                readline.remove_history_item(readline.get_current_history_length() - 1)
            if answer in _YES or answer in _NO:
                return answer in _YES

    def show(self, text: str) -> None:
        """An answer, or a screenful of it."""
        try:
            size = os.get_terminal_size(sys.stdout.fileno())
        except OSError:
            size = _USUAL
        end = screenful(text, size if size.lines and size.columns else _USUAL)
        self.rest = text[end:]
        left = f"-- {count(self.rest.count(chr(10)), 'line')} left; type more to go on --\n" if self.rest else ""
        self.session.out(text[:end] + left)

    def more(self) -> Told:
        rest, self.rest = self.rest, ""
        return Told(rest or "nothing more to show", more=rest)


def _complete(text: str, state: int) -> str | None:
    """The request words that begin as the first word typed."""
    if readline is None or readline.get_begidx() > 0 and not readline.get_line_buffer().startswith(("help ", "preview ", "do ")):
        return None
    found = [word for word in help.REQUESTS if word.startswith(text)]
    return found[state] + " " if state < len(found) else None
