#!/usr/bin/env python3
"""on_terminal.py SHELL TYPED [FILE]: runs the shell on a pseudo-terminal of 24 lines and 80 columns, types each line of the file TYPED once the prompt is
there, then Ctrl-D, and prints what the terminal shows, echo and prompt included. A line ^C is Ctrl-C, and ^D is Ctrl-D; a line after a question answers it.
The exit status is the shell's.
on_terminal.py SHELL TYPED answers: only the answers go to the terminal; the file is the shell's standard input."""
import fcntl
import os
import pty
import select
import signal
import struct
import sys
import termios
import time

PROMPTS = (b"\ndating> ", b"\nyes or no? ")
KEYS = {b"^C": b"\x03", b"^D": b"\x04"}
WAIT = 20  # seconds for an answer
END_OF_INPUT = b"\x04"


def read_to(terminal, endings, last=False):
    """What comes up to one of the endings; or up to the end, if there is none or it may come."""
    text = b""
    while not endings or not text.endswith(endings):
        if not select.select([terminal], [], [], WAIT)[0]:
            sys.exit(f"on_terminal.py: no answer in {WAIT} seconds after {text!r}")
        try:
            part = os.read(terminal, 65536)
        except OSError:  # the other side is closed
            part = b""
        if not part:
            if not endings or last:
                return text
            sys.exit(f"on_terminal.py: the shell ended after {text!r}")
        text += part
    return text


def wait_for_quiet(child):
    """Until the shell sleeps: a signal that comes between its prompt and its wait for a key is seen only at the next key."""
    asleep = 0
    while asleep < 5:
        time.sleep(0.05)
        with open(f"/proc/{child}/stat", "rb") as file:
            asleep = asleep + 1 if file.read().rpartition(b")")[2].split()[0] == b"S" else 0


def main():
    shell, typed, *more = sys.argv[1:]
    answers_alone = more == ["answers"]
    with open(typed, "rb") as file:
        lines = file.read().splitlines()
    child, terminal = pty.fork()
    if child == 0:
        fcntl.ioctl(1, termios.TIOCSWINSZ, struct.pack("HHHH", 24, 80, 0, 0))
        if answers_alone:
            os.dup2(os.open(typed, os.O_RDONLY), 0)
        # Ctrl-C reaches the shell also where the test was begun with it ignored, as in the background.
        signal.signal(signal.SIGINT, signal.SIG_DFL)
        # No colours, no marks around what is pasted.
        os.environ["TERM"] = "dumb"
        os.environ["INPUTRC"] = "/dev/null"
        os.execv(shell, [shell, *([] if answers_alone else more)])
    shown = b""
    if not answers_alone:
        shown += read_to(terminal, PROMPTS)
        for line in lines:
            if line in KEYS:
                wait_for_quiet(child)
            os.write(terminal, KEYS.get(line, line + b"\n"))
            shown += read_to(terminal, PROMPTS)
        os.write(terminal, END_OF_INPUT)
        shown += read_to(terminal, PROMPTS, True)
        if shown.endswith(PROMPTS):
            os.write(terminal, END_OF_INPUT)
    shown += read_to(terminal, ())
    sys.stdout.buffer.write(shown.replace(b"\r\n", b"\n"))
    sys.exit(os.waitstatus_to_exitcode(os.waitpid(child, 0)[1]))


main()
