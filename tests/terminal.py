#!/usr/bin/env python3
"""The programs that answer lines, at a terminal: where they end behind a last line without an end.

    tests/terminal.py REPLAY OTHER ..

An input ends there when Ctrl-D is typed at the beginning of a line, and a line ends without a line feed when it is typed in the
midst of one. REPLAY ends at the first end of its input. Each OTHER (calls, chunks, cutter) reads on behind it, answers what is
typed then, and ends at the next.
"""

import os
import pty
import select
import signal
import subprocess
import sys
import termios

END = b"\x04"
LIMIT = 60  # seconds: far more than any answer takes


class Typed:
    """A program whose input is a terminal, and what it says."""

    def __init__(self, path):
        self.keys, screen = pty.openpty()
        modes = termios.tcgetattr(screen)
        modes[3] &= ~termios.ECHO
        termios.tcsetattr(screen, termios.TCSANOW, modes)
        self.program = subprocess.Popen([path], stdin=screen, stdout=subprocess.PIPE)
        self.screen = screen  # kept open, so that the terminal stays

    def type(self, keys):
        os.write(self.keys, keys)

    def line(self):
        """The next line that it says; nothing where it says no more."""
        said = b""
        while not said.endswith(b"\n"):
            if not select.select([self.program.stdout], [], [], LIMIT)[0]:
                raise TimeoutError("says nothing")
            more = os.read(self.program.stdout.fileno(), 1)
            if not more:
                break
            said += more
        return said

    def ended(self):
        try:
            return self.program.wait(LIMIT) == 0
        except subprocess.TimeoutExpired:
            self.program.send_signal(signal.SIGKILL)
            return False


def wrong(path, reads_on):
    """What is wrong with a program, or nothing."""
    p = Typed(path)
    p.type(b"no command" + END + END)
    if p.line() != b"bad\n":
        return "a last line without an end is not answered"
    if reads_on:
        p.type(b"# more\n")
        if p.line() != b"# more\n":
            return "what is typed behind the first end is not answered"
        p.type(END)
    if not p.ended():
        return "does not end at the end of its input"
    return "" if p.line() == b"" else "says more than the answers"


def main():
    replay, *others = sys.argv[1:]
    try:
        for end in pty.openpty():
            os.close(end)
    except OSError as problem:
        print(f"terminal: skipped: no terminal can be had here ({problem})")
        return
    for path, reads_on in [(replay, False)] + [(other, True) for other in others]:
        why = wrong(path, reads_on)
        if why:
            sys.exit(f"terminal.py: {path}: {why}")
    print(f"terminal: {1 + len(others)} programs end where they did")


if __name__ == "__main__":
    main()
