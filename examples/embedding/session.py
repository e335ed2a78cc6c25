#!/usr/bin/env python3
"""Keeps an order checked in a process of its own: asks `edicheck session` one command at a time, over pipes.

  session.py PROGRAM STORE TEXT      prints each reply
  session.py --script                prints the commands
"""
import subprocess
import sys


class Session:
    """A text that is read once, and kept by the program while it is edited."""

    def __init__(self, program, store, text):
        self.child = subprocess.Popen([program, "session", store, text], stdin=subprocess.PIPE, stdout=subprocess.PIPE)

    def ask(self, command):
        """The whole reply to a command. The program puts it before it reads the next command."""
        self.child.stdin.write(command)
        self.child.stdin.flush()
        head = self.child.stdout.readline()
        word, _, number = head.rstrip(b"\n").partition(b" ")
        if word in (b"errors", b"tree"):
            return head + b"".join(self.child.stdout.readline() for _ in range(int(number)))
        if word in (b"contrl", b"text"):
            return head + self.child.stdout.read(int(number) + 1)
        return head

    def close(self):
        """The status of the program, which is 0 once `end` was answered."""
        self.child.stdin.close()
        return self.child.wait()


def replace(at, cut, put):
    return b"replace %d %d %d\n%s\n" % (at, cut, len(put), put)


COMMANDS = [
    b"errors\n",
    replace(77, 2, b"PO"),
    b"errors\n",
    b"batch 2\n" + replace(84, 0, b"DTM+137:19960105:102'\n") + replace(178, 1, b"8"),
    b"errors\n",
    b"undo\n",
    b"errors\n",
    b"text\n",
    b"end\n",
]


def main(*words):
    if words == ("--script",):
        sys.stdout.buffer.write(b"".join(COMMANDS))
        return 0
    session = Session(*words)
    for command in COMMANDS:
        sys.stdout.buffer.write(session.ask(command))
    return session.close()


if __name__ == "__main__":
    sys.exit(main(*sys.argv[1:]))
