"""Scripts: how one is split into commands, and what is answered to each of them.

A session is a script with three more commands, which move in a history of texts. The script of an edit has the same
history, but no command that looks at it.
"""
import re
from typing import NamedTuple

from .acknowledgement import acknowledgement_of
from .interchange import Reading, print_errors, print_tree
from .text import TEXT_LIMIT

STAMP = re.compile(rb"([0-9]{6}):([0-9]{4})")
REFERENCE = re.compile(rb"[A-Z0-9]{1,14}")
NUMBER = rb"(0|[1-9][0-9]{0,18})"
REPLACE = re.compile(rb"replace %s %s %s\n" % (NUMBER, NUMBER, NUMBER))
CONTRL = re.compile(rb"contrl %s (%s)\n" % (STAMP.pattern, REFERENCE.pattern))
BATCH = re.compile(rb"batch ([1-9]|1[0-6])\n")
# The first lines of commands.
EDIT_LINES = [re.compile(rb"(errors|tree|text|end)\n"), REPLACE, CONTRL]
SESSION_LINES = EDIT_LINES + [re.compile(rb"(undo|redo)\n"), BATCH]
SAMPLES = (b"errors\n", b"tree\n", b"text\n", b"end\n", b"replace 0 0 0\n", b"contrl 000000:0000 A\n", b"undo\n",
           b"redo\n", b"batch 1\n")
PAST_LIMIT = 100


class Edit(NamedTuple):
    """How many octets are cut at a place, and what is put there."""
    at: int
    cut: int
    put: bytes


class Command(NamedTuple):
    """The first line of a command, and its edits: one of replace, some of batch, none of any other."""
    line: bytes
    edits: list


class Past(NamedTuple):
    """The texts before, the last one last; the text; and the texts that were undone, the next one first."""
    before: list
    text: bytes
    undone: list


def is_line(line, lines):
    """Whether this is a whole line of these, with a number of octets that a text may have."""
    replace = REPLACE.fullmatch(line)
    return any(form.fullmatch(line) for form in lines) and (replace is None or int(replace.group(3)) <= TEXT_LIMIT)


def is_beginning(octets, lines):
    """Whether one of these lines begins so: the end of some sample makes it one."""
    return any(is_line(octets + sample[place:], lines) for sample in SAMPLES for place in range(len(sample) + 1))


def command_in(script, lines):
    """The first command of a script and what is after it; or why there is none: line or cut."""
    line = script[:script.find(b"\n") + 1]
    if not is_line(line, lines):
        return None, ("cut" if b"\n" not in script and is_beginning(script, lines) else "line")
    rest = script[len(line):]
    if REPLACE.fullmatch(line):
        return edit_in(line, rest)
    batch = BATCH.fullmatch(line)
    edits = []
    for _ in range(int(batch.group(1)) if batch else 0):
        # In a batch there is no other command.
        command, rest = command_in(rest, [REPLACE])
        if command is None:
            return None, rest
        edits += command.edits
    return Command(line, edits), rest


def edit_in(line, rest):
    """The command replace with this line, which has its octets and LF after it."""
    at, cut, size = (int(group) for group in REPLACE.fullmatch(line).groups())
    data = rest[:size + 1]
    if len(data) <= size:
        return None, "cut"
    if not data.endswith(b"\n"):
        return None, "line"
    return Command(line, [Edit(at, cut, data[:-1])]), rest[size + 1:]


def answer_script(directory, text, script, lines):
    """The replies to a script. Each is made of the texts as they are then, and of nothing else."""
    output, answered, past = b"", 0, Past([], text, [])
    while True:
        command, rest = command_in(script, lines)
        if command is None:
            return output + b"fault script %d %s\n" % (answered + 1, rest.encode("ascii")), 6
        if command.edits:
            reply, past = edited(past, command)
        elif command.line in (b"undo\n", b"redo\n"):
            reply, past = moved(past, command.line)
        else:
            reply = reply_to(directory, past.text, command.line)
        output += reply
        if command.line == b"end\n":
            return output, 0
        answered, script = answered + 1, rest


def edited(past, command):
    """The reply to the edits of a command, and the history after them. They are made one after the other, or none."""
    text = past.text
    for number, edit in enumerate(command.edits, 1):
        which = b" %d" % number if BATCH.fullmatch(command.line) else b""
        if edit.at + edit.cut > len(text):
            return b"no range%s\n" % which, past
        if len(text) - edit.cut + len(edit.put) > TEXT_LIMIT:
            return b"no limit%s\n" % which, past
        text = text[:edit.at] + edit.put + text[edit.at + edit.cut:]
    return b"ok %d\n" % len(text), Past((past.before + [past.text])[-PAST_LIMIT:], text, [])


def moved(past, line):
    """The reply to undo or redo, and the history after it."""
    if line == b"undo\n" and past.before:
        after = Past(past.before[:-1], past.before[-1], [past.text] + past.undone)
    elif line == b"redo\n" and past.undone:
        after = Past(past.before + [past.text], past.undone[0], past.undone[1:])
    else:
        return b"no " + line, past
    return b"ok %d\n" % len(after.text), after


def reply_to(directory, text, line):
    """The reply to a command that changes nothing."""
    if line == b"end\n":
        return b"end\n"
    if line == b"text\n":
        return b"text %d\n%s\n" % (len(text), text)
    reading = Reading(directory, text)
    if line == b"errors\n":
        return print_errors(reading)
    if line == b"tree\n":
        return print_tree(reading)
    date, time, reference = CONTRL.fullmatch(line).groups()
    octets, why_not = acknowledgement_of(reading, (date, time), reference)
    return b"contrl %d\n%s\n" % (len(octets), octets) if why_not is None else why_not + b"\n"
