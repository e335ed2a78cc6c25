"""A directory in one file."""
import re

from . import service
from .files import (COMPOSITE, DEPTH_LIMIT, ELEMENT, GREATEST_LIMIT, LABELS, MEMBER_LIMIT, MESSAGE_NAME,
                    REPETITIONS, REPRESENTATION, ROW_LIMIT, STATUSES, table_fault)
from .service import Item, Part, Row
from .text import is_tag

NUMBER = re.compile(rb"0|[1-9][0-9]{0,18}")
# Version 2 is written, and both are read. Version 1 has no numbers of repetitions.
FIRST_LINES = {1: b"EDIDIR1", 2: b"EDIDIR2"}


class StoreFault(Exception):
    """Where the octets are no store."""

    def __init__(self, place):
        super().__init__(place)
        self.place = place


def status_of(member):
    return b"M" if member.mandatory else b"C"


def is_store(octets):
    """Whether a manifest is a store, and no manifest of lines."""
    return any(octets.startswith(line + b"\n") for line in FIRST_LINES.values())


def write_store(directory):
    """The one spelling of a directory that is written."""
    return spelling_of(directory, 2)


def spelling_of(directory, version):
    """The spelling of a directory in a version. That of version 1 is read as one where each number is 1."""
    lines = [FIRST_LINES[version], b" ".join(directory.labels), b"E %d" % len(directory.elements)]
    lines += [b"%s %s" % entry for entry in directory.elements.items()]
    lines.append(b"L %d" % len(directory.lists))
    for code, codes in directory.lists.items():
        lines += [b"%s %d" % (code, len(codes))] + codes
    lines.append(b"C %d" % len(directory.composites))
    for code, parts in directory.composites.items():
        lines += [b"%s %d" % (code, len(parts))] + [b"%s %s" % (part.code, status_of(part)) for part in parts]
    lines.append(b"S %d" % len(directory.segments))
    for tag, items in directory.segments.items():
        lines += [b"%s %d" % (tag, len(items))] + [item_line(item, version) for item in items]
    lines.append(b"T %d" % len(directory.messages))
    for name, rows in directory.messages.items():
        lines.append(b"%s %d" % (name, len(rows)))
        lines += [b"%d %s %s %d" % (row.depth, row.tag or b"-", status_of(row), row.greatest) for row in rows]
    return b"".join(line + b"\n" for line in lines)


def item_line(item, version):
    line = b"%s %s" % (item.code, status_of(item))
    return line if version == 1 else line + b" %d" % item.repetitions


class Lines:
    """The lines of a store, taken one by one."""

    def __init__(self, octets):
        self.octets = octets
        self.next = 0
        self.start = 0

    def take(self):
        """The words of the next line, which has to have its end."""
        end = self.octets.find(b"\n", self.next)
        if end < 0:
            raise StoreFault(len(self.octets))
        self.start, self.next = self.next, end + 1
        return self.octets[self.start:end].split(b" ")

    def require(self, holds):
        """Refuses the line that was taken last, unless this holds of it."""
        if not holds:
            raise StoreFault(self.start)

    def take_count(self, is_name, least, greatest):
        """A name, and a number in these bounds. No greatest number: any."""
        words = self.take()
        self.require(len(words) == 2 and is_name(words[0]) and is_number(words[1])
                     and least <= int(words[1]) and (greatest is None or int(words[1]) <= greatest))
        return words[0], int(words[1])

    def take_entries(self, letter, take_entry):
        """A number of entries, in strictly ascending order of their names."""
        count = self.take_count(lambda word: word == letter, 0, None)[1]
        found = {}
        for _ in range(count):
            name, content = take_entry(lambda new: all(old < new for old in found))
            found[name] = content
        return found


def is_number(word):
    return NUMBER.fullmatch(word) is not None


def read_store(octets):
    """The directory that these octets spell, or the fault that is met first."""
    from .directory import Directory
    # A fault is judged by version 1 only if the whole first line is that of version 1.
    version = 1 if octets.startswith(FIRST_LINES[1] + b"\n") else 2
    lines = Lines(octets)
    lines.require(lines.take() == [FIRST_LINES[version]])
    labels = lines.take()
    lines.require(LABELS.fullmatch(b" ".join(labels)) is not None)
    elements = lines.take_entries(b"E", lambda is_next: take_element(lines, is_next))
    lists = lines.take_entries(b"L", lambda is_next: take_list(lines, is_next, elements))
    composites = lines.take_entries(b"C", lambda is_next: take_members(
        lines, lambda name: COMPOSITE.fullmatch(name) and is_next(name),
        lambda words: part_of(lines, words, elements)))
    segments = lines.take_entries(b"S", lambda is_next: take_members(
        lines, lambda name: is_tag(name) and name not in service.SERVICE_SEGMENTS and is_next(name),
        lambda words: item_of(lines, words, elements, composites, version)))
    messages = lines.take_entries(b"T", lambda is_next: take_table(lines, is_next, segments))
    if lines.next < len(octets):
        raise StoreFault(lines.next)
    return Directory(tuple(labels), elements.items(), lists.items(), composites.items(), segments.items(),
                     messages.items())


def take_element(lines, is_next):
    words = lines.take()
    lines.require(len(words) == 2 and ELEMENT.fullmatch(words[0]) and REPRESENTATION.fullmatch(words[1])
                  and is_next(words[0]))
    return words[0], words[1]


def take_list(lines, is_next, elements):
    code, count = lines.take_count(lambda name: ELEMENT.fullmatch(name) and name in elements and is_next(name), 0, None)
    codes = []
    for _ in range(count):
        words = lines.take()
        lines.require(len(words) == 1 and 1 <= len(words[0]) <= 35 and (not codes or codes[-1] < words[0]))
        codes.append(words[0])
    return code, codes


def take_members(lines, is_name, member_of):
    """The parts of a composite, or the items of a segment."""
    name, count = lines.take_count(is_name, 1, MEMBER_LIMIT)
    return name, [member_of(lines.take()) for _ in range(count)]


def part_of(lines, words, elements):
    lines.require(len(words) == 2 and words[0] in elements and words[1] in STATUSES)
    return Part(words[0], words[1] == b"M", elements[words[0]])


def item_of(lines, words, elements, composites, version):
    """An item, which has its number of repetitions as a third word in version 2, and no third word in version 1."""
    lines.require(len(words) == (2 if version == 1 else 3))
    lines.require((words[0] in elements or words[0] in composites) and words[1] in STATUSES)
    lines.require(version == 1 or REPETITIONS.fullmatch(words[2]) is not None)
    return Item(words[0], words[1] == b"M", elements.get(words[0], b""), 1 if version == 1 else int(words[2]))


def take_table(lines, is_next, segments):
    """A table, which is judged as a whole at the line with its name."""
    name, count = lines.take_count(
        lambda word: MESSAGE_NAME.fullmatch(word) and word != b"CONTRL" and is_next(word), 2, ROW_LIMIT)
    place = lines.start
    rows = []
    for _ in range(count):
        words = lines.take()
        lines.require(len(words) == 4 and is_number(words[0]) and int(words[0]) <= DEPTH_LIMIT
                      and (words[1] == b"-" or words[1] in segments or words[1] in service.SERVICE_SEGMENTS)
                      and words[2] in STATUSES and is_number(words[3]) and 1 <= int(words[3]) <= GREATEST_LIMIT)
        rows.append(Row(None if words[1] == b"-" else words[1], words[2] == b"M", int(words[3]), int(words[0])))
    if table_fault(rows) is not None:
        raise StoreFault(place)
    return name, rows
