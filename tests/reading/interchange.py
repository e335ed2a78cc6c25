"""A whole text by a directory: its messages and groups, all its errors, and its tree."""
from typing import NamedTuple, Optional

from . import tables
from .elements import is_digits, local_errors_of, syntax_errors_of
from .text import context_of, elements_of, printed_tag, segments_of, service_of, tag_of, tail_of, value_at

# Every kind of error, in the order of errors at one place, with its code.
KINDS = [line.split() for line in """
bad-una 22
no-unb 13
no-unz 13
syntax 2
second-unb 15
after-end 33
outside 33
empty-interchange 32
tail 13
mixed 30
reference 28
count 29
no-une 13
empty-group 32
group-type 31
no-table 12
missing-segment 13
missing-group 13
too-many-segments 35
too-many-groups 36
unplaced 15
bad-tag 12
unknown-segment 12
too-many-elements 16
too-many-components 16
missing 13
repertoire 21
type 37
decimal 19
too-long 39
too-short 40
code 12
too-many-repetitions 35
""".strip().split("\n")]
NUMBER_OF = {word: number for number, (word, _code) in enumerate(KINDS, 1)}
CODE_OF = {word: code for word, code in KINDS}


class Error(NamedTuple):
    """An error. Errors are ordered by segment, element, component, number of the kind, and node."""
    segment: int
    element: int
    component: int
    number: int
    node: int
    kind: str
    start: int
    tag: Optional[bytes]
    missing: Optional[bytes]


class Extent(NamedTuple):
    """From which segment to which a message or a group runs, and whether a segment of its own closes it."""
    first: int
    last: int
    closed: bool


def extents_of(tags, opening, closing, others):
    """From each opening segment to the first closing one after it, or to the one before any of the others."""
    found = []
    for first in [k for k, tag in enumerate(tags, 1) if tag == opening]:
        stops = [k for k in range(first + 1, len(tags) + 1) if tags[k - 1] == closing or tags[k - 1] in others]
        if not stops:
            found.append(Extent(first, len(tags), False))
        elif tags[stops[0] - 1] == closing:
            found.append(Extent(first, stops[0], True))
        else:
            found.append(Extent(first, stops[0] - 1, False))
    return found


class Reading:
    """Everything that is known of a text by a directory."""

    def __init__(self, directory, text):
        self.directory = directory
        self.text = text
        self.context = context_of(text)
        self.service = self.context.service
        self.segments = segments_of(text)
        self.elements = [elements_of(segment.octets, self.service) for segment in self.segments]
        self.tags = [tag_of(segment.octets, self.service) for segment in self.segments]
        # The first UNZ, which ends the interchange, or None.
        self.end = (self.with_tag(b"UNZ") or [None])[0]
        self.messages = extents_of(self.tags, b"UNH", b"UNT", (b"UNH", b"UNE", b"UNG", b"UNZ", b"UNB"))
        self.groups = extents_of(self.tags, b"UNG", b"UNE", (b"UNG", b"UNZ", b"UNB"))
        self.tables = [self.table_of(message) for message in self.messages]
        self.steps = [None if table is None else tables.reading_of(table, self.tags[message.first - 1:message.last])
                      for message, table in zip(self.messages, self.tables)]
        self.errors = sorted(self.interchange_errors() + self.message_errors() + self.group_errors()
                             + self.structure_errors() + self.element_errors())

    def value(self, segment, element, component=1):
        return value_at(self.elements[segment - 1], element, component)

    def with_tag(self, *tags):
        """The numbers of the segments with one of these tags."""
        return [k for k, tag in enumerate(self.tags, 1) if tag in tags]

    def is_after_end(self, segment):
        return self.end is not None and segment > self.end

    def message_at(self, segment):
        """The message that a segment lies in, or None."""
        return next((m for m in self.messages if m.first <= segment <= m.last), None)

    def group_at(self, segment):
        return next((g for g in self.groups if g.first <= segment <= g.last), None)

    def begins_with_unb(self):
        return self.tags[:1] == [b"UNB"]

    def table_of(self, message):
        """The table with the type, version, release and agency of a message, or None."""
        name = tuple(self.value(message.first, 2, component) for component in (1, 2, 3, 4))
        return self.directory.tables.get(name)

    def error(self, segment, kind, element=0, component=0, node=0, missing=None):
        """An error at a segment. Segment 0 is the text as a whole, and the one after the last is the tail."""
        start, tag = 0, None
        if 1 <= segment <= len(self.segments):
            start, tag = self.segments[segment - 1].start, self.tags[segment - 1]
        elif segment > len(self.segments):
            start = tail_of(self.text)
        return Error(segment, element, component, NUMBER_OF[kind], node, kind, start, tag, missing)

    def interchange_errors(self):
        """What is wrong with the text as a whole, and with segments by where they are in it."""
        found = []
        if not self.service.sound:
            found.append(self.error(0, "bad-una"))
        if not self.begins_with_unb():
            found.append(self.error(0, "no-unb"))
        if self.end is None:
            found.append(self.error(0, "no-unz"))
        if self.begins_with_unb():
            # The level and version are read without repetitions.
            first = elements_of(self.segments[0].octets, service_of(self.text))
            found += [self.error(1, kind, element, component) for element, component, kind in syntax_errors_of(first)]
        found += [self.error(k, "second-unb") for k in self.with_tag(b"UNB") if k > 1 and not self.is_after_end(k)]
        found += [self.error(k, "after-end") for k in range(1, len(self.tags) + 1) if self.is_after_end(k)]
        found += [self.error(k, "outside") for k in range(1, len(self.tags) + 1) if self.is_outside(k)]
        if tail_of(self.text) is not None:
            found.append(self.error(len(self.segments) + 1, "tail"))
        if self.end is not None:
            found += self.end_errors(self.end)
        return found

    def is_outside(self, segment):
        """Whether a segment up to the end has no place between messages, and lies in none."""
        closes_group = any(group.closed and group.last == segment for group in self.groups)
        return (not self.is_after_end(segment) and self.message_at(segment) is None and not closes_group
                and self.tags[segment - 1] not in (b"UNB", b"UNG", b"UNZ"))

    def end_errors(self, end):
        """What is wrong at the first UNZ."""
        groups = [k for k in self.with_tag(b"UNG") if k < end]
        messages = [k for k in self.with_tag(b"UNH") if k < end]
        found = [] if groups or messages else [self.error(end, "empty-interchange")]
        found += self.count_error(end, len(groups) if groups else len(messages))
        if self.begins_with_unb():
            found += self.reference_error(end, self.value(1, 5))
        return found

    def count_error(self, segment, due):
        """A closing segment's count, which may have leading zeros, but no more than 19 digits."""
        count = self.value(segment, 1)
        good = is_digits(count) and len(count) <= 19 and int(count) == due
        return [] if good else [self.error(segment, "count", 1)]

    def reference_error(self, segment, due):
        return [] if self.value(segment, 2) == due else [self.error(segment, "reference", 2)]

    def message_errors(self):
        """What is wrong with messages as envelopes."""
        found = []
        for message, table in zip(self.messages, self.tables):
            group = self.group_at(message.first)
            if group is None and self.with_tag(b"UNG"):
                found.append(self.error(message.first, "mixed"))
            if group is not None and self.value(message.first, 2) != self.value(group.first, 1):
                found.append(self.error(message.first, "group-type"))
            if table is None:
                found.append(self.error(message.first, "no-table", 2))
            if message.closed:
                found += self.count_error(message.last, message.last - message.first + 1)
                found += self.reference_error(message.last, self.value(message.first, 1))
        return found

    def group_errors(self):
        """What is wrong with functional groups."""
        found = []
        for group in self.groups:
            inside = [k for k in self.with_tag(b"UNH") if group.first <= k <= group.last]
            if not inside:
                found.append(self.error(group.first, "empty-group"))
            if group.closed:
                found += self.count_error(group.last, len(inside))
                found += self.reference_error(group.last, self.value(group.first, 5))
            else:
                found.append(self.error(group.first, "no-une"))
        return found

    def structure_errors(self):
        """What is wrong with the places of segments in their messages."""
        found = []
        for message, table, steps in zip(self.messages, self.tables, self.steps):
            if table is None:
                continue
            for place, step in enumerate(steps):
                segment = message.first + place
                found += self.missing_errors(segment, table, step.missing)
                if step.entry is None:
                    found.append(self.error(segment, "unplaced"))
                elif step.over:
                    repeats = tables.is_trigger(table, step.entry)
                    found.append(self.error(segment, "too-many-groups" if repeats else "too-many-segments"))
            if not message.closed:
                found += self.missing_errors(message.last, table, tables.missing_at_the_end(table, steps))
        return found

    def missing_errors(self, segment, table, nodes):
        return [self.error(segment, "missing-group" if tables.is_group(table, node) else "missing-segment", 0, 0,
                           node, table[tables.entry_of(table, node)].tag) for node in nodes]

    def element_errors(self):
        return [self.error(segment.number, kind, element, component) for segment in self.segments
                for element, component, kind in local_errors_of(self.directory, self.context, segment.octets)]


def print_errors(reading):
    """The printed error list."""
    lines = ["errors %d" % len(reading.errors)]
    for error in reading.errors:
        line = "%d %d %s %d %d %s %s" % (error.segment, error.start, printed_tag(error.tag), error.element,
                                         error.component, CODE_OF[error.kind], error.kind)
        lines.append(line + (" " + printed_tag(error.missing) if error.kind.startswith("missing-") else ""))
    return "".join(line + "\n" for line in lines).encode("ascii")


def print_tree(reading):
    """The printed tree."""
    lines = []
    for segment, tag in enumerate(reading.tags, 1):
        lines += tree_lines(reading, segment, printed_tag(tag))
    return "".join(line + "\n" for line in ["tree %d" % len(lines)] + lines).encode("ascii")


def tree_lines(reading, segment, tag):
    """The lines of a segment: a second one where it opens a group."""
    message = reading.message_at(segment)
    if message is None:
        return ["- %d %s" % (segment, tag)]
    table, steps = next((table, steps) for other, table, steps
                        in zip(reading.messages, reading.tables, reading.steps) if other == message)
    if table is None:
        return ["? %d %s" % (segment, tag)]
    placed = [step.entry for step in steps[:segment - message.first + 1]]
    entry = placed[-1]
    if entry is None:
        return ["! %d %s" % (segment, tag)]
    lines = ["%s= %d %s %d" % ("  " * table[entry].depth, segment, tag, entry)]
    if tables.is_trigger(table, entry):
        group = entry - 1
        lines.insert(0, "%sgroup %d %d" % ("  " * table[group].depth, tables.group_number(table, group),
                                           tables.group_count(table, placed, group)))
    return lines
