"""Guides: files of lines that make a directory stricter."""
import re
from typing import NamedTuple

from .directory import Directory
from .files import COMPOSITE, ELEMENT, MESSAGE_NAME, STATUSES, Fault, lines_of
from .text import is_tag

# What a head is of, and the form of its name.
NAMES = {b"table": lambda name: MESSAGE_NAME.fullmatch(name), b"segment": is_tag,
         b"composite": lambda name: COMPOSITE.fullmatch(name), b"codes": lambda name: ELEMENT.fullmatch(name)}
# The head that a detail is under.
TOPICS = {b"node": b"table", b"item": b"segment", b"part": b"composite", b"keep": b"codes"}
NUMBER = re.compile(rb"[0-9]{1,19}")
VALUE_LIMIT = 35


class Detail(NamedTuple):
    """A line under a head. The key is the number of a node, an item or a part, or a value; drop has no status."""
    word: bytes
    key: object
    mandatory: bool = False
    most: int = 1
    drops: bool = False


def number_in(cell):
    return int(cell) if NUMBER.fullmatch(cell) else None


def detail_in(cells):
    """The detail that cells are, or None."""
    word, *rest = cells
    if word == b"keep":
        return Detail(word, rest[0]) if len(rest) == 1 and len(rest[0]) <= VALUE_LIMIT else None
    if word not in TOPICS or not rest or number_in(rest[0]) is None:
        return None
    key = number_in(rest[0])
    if word == b"node" and rest[1:] == [b"drop"]:
        return Detail(word, key, drops=True)
    if len(rest) != (2 if word == b"part" else 3) or rest[1] not in STATUSES:
        return None
    most = 1 if word == b"part" else number_in(rest[2])
    return None if most is None else Detail(word, key, rest[1] == b"M", most)


class Guide:
    """The sections of a guide for a directory: a list of details for each topic and name."""

    def __init__(self, directory, octets):
        self.directory = directory
        self.sections = {}
        last = None
        for line in lines_of(octets):
            cells = [cell for cell in line.octets.split(b" ") if cell]
            if not cells:
                continue
            if len(cells) == 2 and cells[0] in NAMES and NAMES[cells[0]](cells[1]):
                last = (cells[0], cells[1])
                self.judge_head(line.number, last)
                self.sections[last] = []
                continue
            detail = detail_in(cells)
            if detail is None or last is None or TOPICS[detail.word] != last[0]:
                raise Fault(line.number, "bad-line")
            self.judge_detail(line.number, last, detail)
            self.sections[last].append(detail)

    def parts_of(self, topic):
        """What a head of a topic may name."""
        return {b"table": self.directory.messages, b"segment": self.directory.segments,
                b"composite": self.directory.composites, b"codes": self.directory.elements}[topic]

    def judge_head(self, number, head):
        if head[1] not in self.parts_of(head[0]):
            raise Fault(number, "unknown-name")
        if head in self.sections:
            raise Fault(number, "twice")

    def judge_detail(self, number, head, detail):
        if any(detail.key == other.key for other in self.sections[head]):
            raise Fault(number, "twice")
        if detail.word == b"keep":
            if head[1] in self.directory.lists and detail.key not in self.directory.lists[head[1]]:
                raise Fault(number, "not-narrower")
            return
        members = self.parts_of(head[0])[head[1]]
        # Nodes are numbered from 0, items and parts from 1.
        place = detail.key if detail.word == b"node" else detail.key - 1
        if not 0 <= place < len(members):
            raise Fault(number, "bad-index")
        if not is_narrower(detail, members[place]):
            raise Fault(number, "not-narrower")

    def details_for(self, topic, name):
        return {detail.key: detail for detail in self.sections.get((topic, name), [])}

    def narrowed(self):
        """The directory, as the guide has it."""
        known = self.directory
        lists = [(code, [detail.key for detail in self.sections[(b"codes", code)]] if (b"codes", code) in self.sections
                  else known.lists[code]) for code in known.elements
                 if code in known.lists or (b"codes", code) in self.sections]
        composites = [(code, members_with(parts, self.details_for(b"composite", code)))
                      for code, parts in known.composites.items()]
        segments = [(tag, members_with(items, self.details_for(b"segment", tag)))
                    for tag, items in known.segments.items()]
        messages = [(name, rows_with(rows, self.details_for(b"table", name))) for name, rows in known.messages.items()]
        return Directory(known.labels, known.elements.items(), lists, composites, segments, messages)


def greatest_of(member):
    """How often a node or an item may be there at most; a part has no such number."""
    return getattr(member, "greatest", getattr(member, "repetitions", 1))


def is_narrower(detail, member):
    """Whether only an optional node is dropped, or what is mandatory stays so, with a count from 1 to what it was."""
    if detail.drops:
        return not member.mandatory
    return (detail.mandatory or not member.mandatory) and 1 <= detail.most <= greatest_of(member)


def members_with(members, details):
    """Parts or items with the statuses and numbers that a guide gives them."""
    found = list(members)
    for number, detail in details.items():
        member = found[number - 1]._replace(mandatory=detail.mandatory)
        found[number - 1] = member._replace(repetitions=detail.most) if detail.word == b"item" else member
    return found


def end_of(rows, node):
    """The first row after a node that isn't in it."""
    return next((later for later in range(node + 1, len(rows)) if rows[later].depth <= rows[node].depth), len(rows))


def rows_with(rows, details):
    """The rows that are left: without those that are dropped, for themselves or with a group round them."""
    dropped = {row for node, detail in details.items() if detail.drops for row in range(node, end_of(rows, node))}
    kept = [row._replace(mandatory=details[node].mandatory, greatest=details[node].most)
            if node in details and not details[node].drops else row for node, row in enumerate(rows)]
    return [row for node, row in enumerate(kept) if node not in dropped]


def narrow(directory, octets):
    """The directory that a guide narrows, or its first fault."""
    return Guide(directory, octets).narrowed()
