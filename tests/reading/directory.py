"""Directories: the files that they are made of, what these stand for together, and their printed tables."""
import re

from . import service, tables
from .files import LABELS, Fault, codes_in, composites_in, elements_in, lines_of, message_in, segments_in
from .store import StoreFault, is_store, read_store
from .text import TEXT_LIMIT

FILE_LIMIT = 400
FILE_NAME = re.compile(rb"[A-Za-z0-9_-][A-Za-z0-9._-]*(/[A-Za-z0-9_-][A-Za-z0-9._-]*)*")
KINDS_OF_FILES = [b"elements", b"codes", b"composites", b"segments", b"message"]


class Refusal(Exception):
    """Why a directory or a text isn't there: a status and the line that tells it."""

    def __init__(self, status, line):
        super().__init__(line)
        self.status = status
        self.line = line


def is_name(word):
    return len(word) <= 128 and FILE_NAME.fullmatch(word) is not None


class Directory:
    """The definitions of a directory, each part in ascending order of its names."""

    def __init__(self, labels, elements, lists, composites, segments, messages):
        self.labels = labels
        self.elements = dict(sorted(elements))
        self.lists = {code: sorted(codes) for code, codes in sorted(lists)}
        self.composites = dict(sorted(composites))
        self.segments = dict(sorted(segments))
        self.messages = {name: tuple(rows) for name, rows in sorted(messages)}
        self.tables = {(name,) + labels: rows for name, rows in self.messages.items()}
        self.tables[service.CONTRL_NAME] = tuple(service.CONTRL_ROWS)


def refuse(kind, name):
    raise Refusal(3, b"fault compile %s %s" % (kind.encode("ascii"), name))


def first_double(names):
    """The first name that stands before already, or None."""
    return next((name for place, name in enumerate(names) if name in names[:place]), None)


def directory_of(labels, elements, lists, composites, segments, messages):
    """A directory, if its parts fit together. Each part is a list of names with what they stand for."""
    by_name = [[name for name, _content in part] for part in (elements, lists, composites, segments, messages)]
    for names in by_name[:2] + [codes for _code, codes in lists] + by_name[2:]:
        double = first_double(names)
        if double is not None:
            refuse("twice", double)
    known = dict(elements)
    for code, _codes in lists:
        if code not in known:
            refuse("unknown-element", code)
    for _code, members in composites:
        for part in members:
            judge_element(known, part)
    composite_codes = [code for code, _members in composites]
    for tag, items in segments:
        judge_segment(known, composite_codes, tag, items)
    tags = [tag for tag, _items in segments]
    for name, rows in messages:
        judge_message(tags, name, rows)
    return Directory(labels, elements, lists, composites, segments, messages)


def judge_element(known, member):
    """An element has to be known, with the representation that it has there."""
    if member.code not in known:
        refuse("unknown-element", member.code)
    if known[member.code] != member.representation:
        refuse("repr-differs", member.code)


def judge_segment(known, composite_codes, tag, items):
    if tag in service.SERVICE_SEGMENTS:
        refuse("reserved", tag)
    for item in items:
        if item.representation:
            judge_element(known, item)
        elif item.code not in composite_codes:
            refuse("unknown-composite", item.code)


def judge_message(tags, name, rows):
    if name == b"CONTRL":
        refuse("reserved", name)
    for row in rows:
        if row.tag is not None and row.tag not in tags and row.tag not in service.SERVICE_SEGMENTS:
            refuse("unknown-segment", row.tag)


def read_manifest(octets):
    """The labels, and the kinds and names of the files, of a manifest of lines."""
    labels, files, last = None, [], 0
    for line in lines_of(octets):
        if not line.octets.strip(b" "):
            continue
        words = line.octets.split(b" ")
        if labels is None:
            if words[0] != b"directory" or LABELS.fullmatch(b" ".join(words[1:])) is None:
                raise Fault(line.number, "bad-line")
            labels = tuple(words[1:])
            continue
        in_form = len(words) == 2 and words[0] in KINDS_OF_FILES[last:] and is_name(words[1])
        if not in_form:
            raise Fault(line.number, "bad-line")
        last = KINDS_OF_FILES.index(words[0])
        if len(files) == FILE_LIMIT:
            raise Fault(line.number, "too-many")
        files.append((words[0], words[1]))
    if labels is None:
        raise Fault(0, "bad-line")
    return labels, files


def open_file(shelf, name):
    """The octets of a file. The shelf answers None for a file that isn't there, and may raise OSError."""
    try:
        octets = shelf(name)
    except OSError:
        raise Refusal(4, b"fault read") from None
    if octets is None:
        raise Refusal(9, b"fault absent " + name)
    if len(octets) > TEXT_LIMIT:
        raise Refusal(7, b"fault large " + name)
    return octets


def judged(name, reader, *inputs):
    """What a file stands for, or the refusal that its first fault is."""
    try:
        return reader(*inputs)
    except Fault as fault:
        raise Refusal(3, b"fault directory %s %d %s" % (name, fault.line, fault.kind.encode("ascii"))) from None


def load(shelf, name):
    """The directory that a manifest stands for."""
    manifest = open_file(shelf, name)
    if is_store(manifest):
        return load_store(name, manifest)
    labels, files = judged(name, read_manifest, manifest)
    readers = {b"elements": elements_in, b"codes": codes_in, b"composites": composites_in}
    parts = {kind: [] for kind in KINDS_OF_FILES}
    for kind, file_name in files:
        octets = open_file(shelf, file_name)
        if kind == b"segments":
            parts[kind] += judged(file_name, segments_in, octets, parts[b"composites"])
        elif kind == b"message":
            parts[kind].append(judged(file_name, message_in, octets))
        else:
            parts[kind] += judged(file_name, readers[kind], octets)
    return directory_of(labels, *[parts[kind] for kind in KINDS_OF_FILES])


def load_store(name, octets):
    """The directory that a store stands for."""
    try:
        return read_store(octets)
    except StoreFault as fault:
        raise Refusal(3, b"fault store %s %d" % (name, fault.place)) from None


def print_tables(directory):
    """What the command tables prints."""
    lines = [b"directory " + b" ".join(directory.labels)]
    for name, rows in directory.messages.items():
        lines.append(b"table %s %d" % (name, len(rows)))
        for node, row in enumerate(rows):
            lines.append(b"%d %d %s %s %d" % (node, row.depth, row.tag or b"group", b"M" if row.mandatory else b"C",
                                              row.greatest))
        collisions = tables.collisions_of(rows)
        lines.append(b"collisions %d" % len(collisions))
        for tags, first, second in collisions:
            ways = [b" ".join(b"%d" % node for node in way) for way in (first, second)]
            lines.append(b" | ".join([b" ".join(tags)] + ways))
    return b"".join(line + b"\n" for line in lines)
