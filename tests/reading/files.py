"""The files of a directory: elements, codes, composites, segments and messages.

A file is judged line by line, and the first fault is raised.
"""
import re
from typing import NamedTuple

from .service import Item, Part, Row
from .text import is_tag

MARKS = re.compile(rb"[+*#|X]{1,3}(?= |\Z)")
SEPARATOR = re.compile(rb"-{10,}")
ELEMENT = re.compile(rb"[0-9]{4}")
COMPOSITE = re.compile(rb"C[0-9]{3}")
REPRESENTATION = re.compile(rb"(a|n|an)(\.\.)?[1-9][0-9]{0,3}")
POSITION = re.compile(rb"[0-9]{3}")
REPETITIONS = re.compile(rb"[1-9][0-9]?")
TABLE_POSITION = re.compile(rb"[0-9]{4}")
MESSAGE_NAME = re.compile(rb"[A-Z][A-Z0-9]{5}")
LABELS = re.compile(rb"[A-Z0-9]{1,3} [A-Z0-9]{1,3} [A-Z0-9]{1,2}")
STATUSES = (b"M", b"C")
MEMBER_LIMIT = 99
ROW_LIMIT = 2000
GREATEST_LIMIT = 999999
DEPTH_LIMIT = 16


class Fault(Exception):
    """What is wrong in a file, and at which line."""

    def __init__(self, line, kind):
        super().__init__(line, kind)
        self.line = line
        self.kind = kind


class Line(NamedTuple):
    number: int
    octets: bytes


def lines_of(octets):
    """The lines of a file. One CR before a line's end is dropped; what has no end is a line if it isn't empty."""
    *ended, rest = octets.split(b"\n")
    whole = [line[:-1] if line.endswith(b"\r") else line for line in ended] + ([rest] if rest else [])
    return [Line(number, line) for number, line in enumerate(whole, 1)]


def without_marks(line):
    """A line with up to three marks at its beginning read as spaces."""
    return MARKS.sub(lambda found: b" " * len(found.group()), line, count=1) if MARKS.match(line) else line


def fields_of(line):
    return [field for field in without_marks(line).split(b" ") if field]


def indentation_of(line):
    spaced = without_marks(line)
    return len(spaced) - len(spaced.lstrip(b" "))


def without_mark_after_position(fields):
    """A field of a single mark directly after a position is skipped."""
    return fields[:1] + fields[2:] if len(fields) > 1 and fields[1] in (b"+", b"*", b"#", b"|", b"X") else fields


def is_separator(line):
    fields = fields_of(line)
    return len(fields) == 1 and SEPARATOR.fullmatch(fields[0]) is not None


def entries_of(octets):
    """The written lines of each entry. What is before the first separator is in none."""
    entries = [[]]
    for line in lines_of(octets):
        if is_separator(line.octets):
            entries.append([])
        elif fields_of(line.octets):
            entries[-1].append(line)
    return [entry for entry in entries[1:] if entry]


def judge_head(line, is_code, before):
    """The code of an entry, which has a name after it and no earlier entry has."""
    fields = fields_of(line.octets)
    if len(fields) < 2 or not is_code(fields[0]):
        raise Fault(line.number, "bad-code")
    if fields[0] in before:
        raise Fault(line.number, "twice")
    return fields[0]


def is_element_code(field):
    return ELEMENT.fullmatch(field) is not None


def is_composite_code(field):
    return COMPOSITE.fullmatch(field) is not None


def entries_by_code(octets, is_code, content_of):
    """The codes of a file's entries, each with what its lines stand for."""
    found = []
    for head, *lines in entries_of(octets):
        code = judge_head(head, is_code, [code for code, _content in found])
        found.append((code, content_of(head, lines)))
    return found


def elements_in(octets):
    """The representations in an element file, by codes."""
    return entries_by_code(octets, is_element_code, representation_in)


def representation_in(head, lines):
    found = None
    for line in lines:
        fields = fields_of(line.octets)
        if fields[0] == b"Repr:":
            if found is not None:
                raise Fault(line.number, "bad-line")
            if len(fields) != 2 or not REPRESENTATION.fullmatch(fields[1]):
                raise Fault(line.number, "bad-repr")
            found = fields[1]
    if found is None:
        raise Fault(head.number, "no-repr")
    return found


def codes_in(octets):
    """The lists of values in a code file, by codes of elements."""
    return entries_by_code(octets, is_element_code, values_in)


def values_in(_head, lines):
    found = []
    for line in lines:
        fields, indentation = fields_of(line.octets), indentation_of(line.octets)
        if fields[0] in (b"Desc:", b"Repr:", b"Note:") or indentation >= 10:
            continue
        if not 1 <= indentation <= 7 or len(fields[0]) > 35 or len(fields) < 2:
            raise Fault(line.number, "bad-line")
        if fields[0] in found:
            raise Fault(line.number, "twice")
        found.append(fields[0])
    return found


def composites_in(octets):
    """The parts in a composite file, by codes."""
    return entries_by_code(octets, is_composite_code, parts_in)


def parts_in(head, lines):
    found, last = [], -1
    for line in lines:
        if indentation_of(line.octets) <= 4:
            fields = without_mark_after_position(fields_of(line.octets))
            last, member = judge_member(line, fields, last, with_composites=False)
            found.append(Part(*member))
    judge_number(head, found)
    return found


def judge_number(head, members):
    if not 1 <= len(members) <= MEMBER_LIMIT:
        raise Fault(head.number, "bad-line")


def judge_member(line, fields, last, with_composites):
    """The position of a part or an item; and its code, whether it is mandatory, and its representation."""
    code = fields[1] if len(fields) > 1 else b""
    alone = is_element_code(code)
    in_composite = with_composites and is_composite_code(code)
    if not POSITION.fullmatch(fields[0]) or not (alone or in_composite) or len(fields) < (5 if alone else 4):
        raise Fault(line.number, "bad-line")
    if int(fields[0]) <= last:
        raise Fault(line.number, "bad-position")
    status = fields[-2] if alone else fields[-1]
    if status not in STATUSES:
        raise Fault(line.number, "bad-status")
    if alone and not REPRESENTATION.fullmatch(fields[-1]):
        raise Fault(line.number, "bad-repr")
    return int(fields[0]), (code, status == b"M", fields[-1] if alone else b"")


def segments_in(octets, composites):
    """The items in a segment file, by tags. The composites are those of the files before it."""
    def items_of(head, lines):
        return items_in(head, lines, composites)
    return entries_by_code(octets, is_tag, items_of)


def repetitions_taken(fields):
    """An item's fields without its greatest number of repetitions, and that number, which is 1 if it isn't written.

    It is the last field of a composite, if that has five fields or more, and the one before the last of an element,
    if that has six or more. The position is counted; a mark that is skipped isn't.
    """
    code = fields[1] if len(fields) > 1 else b""
    if is_composite_code(code) and len(fields) >= 5 and REPETITIONS.fullmatch(fields[-1]):
        return fields[:-1], int(fields[-1])
    if is_element_code(code) and len(fields) >= 6 and REPETITIONS.fullmatch(fields[-2]):
        return fields[:-2] + fields[-1:], int(fields[-2])
    return fields, 1


def items_in(head, lines, composites):
    found, last, item_line, parts = [], -1, None, []
    for line in lines:
        fields = fields_of(line.octets)
        if indentation_of(line.octets) <= 4:
            judge_parts(item_line, found, parts, composites)
            fields, repetitions = repetitions_taken(without_mark_after_position(fields))
            last, member = judge_member(line, fields, last, with_composites=True)
            found.append(Item(*member, repetitions))
            item_line, parts = line, []
        elif found and is_element_code(fields[0]):
            parts.append(judge_part_line(line, fields, found[-1]))
    judge_parts(item_line, found, parts, composites)
    judge_number(head, found)
    return found


def judge_part_line(line, fields, item):
    """A line below a composite that tells one of its parts again."""
    in_form = len(fields) >= 4 and fields[-2] in STATUSES and REPRESENTATION.fullmatch(fields[-1]) is not None
    if not in_form or item.representation:
        raise Fault(line.number, "bad-line")
    return Part(fields[0], fields[-2] == b"M", fields[-1])


def judge_parts(item_line, items, parts, composites):
    """Where the parts of a known composite are told again, they are exactly its parts."""
    known = [members for code, members in composites if items and code == items[-1].code]
    if parts and known and parts != known[0]:
        raise Fault(item_line.number, "parts-differ")


def type_name_in(line):
    """The name in a type line, or None."""
    fields = fields_of(line.octets)
    in_form = len(fields) == 4 and fields[:3] == [b"Message", b"Type", b":"] and MESSAGE_NAME.fullmatch(fields[3])
    return fields[3] if in_form else None


def message_in(octets):
    """The name and the rows of a message file."""
    lines = lines_of(octets)
    type_line = next((line for line in lines if type_name_in(line)), None)
    if type_line is None:
        raise Fault(len(lines), "no-type")
    rows, row_lines, drawing = [], [], Drawing()
    for line in lines[type_line.number:]:
        fields = fields_of(line.octets)
        if type_name_in(line):
            raise Fault(line.number, "bad-line")
        if fields and indentation_of(line.octets) <= 4 and TABLE_POSITION.fullmatch(fields[0]):
            rows.append(drawing.row_of(line, fields))
            row_lines.append(line.number)
    if drawing.open:
        raise Fault(row_lines[-1], "not-closed")
    judged = table_fault(rows)
    if judged is not None:
        place, kind = judged
        raise Fault(row_lines[place] if place < len(rows) else type_line.number, kind)
    return type_name_in(type_line), rows


class Drawing:
    """How far a drawn table is read: the last position, the groups so far, and how many are open."""

    def __init__(self):
        self.last = -1
        self.groups = 0
        self.open = 0

    def row_of(self, line, fields):
        """The row that a table line stands for."""
        status, greatest, tail = status_and_rest(line)
        if int(fields[0]) <= self.last:
            raise Fault(line.number, "bad-position")
        self.last = int(fields[0])
        places = [place for place, field in enumerate(fields) if field in STATUSES]
        middle = without_mark_after_position(fields[:places[-1]])[1:]
        number = group_number_in(middle)
        depth = self.open
        if number is not None:
            if tail.count(b"+") != 1 or number != b"%d" % (self.groups + 1):
                raise Fault(line.number, "bad-group")
            self.groups += 1
            self.open += 1
            return Row(None, status == b"M", greatest, depth)
        if len(middle) < 2 or not is_tag(middle[0]):
            raise Fault(line.number, "bad-line")
        if tail.count(b"+") > self.open:
            raise Fault(line.number, "close-without-open")
        self.open -= tail.count(b"+")
        return Row(middle[0], status == b"M", greatest, depth)


def status_and_rest(line):
    """The status of a table line, the greatest count after it, and the drawing after that."""
    found = re.fullmatch(rb"(.* )?([MC]) +([0-9]{1,6})([ |+-]*)", without_marks(line.octets), re.DOTALL)
    if found is None:
        raise Fault(line.number, "bad-line")
    return found.group(2), int(found.group(3)), found.group(4)


def group_number_in(middle):
    """The number of a group line, given what is between position and status, or None if it is no group line."""
    if (len(middle) >= 4 and re.fullmatch(rb"--+", middle[0]) and middle[1].lower() == b"segment"
            and middle[2].lower() == b"group" and re.fullmatch(rb"0|[1-9][0-9]*", middle[3])
            and all(re.fullmatch(rb"-+", field) for field in middle[4:])):
        return middle[3]
    return None


def table_fault(rows):
    """The first row that breaks a rule of segment tables, and the rule's word, or None."""
    if len(rows) > ROW_LIMIT:
        return ROW_LIMIT, "too-many"
    if len(rows) < 2:
        return 0, "no-unh-unt"
    for place in range(len(rows)):
        kind = row_fault(rows, place)
        if kind is not None:
            return place, kind
    return None


def row_fault(rows, place):
    row, is_first, is_last = rows[place], place == 0, place == len(rows) - 1
    if (is_first and row != Row(b"UNH", True, 1, 0)) or (is_last and row != Row(b"UNT", True, 1, 0)):
        return "no-unh-unt"
    if row.tag in (b"UNB", b"UNG", b"UNE", b"UNZ") or (row.tag == b"UNH" and not is_first) \
            or (row.tag == b"UNT" and not is_last):
        return "envelope-tag"
    if not 1 <= row.greatest <= GREATEST_LIMIT:
        return "bad-max"
    if not is_first and row.depth > rows[place - 1].depth + (1 if rows[place - 1].tag is None else 0):
        return "bad-depth"
    if row.depth > DEPTH_LIMIT:
        return "too-deep"
    if row.tag is None:
        after = rows[place + 1]
        if after.tag is None or not after.mandatory or after.greatest != 1 or after.depth != row.depth + 1:
            return "no-trigger"
    return None
