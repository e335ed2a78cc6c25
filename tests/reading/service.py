"""The segments that every directory has: the service segments, and the table of the message CONTRL."""
from typing import NamedTuple


class Part(NamedTuple):
    """A component of a composite."""
    code: bytes
    mandatory: bool
    representation: bytes


class Item(NamedTuple):
    """An element of a segment. It stands alone if it has a representation, and else is a composite.

    The greatest number of its repetitions is 1 in every service segment.
    """
    code: bytes
    mandatory: bool
    representation: bytes
    repetitions: int = 1


class Row(NamedTuple):
    """A line of a segment table. A group has no tag. The depth is the number of groups round the line."""
    tag: bytes
    mandatory: bool
    greatest: int
    depth: int


COMPOSITES = """
S001 0001 a4 M, 0002 n1 M
S002 0004 an..35 M, 0007 an..4 C, 0008 an..14 C
S003 0010 an..35 M, 0007 an..4 C, 0014 an..14 C
S004 0017 n6 M, 0019 n4 M
S005 0022 an..14 M, 0025 an2 C
S006 0040 an..35 M, 0007 an..4 C
S007 0044 an..35 M, 0007 an..4 C
S008 0052 an..3 M, 0054 an..3 M, 0057 an..6 C
S009 0065 an..6 M, 0052 an..3 M, 0054 an..3 M, 0051 an..2 M, 0057 an..6 C
S010 0070 n..2 M, 0073 a1 C
S011 0098 n..3 M, 0104 n..3 C
"""

SEGMENTS = """
UNB S001 M, S002 M, S003 M, S004 M, 0020 an..14 M, S005 C, 0026 an..14 C, 0029 a1 C, 0031 n1 C, 0032 an..35 C, 0035 n1 C
UNG 0038 an..6 M, S006 M, S007 M, S004 M, 0048 an..14 M, 0051 an..2 M, S008 M, 0058 an..14 C
UNH 0062 an..14 M, S009 M, 0068 an..35 C, S010 C
UNT 0074 n..6 M, 0062 an..14 M
UNE 0060 n..6 M, 0048 an..14 M
UNZ 0036 n..6 M, 0020 an..14 M
UNS 0081 a1 M
UCI 0020 an..14 M, S002 M, S003 M, 0083 an..3 M, 0085 an..3 C, 0013 an3 C, S011 C
UCF 0048 an..14 M, S006 M, S007 M, 0083 an..3 M, 0085 an..3 C, 0013 an3 C, S011 C
UCM 0062 an..14 M, S009 M, 0083 an..3 M, 0085 an..3 C, 0013 an3 C, S011 C
UCS 0096 n..6 M, 0085 an..3 C
UCD 0085 an..3 M, S011 M
"""

CONTRL = """
0 UNH M 1
0 UCI M 1
0 - C 999999
1 UCM M 1
1 - C 999
2 UCS M 1
2 UCD C 99
0 - C 999999
1 UCF M 1
1 - C 999999
2 UCM M 1
2 - C 999
3 UCS M 1
3 UCD C 99
0 UNT M 1
"""


def definitions_in(table, kind):
    """The lists that a table above writes down, by their names."""
    found = {}
    for line in table.encode("ascii").split(b"\n"):
        if line:
            name, members = line.split(b" ", 1)
            words = [member.split(b" ") for member in members.split(b", ")]
            found[name] = [kind(word[0], word[-1] == b"M", word[1] if len(word) == 3 else b"") for word in words]
    return found


def rows_in(table):
    """The rows of a segment table that is written as lines of depth, tag, status and greatest count."""
    rows = []
    for line in table.encode("ascii").split(b"\n"):
        if line:
            depth, tag, status, greatest = line.split(b" ")
            rows.append(Row(None if tag == b"-" else tag, status == b"M", int(greatest), int(depth)))
    return rows


# In version 4 a date has eight digits.
DATE_OF_VERSION_4 = """
S004 0017 n8 M, 0019 n4 M
"""

SERVICE_COMPOSITES = definitions_in(COMPOSITES, Part)
COMPOSITES_OF_VERSION_4 = {**SERVICE_COMPOSITES, **definitions_in(DATE_OF_VERSION_4, Part)}
SERVICE_SEGMENTS = definitions_in(SEGMENTS, Item)
CONTRL_ROWS = rows_in(CONTRL)
CONTRL_NAME = (b"CONTRL", b"D", b"3", b"UN")


def composites_of(version):
    """The composites of the service segments by a version of the syntax."""
    return COMPOSITES_OF_VERSION_4 if version == b"4" else SERVICE_COMPOSITES
