"""The drill: an interchange and edits that are made from three numbers, and their figures."""
import re

from .directory import Directory
from .interchange import Reading
from .service import Item, Part, Row

ELEMENTS = """1000 an..35 1001 an..3 1004 an..35 1082 n..6 1131 an..3 1153 an..3 1154 an..35 1225 an..3 1229 an..3
2005 an..3 2379 an..3 2380 an..35 3035 an..3 3039 an..17 3055 an..3 3139 an..3 3412 an..35 3413 an..17
5025 an..3 5118 n..15 5125 an..3 6060 n..15 6063 an..3 6411 an..3 7140 an..35 7143 an..3 5004 n..18"""
LISTS = {b"1001": [b"220", b"231"], b"2005": [b"2", b"137"]}
COMPOSITES = """C002 C 1001 C 1131 C 1000
C056 C 3413 C 3412
C082 M 3039 C 1131 C 3055
C186 M 6063 M 6060 C 6411
C212 C 7140 C 7143
C506 M 1153 C 1154
C507 M 2005 C 2380 C 2379
C509 M 5125 C 5118
C516 M 5025 C 5004"""
SEGMENTS = """BGM C C002 C 1004 C 1225
CTA C 3139 C C056
DTM M C507
LIN C 1082 C 1229 C C212
MOA M C516
NAD M 3035 C C082
PRI C C509
QTY M C186
RFF M C506"""
TABLE = """0 UNH M 1
0 BGM M 1
0 DTM M 2
0 - C 2
1 NAD M 1
1 CTA C 1
0 - C 3
1 LIN M 1
1 QTY C 1
1 - C 2
2 PRI M 1
2 DTM C 1
0 UNS M 1
0 MOA C 1
0 UNT M 1"""
UNB = b"UNB+UNOA:3+BUYER:14+SELLER:14+960105:0930+R1'"


def are_numbers(words):
    """Three numbers of at most 19 digits, perhaps with leading zeros, each in its bounds."""
    bounds = ((1, 1000), (0, 1000), (0, 999999999))
    return all(re.fullmatch(rb"[0-9]{1,19}", word) and least <= int(word) <= greatest
               for word, (least, greatest) in zip(words, bounds))


def words_of(table):
    return [line.split(b" ") for line in table.encode("ascii").split(b"\n")]


def directory():
    """The directory of the drill, which is that of the example with one message."""
    pairs = ELEMENTS.encode("ascii").split()
    elements = dict(zip(pairs[::2], pairs[1::2]))

    def members(words, kind):
        return [kind(code, status == b"M", elements.get(code, b"")) for status, code in zip(words[1::2], words[2::2])]

    composites = {words[0]: members(words, Part) for words in words_of(COMPOSITES)}
    segments = {words[0]: members(words, Item) for words in words_of(SEGMENTS)}
    rows = [Row(None if tag == b"-" else tag, status == b"M", int(greatest), int(depth))
            for depth, tag, status, greatest in words_of(TABLE)]
    return Directory((b"D", b"96A", b"UN"), elements.items(), LISTS.items(), composites.items(), segments.items(),
                     [(b"TSTORD", rows)])


def interchange(n, x):
    """The interchange of n messages."""
    text = UNB
    for i in range(n):
        r, lines = i + 1, 1 + (i + x) % 3
        text += b"UNH+%d+TSTORD:D:96A:UN'BGM+220+PO%d+9'DTM+137:19960105:102'" % (r, r)
        text += b"".join(b"LIN+%d'QTY+21:%d'" % (j, i + j) for j in range(1, lines + 1))
        text += b"UNS+S'UNT+%d+%d'" % (5 + 2 * lines, r)
    return text + b"UNZ+%d+R1'" % n


def edit(j, x, length):
    """Edit j, from 0, of a text of this length: its place, how many octets it cuts, and what it puts."""
    pair = j // 2
    y = x
    for _ in range(pair + 1):
        y = (1103515245 * y + 12345) % 2147483648
    put = b"?" if pair % 2 == 0 else b"QTY+21:5'"
    if j % 2 == 0:
        return y % (length + 1), 0, put
    return y % (length - len(put) + 1), len(put), b""


def figures(reading):
    return b"%d %d %d\n" % (len(reading.text), len(reading.segments), len(reading.errors))


def print_drill(n, k, x):
    """What the command drill prints."""
    by = directory()
    text = interchange(n, x)
    opened = Reading(by, text)
    reading, total = opened, 0
    for j in range(k):
        at, cut, put = edit(j, x, len(text))
        text = text[:at] + put + text[at + cut:]
        reading = Reading(by, text)
        total += len(reading.errors)
    return (b"drill %d %d %d\nopen " % (n, k, x) + figures(opened) + b"edits %d %d\nclose " % (k, total)
            + figures(reading))
