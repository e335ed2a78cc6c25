"""Prints an interchange of one message type, of almost 4 MiB, made by a walk through its segment table. It has no error.
usage: walk.py STORE MESSAGE   (STORE is a directory as `edicheck compile` prints it)

Mandatory nodes are there, and some of the others, up to their greatest counts; so are elements and components. A coded
value is one of its list. The walk is drawn from a fixed number, so it is the same each time.
"""
import random
import sys
from typing import NamedTuple

LIMIT = 4194304
OPENING = b"UNB+UNOC:3+BUYER:14+SELLER:14+960105:0930+R1'"
LETTERS = "ABCDEFGHIJKLMNOPQRSTUVWXYZ"
DIGITS = "0123456789"
LONGEST_VALUE = 12
# How often what is conditional is there, and what may be repeated is there once more.
NODE_SHARE, ITEM_SHARE, REPEAT_SHARE = 0.3, 0.4, 0.3


class Row(NamedTuple):
    depth: int
    tag: str
    mandatory: bool
    greatest: int


class Store:
    """The definitions of a store."""

    def __init__(self, lines):
        assert next(lines) == "EDIDIR2"
        self.labels = next(lines).split(" ")
        self.elements = dict(line.split(" ") for line in self.part(lines))
        self.lists = dict(self.entries(lines, lambda line: line))
        self.composites = dict(self.entries(lines, self.used))
        self.segments = dict(self.entries(lines, self.used))
        self.tables = dict(self.entries(lines, self.row))
        self.segments["UNS"] = []

    @staticmethod
    def part(lines):
        """The lines of a part of the store, after its first, which has their number."""
        return (next(lines) for _ in range(int(next(lines).split(" ")[1])))

    def entries(self, lines, read):
        """The entries of a part, each with what its lines give."""
        for head in self.part(lines):
            name, count = head.split(" ")
            yield name, [read(next(lines)) for _ in range(int(count))]

    @staticmethod
    def used(line):
        """A part or an item; the number of repetitions of an item is left out, since no item is repeated."""
        code, status = line.split(" ")[:2]
        return code, status == "M"

    @staticmethod
    def row(line):
        depth, tag, status, greatest = line.split(" ")
        return Row(int(depth), tag, status == "M", int(greatest))

    def shape(self, code):
        """The class of an element, and its least and greatest length."""
        representation = self.elements[code]
        kind = representation.rstrip(DIGITS + ".")
        length = int(representation.lstrip("an."))
        return kind, 1 if ".." in representation else length, length


class Walk:
    def __init__(self, store, drawn):
        self.store = store
        self.drawn = drawn
        self.codes = {element: [code for code in codes if self.fits(element, code)]
                      for element, codes in store.lists.items()}

    def fits(self, element, code):
        """Whether a code of a list is a value of its element too."""
        kind, least, greatest = self.store.shape(element)
        admitted = {"a": not any(c in DIGITS for c in code), "n": code.isdigit(), "an": True}
        return admitted[kind] and least <= len(code) <= greatest and all(32 <= ord(c) < 127 for c in code)

    def value(self, element):
        """A value of an element, as it is written; empty where it has a list of which no code fits."""
        if element in self.codes:
            return self.released(self.drawn.choice(self.codes[element])) if self.codes[element] else ""
        kind, least, greatest = self.store.shape(element)
        signs = {"a": LETTERS, "n": DIGITS, "an": LETTERS + DIGITS}[kind]
        length = self.drawn.randint(least, max(least, min(greatest, LONGEST_VALUE)))
        return "".join(self.drawn.choices(signs, k=length))

    @staticmethod
    def released(value):
        return "".join("?" + c if c in "'+:?" else c for c in value)

    def composite(self, code):
        """The components of a composite: the mandatory ones, some others, and at least one."""
        parts = self.store.composites[code]
        some = [self.value(part) if mandatory or self.drawn.random() < ITEM_SHARE else "" for part, mandatory in parts]
        if not any(some):
            some[0] = self.value(parts[0][0])
        return ":".join(some).rstrip(":")

    def segment(self, tag):
        items = []
        for code, mandatory in self.store.segments[tag]:
            there = mandatory or self.drawn.random() < ITEM_SHARE
            items.append("" if not there else self.composite(code) if code in self.store.composites else self.value(code))
        return (tag + "+" + "+".join(items)).rstrip("+")

    def times(self, row):
        """How often a node is there."""
        if not row.mandatory and self.drawn.random() >= NODE_SHARE:
            return 0
        count = 1
        while count < row.greatest and self.drawn.random() < REPEAT_SHARE:
            count += 1
        return count

    def nodes(self, rows, first, depth):
        """The segments of the nodes of one level from a row on, each with those below it."""
        at = first
        while at < len(rows) and rows[at].depth >= depth:
            row = rows[at]
            if row.depth == depth:
                for _ in range(self.times(row)):
                    if row.tag == "-":
                        yield from self.nodes(rows, at + 1, depth + 1)
                    else:
                        yield "UNS+S" if row.tag == "UNS" else self.segment(row.tag)
            at += 1

    def message(self, name, number):
        """A message, from its UNH to its UNT."""
        body = list(self.nodes(self.store.tables[name][1:-1], 0, 0))
        opening = "UNH+%d+%s" % (number, ":".join([name] + self.store.labels))
        closing = "UNT+%d+%d" % (len(body) + 2, number)
        return "'".join([opening] + body + [closing, ""]).encode("ascii")


def interchange(walk, name):
    parts, size, number = [OPENING], len(OPENING), 0
    while True:
        message = walk.message(name, number + 1)
        if size + len(message) > LIMIT - 40:
            return b"".join(parts) + b"UNZ+%d+R1'" % number
        number += 1
        parts.append(message)
        size += len(message)


def main(path, name):
    with open(path, encoding="latin-1", newline="\n") as file:
        store = Store(line.rstrip("\n") for line in file)
    sys.stdout.buffer.write(interchange(Walk(store, random.Random(1996)), name))


main(*sys.argv[1:])
