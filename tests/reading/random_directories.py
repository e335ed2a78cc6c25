"""Random directories, made of few names so that tags and codes come again, and the files that they stand in."""
from .elements import representation_of
from .files import table_fault
from .service import Item, Part, Row

CODES = [b"0062", b"0081", b"1131", b"1001", b"1004", b"2005", b"2380", b"3035", b"4440", b"5004", b"6060", b"7143"]
COMPOSITE_CODES = [b"C002", b"C108", b"C507", b"C516"]
TAGS = [b"BGM", b"DTM", b"FTX", b"LIN", b"QTY", b"RFF", b"X1Y"]
NAMES = [b"TSTORD", b"ABCDEF", b"B12345"]
# Words that are put into the lines of files.
ODD_WORDS = [b"M", b"C", b"0", b"1", b"an..3", b"n2", b"1001", b"9999", b"C002", b"BGM", b"UNT", b"UNB", b"+", b"X",
             b"", b"----------", b"Repr:", b"1000000", b"x", b"999", b"005", b"0005", b"C" * 36, b"5", b"99", b"100"]
# Words that are or look like numbers of repetitions.
NUMBERS = [b"1", b"2", b"10", b"99", b"0", b"05", b"100", b"5."]
VALUES = [b"A" * 35, b"1", b"2", b"9", b"137", b"220", b"231", b"A", b"AAA", b"ZZZ", b"EN", b"9X", b"?", b"a", b"A.1"]
TITLES = [b"Name", b"Date/time, coded", b"NAME OF A THING", b"M C x", b"- Segment group 1 -", b"a+b", b"Name 5",
          b"DATE M 99", b"Thing C 100", b"5"]


def representation(rng):
    class_ = rng.choice([b"a", b"n", b"an", b"an", b"n"])
    return class_ + rng.choice([b"", b"..", b".."]) + b"%d" % rng.choice([1, 2, 3, 3, 4, 6, 6, 17, 35])


class Parts:
    """The definitions of a random directory, in the order of its files."""

    def __init__(self, rng):
        self.labels = (rng.choice([b"D", b"D", b"S93"]), rng.choice([b"96A", b"1", b"3"]), rng.choice([b"UN", b"X"]))
        self.elements = {code: representation(rng) for code in sample(rng, CODES, 3)}
        self.lists = {code: sample(rng, VALUES, 0) for code in sample(rng, self.elements, 0)}
        self.composites = {code: [Part(*member) for member in self.members(rng, {})]
                           for code in sample(rng, COMPOSITE_CODES, 1)}
        self.segments = {tag: [Item(*member, repetitions(rng)) for member in self.members(rng, self.composites)]
                         for tag in sample(rng, TAGS, 3)}
        tags = list(self.segments) + [b"UNS"]
        self.messages = {name: table(rng, sample(rng, tags, 2)) for name in sample(rng, NAMES, 1)}

    def members(self, rng, composites):
        """What parts and items have: a code, whether it is mandatory, and a representation."""
        codes = [rng.choice(list(self.elements) + 2 * list(composites)) for _ in range(rng.randint(1, 5))]
        return [(code, rng.random() < 0.4, self.elements.get(code, b"")) for code in codes]


def sample(rng, names, least):
    """Some of these names, in any order."""
    names = list(names)
    return rng.sample(names, rng.randint(least, len(names)))


def repetitions(rng):
    return rng.choice([1, 1, 1, 1, 1, 2, 5, 9, 10, 99])


def greatest(rng):
    return rng.choice([1, 1, 1, 1, 2, 2, 3, 5, 99, 999999])


def table(rng, tags):
    """A segment table with groups in groups."""
    rows = [Row(b"UNH", True, 1, 0)]
    rows += level(rng, tags, 0, rng.choice([2, 4, 6, 9]))
    rows.append(Row(b"UNT", True, 1, 0))
    assert table_fault(rows) is None
    return rows


def level(rng, tags, depth, size):
    """The rows of one level, and of the groups in it."""
    rows = []
    for _ in range(rng.randint(0 if depth else 1, size)):
        if depth < 4 and rng.random() < 0.3:
            rows.append(Row(None, rng.random() < 0.4, greatest(rng), depth))
            rows.append(Row(rng.choice(tags), True, 1, depth + 1))
            rows += level(rng, tags, depth + 1, max(1, size // 2))
        else:
            rows.append(Row(rng.choice(tags), rng.random() < 0.4, greatest(rng), depth))
    return rows


def spoil(rng, parts):
    """Changes one definition, so that others may not fit it any more, or a rule of tables is broken."""
    part = rng.choice([parts.elements, parts.elements, parts.lists, parts.composites, parts.segments, parts.messages])
    if part is parts.lists:
        part[rng.choice(CODES)] = []
    elif part is parts.elements and rng.random() < 0.5:
        part[rng.choice(sorted(part))] = representation(rng)
    elif part is parts.segments and rng.random() < 0.3:
        part[rng.choice([b"UNS", b"UCI", b"UNB"])] = part[rng.choice(sorted(part))]
    elif part is parts.messages and rng.random() < 0.2:
        part[b"CONTRL"] = part[rng.choice(sorted(part))]
    elif part is parts.messages:
        spoil_table(rng, part[rng.choice(sorted(part))])
    elif part:
        del part[rng.choice(sorted(part))]


def spoil_number(rng, segments):
    """Gives an item a number of repetitions that none can have."""
    tag = rng.choice(sorted(segments))
    place = rng.randrange(len(segments[tag]))
    items = list(segments[tag])
    items[place] = items[place]._replace(repetitions=rng.choice([0, 100]))
    segments[tag] = items


def spoil_table(rng, rows):
    """Changes a row of a table, or takes it away."""
    place = rng.randrange(len(rows))
    row = rows.pop(place)
    new = [row._replace(greatest=rng.choice([0, 2])), row._replace(mandatory=not row.mandatory),
           row._replace(tag=rng.choice([b"UNH", b"UNT", b"UNB", b"UNG", b"UNE", b"UNZ", b"UNS", b"ZZZ"]))]
    rows[place:place] = rng.choice([[]] + [[change] for change in new])
    if rng.random() < 0.05:
        rows[1:1] = [Row(None, True, 1, depth) for depth in range(18)] + [Row(b"UNS", True, 1, 18)]


def status(member):
    return b"M" if member.mandatory else b"C"


class Files:
    """Spells definitions as files, with blank lines, marks and texts where the rules allow them.

    A line in so many slips: it may be indented otherwise, or have other words.
    """

    def __init__(self, rng, slips=0.0):
        self.rng = rng
        self.slips = slips
        self.line_end = rng.choice([b"\n", b"\n", b"\r\n"])

    def slip(self, due, *others):
        """What is due, or now and then one of the others."""
        return self.rng.choice(others) if self.rng.random() < self.slips else due

    def marked(self, indentation):
        """Spaces in front of a line, some of which may be written as marks."""
        if indentation >= 2 and self.rng.random() < 0.1:
            mark = self.rng.choice([b"+", b"*", b"#", b"|", b"X", b"XX", b"+*"])
            mark = self.slip(mark, b"X" * 4, b"+" * 4)[:indentation - 1]
            return mark + b" " * (indentation - len(mark))
        return b" " * indentation

    def line(self, indentation, *words):
        indentation = self.slip(indentation, 0, 1, 4, 5, 7, 8, 9, 10)
        place = self.rng.randrange(len(words))
        word = words[place]
        words = self.slip(words, words[:place] + words[place + 1:], words[:place] + (word, word) + words[place + 1:],
                          words[:place] + (self.rng.choice(ODD_WORDS),) + words[place + 1:])
        return self.marked(indentation) + (b" " * self.rng.randint(1, 3)).join(words)

    def text(self, least):
        """No line, or one of text that is indented by at least so many spaces."""
        return self.rng.choice([[], [], [self.line(self.rng.randint(least, least + 3), self.title())]])

    def title(self):
        return self.rng.choice(TITLES)

    def file(self, entries):
        """A file of entries, each a list of lines."""
        lines = self.rng.choice([[], [b"A text before it.", b"  10  x"]])
        for entry in self.slip(entries, entries + entries[-1:], entries[:1] + entries):
            lines.append(b"-" * self.rng.randint(10, 70))
            for line in entry:
                lines += [b""] * self.rng.choice([0, 0, 0, 1])
                lines.append(line)
        lines += self.rng.choice([[], [b"-" * 70], [b"-" * 10, b"", b"X"]])
        return self.line_end.join(lines) + self.rng.choice([b"", self.line_end])

    def elements(self, parts):
        return self.file([[self.line(5, code, self.title()), self.line(5, b"Desc:", self.title()),
                           self.line(5, b"Repr:", text)] for code, text in parts.elements.items()])

    def codes(self, parts):
        return self.file([[self.line(2, code, self.title())]
                          + [line for value in values for line in
                             [self.line(self.rng.randint(1, 7), value, self.title())] + self.text(10)]
                          for code, values in parts.lists.items()])

    def positions(self, digits):
        """Positions that ascend."""
        place = 0
        while True:
            place = max(0, place + self.slip(self.rng.choice([1, 10, 10]), 0, -1))
            mark = self.rng.choice([b""] * 9 + [b" +", b" X"])
            yield b"%0*d" % (digits, place) + mark

    def number(self, member):
        """An item's number of repetitions as a word, or no word: 1 needs none, and a part of a composite has none."""
        is_written = isinstance(member, Item) and (member.repetitions > 1 or self.rng.random() < 0.1)
        due = [b"%d" % member.repetitions] if is_written else []
        return self.slip(due, [], [self.rng.choice(NUMBERS)], [b"5", b"5"])

    def member_lines(self, members):
        return [self.line(self.rng.choice([0, 0, 4]), position, member.code, *self.slip([self.title()], []),
                          status(member), *self.number(member), member.representation).rstrip(b" ")
                for position, member in zip(self.positions(3), members)]

    def composites(self, parts):
        return self.file([[self.line(7, code, self.title())] + self.text(5) + self.member_lines(members)
                          for code, members in parts.composites.items()])

    def segments(self, parts):
        """The items of each segment, some with the parts of their composites below them."""
        entries = []
        for tag, items in parts.segments.items():
            lines = [self.line(7, tag, self.title())] + self.text(5)
            for item, line in zip(items, self.member_lines(items)):
                lines.append(line)
                if not item.representation and self.rng.random() < 0.5:
                    again = [self.line(7, part.code, self.title(), status(part), *self.number(part),
                                       part.representation)
                             for part in parts.composites.get(item.code, [])]
                    lines += self.slip(again, again[::-1], again[:-1])
                lines += self.text(5)
            entries.append(lines)
        return self.file(entries)

    def message(self, name, rows):
        """A drawn table. A group's end is a plus after its last segment."""
        lines = [b"Message Type : " + name, b"", b"Pos  Tag Name   S R"]
        groups = 0
        for place, (position, row) in enumerate(zip(self.positions(4), rows)):
            after = rows[place + 1].depth if place + 1 < len(rows) else 0
            drawing = self.rng.choice([b"", b" ", b"--"]) + b"|" * self.rng.randint(0, 2)
            if row.tag is None:
                groups += 1
                head = self.rng.choice([
                    b"---- Segment group %d ----", b"-- SEGMENT  Group %d", b"--- segment group %d -"])
                drawn = head % self.slip(groups, groups + 1, 0), drawing + self.slip(b"+", b"", b"+|+")
            else:
                ends = max(0, row.depth - after)
                drawn = row.tag + b" " + self.title(), drawing + b"+" * self.slip(ends, ends + 1, max(0, ends - 1))
            lines += self.text(5)
            lines.append(position + b" " + drawn[0] + b" " + status(row) + b" %d" % row.greatest + b" " + drawn[1])
        return self.line_end.join(lines) + self.rng.choice([b"", self.line_end])


def files_of(rng, parts, slips=0.0):
    """The files of a directory by their names, the manifest's among them."""
    files = Files(rng, slips)
    manifest = [b"directory " + b" ".join(parts.labels), b"elements ed/e", b"codes ed/c", b"composites ed/p",
                b"segments ed/s"]
    found = {b"ed/e": files.elements(parts), b"ed/c": files.codes(parts), b"ed/p": files.composites(parts),
             b"ed/s": files.segments(parts)}
    for name, rows in parts.messages.items():
        manifest.append(b"message " + name)
        found[name] = files.message(name, rows)
    found[b"m"] = b"".join(line + b"\n" for line in manifest)
    return found


def value_for(rng, text):
    """A value that a representation allows, or nearly."""
    class_, exact, length = representation_of(text)
    size = length if exact or rng.random() < 0.1 else rng.randint(1, length)
    size = max(1, size + rng.choice([-1, 1, 2])) if rng.slips(0.1) else size
    if class_ == b"n":
        digits = bytes(rng.choice(b"0123456789") for _ in range(size))
        place = rng.randint(0, size)
        broken = rng.choice([b"", b"-"]) + digits[:place] + rng.choice([b".", b",", b"-", b"E"]) + digits[place:]
        return broken if rng.slips(0.2) else rng.choice([digits, digits, b"-" + digits, digits[:1] + b"." + digits[1:]
                                                         if size > 1 else digits])
    letters = b"ABCDEFGHIJKLMNOPQRSTUVWXYZ" + (b"0123456789 .,-" if class_ == b"an" or rng.slips(0.1) else b"")
    letters += b"abcxyz\xe4#" if rng.slips(0.1) else b""
    return bytes(rng.choice(letters) for _ in range(size))
