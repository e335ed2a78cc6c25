"""Random texts: interchanges of messages that a directory has, with mistakes, and edits of them.

A segment is a list of elements, an element a list of values. Where NEXT is among them the next repetition begins.
"""
from . import service, tables
from .random_directories import value_for
from .text import LEVELS, VERSIONS

ODD_OCTETS = b"'+:?. \r\n\x00\x1c\x1d\x7f\x80\xa0\xff,-*a7ZU~"
DEFAULT = b":+.? '"
WITH_STARS = b":+.?*'"
NEXT = None
DATE, DATE_OF_VERSION_4 = b"960105", b"19960105"


def characters(rng):
    """The six octets of an advice, most of which can be used."""
    if rng.random() < 0.6:
        return rng.choice([DEFAULT, WITH_STARS])
    octets = rng.sample(b":+.?*'|~^;!,-#/\x1c\x1d\x1e\x1f\xfe", 6)
    for place in (3, 4):
        if rng.random() < 0.2:
            octets[place] = ord(" ")
    if rng.random() < 0.1:
        octets[2] = octets[4]
    if rng.random() < 0.2:
        octets[2] = rng.choice(b".,E- \r5" + bytes(octets))
    if rng.slips(0.1):
        octets[rng.randrange(6)] = rng.choice(b"A5 \r\n" + bytes(octets))
    return bytes(octets)


def spelled(value, service_characters):
    """A value with a release character before each service character in it."""
    component, element, _mark, release, repetition, terminator = service_characters
    if release == ord(" "):
        return value
    others = (component, element, release, terminator) + (() if repetition == ord(" ") else (repetition,))
    return b"".join(bytes([release, c]) if c in others else bytes([c]) for c in value)


def segment_octets(elements, service_characters):
    """A segment of elements, each a list of values, by these service characters."""
    element, terminator = service_characters[1:2], service_characters[5:6]
    return element.join(element_octets(values, service_characters) for values in elements) + terminator


def element_octets(values, service_characters):
    """An element of values, the repetitions of which are separated as in version 4."""
    component, repetition = service_characters[0:1], service_characters[4:5]
    repetitions = [[]]
    for value in values:
        if value is NEXT:
            repetitions.append([])
        else:
            repetitions[-1].append(spelled(value, service_characters))
    return (b"*" if repetition == b" " else repetition).join(component.join(parts) for parts in repetitions)


def element_values(rng, directory, item):
    """Values for an item, with some that are empty or too many."""
    if rng.slips(0.04) if item.mandatory else rng.random() < 0.4:
        return [b""]
    if item.representation:
        members = [item]
    else:
        members = service.SERVICE_COMPOSITES.get(item.code) or directory.composites[item.code]
    values = [member_value(rng, directory, member) for member in members]
    values = values[:rng.randint(1, len(values))] if rng.slips(0.2) else values
    return values + (rng.choice([[b""], [b"X"], [b"", b"7"]]) if rng.slips(0.1) else [])


def member_value(rng, directory, member):
    if rng.slips(0.03) if member.mandatory else rng.random() < 0.4:
        return b""
    codes = directory.lists.get(member.code)
    if codes and not rng.slips(0.2):
        return rng.choice(codes)
    return value_for(rng, member.representation)


def segment_of(rng, directory, tag):
    """The elements of a segment with a tag, by its definition."""
    items = service.SERVICE_SEGMENTS.get(tag) or directory.segments.get(tag) or []
    elements = [element_values(rng, directory, item) for item in items]
    while elements and not any(elements[-1]) and rng.random() < 0.9:
        elements.pop()
    return [[tag]] + elements + (rng.choice([[[b"1"]], [[b""], [b"A", b"B"]]]) if rng.slips(0.08) else [])


def as_in_version_4(rng, directory, segments):
    """The segments with dates of eight digits, and with more repetitions of few elements."""
    dated = [[[DATE_OF_VERSION_4 if value == DATE and not rng.slips(0.1) else value for value in values]
              for values in elements] for elements in segments]
    return [with_repetitions(rng, directory, elements) for elements in dated]


def with_repetitions(rng, directory, elements):
    """The segment with more repetitions of few elements: few more than the directory has, and some that are empty."""
    tag = elements[0][0]
    items = service.SERVICE_SEGMENTS.get(tag) or directory.segments.get(tag) or []
    chance = 0.02 if tag in service.SERVICE_SEGMENTS else 0.3
    repeated = list(elements)
    for place, (item, values) in enumerate(zip(items, elements[1:]), 1):
        if rng.random() < chance or rng.slips(0.02):
            for _ in range(min(rng.choice([1, 1, 2, item.repetitions - 1, item.repetitions + rng.slips(0.3)]), 6)):
                again = rng.choice([values, [b""], [b"", b""]] + 3 * [element_values(rng, directory, item)])
                repeated[place] = repeated[place] + [NEXT] + again
    if rng.slips(0.03):
        place = rng.randrange(len(repeated))
        repeated[place] = rng.choice([[NEXT, *repeated[place]], repeated[place] + [NEXT], [b"", NEXT, b"", b"A"]])
    return repeated


def message_tags(rng, table):
    """Tags of a message as its table has them, with few that are missing, once too often or elsewhere."""
    tags = []

    def enter(nodes):
        for node in nodes:
            if rng.slips(0.04) if table[node].mandatory else rng.random() < 0.5:
                continue
            times = rng.randint(1, min(3, table[node].greatest)) + rng.slips(0.05)
            for _ in range(times):
                if tables.is_group(table, node):
                    tags.append(table[node + 1].tag)
                    enter(tables.later_siblings(table, node + 1))
                else:
                    tags.append(table[node].tag)

    enter(range(1, 2) if len(table) > 2 else [])
    enter([node for node in tables.later_siblings(table, 1) if node < len(table) - 1] if len(table) > 2 else [])
    for _ in range(rng.choice([1, 2])):
        if tags and rng.slips(0.5):
            place = rng.randrange(len(tags))
            tags[place:place + rng.choice([0, 0, 1])] = [rng.choice(tags + [b"BGM", b"UNS", b"ZZZ", b"Z1"])]
    return tags[:40]


def wrong(rng, value):
    """The value, or now and then another one."""
    others = [b"", b"0" + value, b"9", value + b"X", value.rjust(19, b"0"), value.rjust(20, b"0")]
    return rng.choice(others) if rng.slips(0.07) else value


def message(rng, directory, reference):
    """A message, its UNH and UNT with it."""
    name = rng.choice(sorted(directory.tables))
    table = directory.tables[name]
    tags = message_tags(rng, table)
    header = [wrong(rng, part) for part in name] + rng.choice([[], [], [b"EAN008"]])
    body = [segment_of(rng, directory, tag) for tag in tags]
    return ([[[b"UNH"], [reference], header]] + body
            + [[[b"UNT"], [wrong(rng, b"%d" % (len(body) + 2))], [wrong(rng, reference)]]])


def group(rng, directory, reference):
    """A functional group of few messages."""
    messages = [message(rng, directory, b"%d" % (k + 1)) for k in range(rng.choice([0, 1, 1, 1, 2, 3]))]
    kind = messages[0][0][2][0] if messages else b"TSTORD"
    head = [[b"UNG"], [wrong(rng, kind)], [b"BUYER", b"14"], [b"SELLER"], [DATE, b"0930"], [reference], [b"UN"],
            [b"D", b"96A"]]
    tail = [[b"UNE"], [wrong(rng, b"%d" % len(messages))], [wrong(rng, reference)]]
    return [head] + [part for found in messages for part in found] + ([] if rng.slips(0.15) else [tail])


def interchange(rng, directory):
    """The segments of an interchange."""
    level = rng.choice([b"UNOX", b"unoa", b""]) if rng.slips(0.1) else rng.choice(LEVELS)
    head = [[b"UNB"], [level, rng.choice([b"5", b"40"]) if rng.slips(0.1) else rng.choice(VERSIONS + (b"3", b"4", b"4"))],
            [b"BUYER", b"14"], [wrong(rng, rng.choice([b"SELL+ER:", b"SELL*ER"])), b"14", b"ROUTE'?"], [DATE, b"0930"],
            [wrong(rng, rng.choice([b"R1", b"R?1"]))]]
    head += rng.choice([[], [], [[b""], [b"APP"], [b"A"], [b"1"]], [[b"REF", b"AA"], [b""], [b""], [b"5"]]])
    make = rng.choice([message, group])
    units = [make(rng, directory, b"%d" % (k + 1)) for k in range(0 if rng.slips(0.2) else rng.randint(1, 3))]
    if rng.slips(0.1):
        units.append(message(rng, directory, b"77"))
    tail = [[b"UNZ"], [wrong(rng, b"%d" % len(units))], [wrong(rng, head[5][0])]]
    return [head] + [part for unit in units for part in unit] + ([] if rng.slips(0.1) else [tail])


def near_limits(rng, directory):
    """A message with as many errors, elements or components as an acknowledgement can tell, or one more or less."""
    near = rng.choice([98, 99, 100, 997, 998, 999, 1000, 1001])
    segments = [[b"UNB"], [b"UNOA", b"3"], [b"A"], [b"B"], [b"960105", b"0930"], [b"R1"]], [
        [b"UNH"], [b"1"], list(rng.choice(sorted(directory.tables)))]
    tag = rng.choice(sorted(directory.segments))
    body = rng.choice([[[[tag]] + [[b"a", b"b"]] * near], [[[tag], [b"a"] * near, [b"b"]]], [[[tag]]] * near,
                       [[[tag], [b"a"], [b"", b"b"]]] * near, [[[b"Z"]]] * near])
    ends = [[[b"UNT"], [b"%d" % (len(body) + 2)], [b"1"]], [[b"UNZ"], [b"1"], [b"R1"]]]
    return b"".join(segment_octets(segment, DEFAULT) for segment in list(segments) + body + ends)


def shuffled(rng, segments):
    """The segments with few of them moved, taken away, or there twice."""
    segments = list(segments)
    for _ in range(rng.choice([1, 1, 2, 4])):
        if segments and rng.slips(0.5):
            place = rng.randrange(len(segments))
            kept = segments[place]
            segments[place:place + 1] = rng.choice([[], [kept, kept], [[[b""]]], [[[b"un"], [b"1"]]]])
            if rng.random() < 0.5:
                segments.insert(rng.randrange(len(segments) + 1), kept)
    return segments


def text(rng, directory):
    """The octets of a text, now and then broken in few places."""
    segments = interchange(rng, directory)
    if segments[0][1][1] == b"4" or rng.random() < 0.05:
        segments = as_in_version_4(rng, directory, segments)
    segments = shuffled(rng, segments)
    used = characters(rng)
    between = rng.choice([b"", b"", b"", b"\r\n", b"\n"])
    octets = b"".join(segment_octets(segment, used) + between for segment in segments)
    if used not in (DEFAULT, WITH_STARS) or rng.random() < 0.1:
        octets = b"UNA" + used + between + octets
    for _ in range(rng.choice([1, 1, 2, 5]) if rng.slips(0.5) else 0):
        at, cut, put = edit(rng, octets)
        octets = octets[:at] + put + octets[at + cut:]
    return octets[:rng.randint(0, len(octets))] if rng.slips(0.08) else octets


def edit(rng, octets):
    """A place, how many octets are cut there, and what is put: at most few octets, or a copy of others."""
    at = rng.randint(0, len(octets))
    if rng.random() < 0.4:
        # At a terminator as the default characters have it, where a change moves the borders of segments.
        at = max(0, min(len(octets), octets.find(b"'", at) + rng.choice([0, 0, 1])))
    cut = min(rng.choice([0, 0, 1, 1, 2, 5, 20]), len(octets) - at)
    if rng.random() < 0.2:
        first = rng.randint(0, len(octets))
        return at, cut, octets[first:first + rng.randint(0, 60)]
    return at, cut, bytes(rng.choice(ODD_OCTETS) for _ in range(rng.choice([0, 0, 1, 1, 1, 2, 4])))
