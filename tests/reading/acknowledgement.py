"""The acknowledgement of a text: the octets of a CONTRL message."""
from .interchange import CODE_OF, NUMBER_OF

SEGMENT_LIMIT = 99000
REPORT_LIMIT = 999
ERROR_LIMIT = 99
POSITION_LIMIT = 999999


def written(values):
    """An element: its components, escaped, without the empty ones at its end."""
    parts = list(values)
    while parts and not parts[-1]:
        parts.pop()
    return b":".join(b"".join(b"?" + bytes([c]) if c in b"'+:?" else bytes([c]) for c in part) for part in parts)


def segment_text(tag, *elements):
    """A segment: its elements, without the empty ones at its end."""
    fields = [written(element) for element in elements]
    while fields and not fields[-1]:
        fields.pop()
    return b"+".join([tag] + fields) + b"'"


def number(value):
    return b"%d" % value


def level_of(reading, error):
    """Of what an error is told: the interchange, a group or a message, with its extent."""
    n = NUMBER_OF[error.kind]
    message, group = reading.message_at(error.segment), reading.group_at(error.segment)
    if n <= NUMBER_OF["mixed"]:
        return "interchange", None
    if NUMBER_OF["no-une"] <= n <= NUMBER_OF["group-type"]:
        return "group", group
    if message is not None:
        return "message", message
    if any(error.segment == g.first or (g.closed and error.segment == g.last) for g in reading.groups):
        return "group", group
    return "interchange", None


def errors_of(reading, level, extent):
    return [error for error in reading.errors if level_of(reading, error) == (level, extent)]


def place_of(error):
    """The place of an error in its segment, where the tag has position 1. None if it can't be written."""
    if not 1 <= error.element <= 998 or error.component > 999:
        return []
    return [number(error.element + 1), number(error.component) if error.component else b""]


def details(errors):
    """Three elements that tell the first of these errors, or nothing."""
    if not errors:
        return [[], [], []]
    error = errors[0]
    closing = {"bad-una": b"UNA", "no-unz": b"UNZ", "no-une": b"UNE"}
    envelope = error.tag if error.tag in (b"UNB", b"UNG", b"UNH", b"UNT", b"UNE", b"UNZ") else b""
    return [[CODE_OF[error.kind].encode("ascii")], [closing.get(error.kind, envelope)], place_of(error)]


def values(reading, segment, element, count):
    """The first components of an element, as many as its definition has."""
    return [reading.value(segment, element, component) for component in range(1, count + 1)]


def message_report(reading, message):
    """The segments that tell what is wrong with a message, or none."""
    errors = errors_of(reading, "message", message)
    if not errors:
        return []
    head = [error for error in errors if error.kind in ("no-table", "reference", "count")]
    report = [segment_text(b"UCM", values(reading, message.first, 1, 1), values(reading, message.first, 2, 5),
                           [b"4"], *details(head))]
    blocks = []
    for segment in range(message.first, message.last + 1):
        position = segment - message.first + 1
        if position <= POSITION_LIMIT:
            blocks += segment_blocks(position, [error for error in errors if error.segment == segment])
    return report + [part for block in blocks[:REPORT_LIMIT] for part in block]


def segment_blocks(position, errors):
    """The blocks of a segment: a UCS each, and after the last of them what is wrong with its elements."""
    whole = [e for e in errors if NUMBER_OF["missing-segment"] <= NUMBER_OF[e.kind] <= NUMBER_OF["unknown-segment"]]
    inside = [e for e in errors if NUMBER_OF[e.kind] >= NUMBER_OF["too-many-elements"]]
    blocks = [[segment_text(b"UCS", [number(position)], [CODE_OF[e.kind].encode("ascii")])] for e in whole]
    if inside and not blocks:
        blocks = [[segment_text(b"UCS", [number(position)])]]
    told = [e for e in inside if e.element <= 998 and e.component <= 999][:ERROR_LIMIT]
    if told:
        blocks[-1] += [segment_text(b"UCD", [CODE_OF[e.kind].encode("ascii")], place_of(e)) for e in told]
    return blocks


def reports(reading):
    """What is below UCI if the interchange as a whole is good."""
    if not reading.groups:
        return [part for message in reading.messages for part in message_report(reading, message)]
    found = []
    for group in reading.groups:
        errors = errors_of(reading, "group", group)
        messages = [] if errors else [m for m in reading.messages if reading.group_at(m.first) == group
                                      and errors_of(reading, "message", m)]
        if errors or messages:
            found.append(segment_text(b"UCF", values(reading, group.first, 5, 1), values(reading, group.first, 2, 2),
                                      values(reading, group.first, 3, 2), [b"4" if errors else b"7"],
                                      *details(errors)))
        found += [part for message in messages for part in message_report(reading, message)]
    return found


def acknowledgement_of(reading, stamp, reference):
    """The octets, or the word that says why there are none. The stamp is a date and a time."""
    if not reading.begins_with_unb():
        return None, b"no unb"
    # The local errors of the first segment, whatever else is told of it.
    if any(error.segment == 1 and NUMBER_OF[error.kind] >= NUMBER_OF["bad-tag"] for error in reading.errors):
        return None, b"bad unb"
    sender, recipient = values(reading, 1, 2, 3), values(reading, 1, 3, 3)
    errors = errors_of(reading, "interchange", None)
    message = [segment_text(b"UNH", [b"1"], [b"CONTRL", b"D", b"3", b"UN"]),
               segment_text(b"UCI", values(reading, 1, 5, 1), sender, recipient, [b"4" if errors else b"7"],
                            *details(errors))]
    message += [] if errors else reports(reading)[:SEGMENT_LIMIT]
    message.append(segment_text(b"UNT", [number(len(message) + 1)], [b"1"]))
    # A text of version 4 is answered in version 3.
    version = b"3" if reading.context.version == b"4" else reading.context.version
    opening = segment_text(b"UNB", [reading.context.level, version], recipient, sender, stamp, [reference])
    return b"".join([opening] + message + [segment_text(b"UNZ", [b"1"], [reference])]), None
