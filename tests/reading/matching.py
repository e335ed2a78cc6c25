"""A partner's acknowledgement, led back to the text that it answers: what it finds there, as the command match prints it."""
import re
from typing import NamedTuple

from . import service
from .acknowledgement import ERROR_LIMIT, details, errors_of, values
from .interchange import CODE_OF, NUMBER_OF
from .text import printed_value

NUMBER = re.compile(rb"[0-9]{1,19}")


class Finding(NamedTuple):
    """What is found: its level, the number of a segment of the text, and the tag, the place and the code that are told."""
    level: str
    segment: int
    tag: bytes
    element: int
    component: int
    code: bytes


class NoMatch(Exception):
    """Why a reply isn't led back."""


class Lost(Exception):
    """A segment that leads to no place of the text."""


def number_in(value):
    """A number from 1 on. Any other value leads to no place."""
    if NUMBER.fullmatch(value) is None or int(value) == 0:
        raise Lost
    return int(value)


def first_of(found):
    """The first of these. None: no place is led to."""
    if not found:
        raise Lost
    return found[0]


class Match:
    """The segments of a reply, each led back to a text by those before it."""

    def __init__(self, text, reply):
        self.text = text
        self.reply = reply

    def last_before(self, tag, segment):
        """The last segment of the reply with a tag before another one, or None."""
        return max((k for k in self.reply.with_tag(tag) if k < segment), default=None)

    def group_of(self, segment):
        """The group of the text that a UCF names: the first with its reference."""
        due = self.reply.value(segment, 1)
        return first_of([group for group in self.text.groups if self.text.value(group.first, 5) == due])

    def group_round(self, segment):
        """The group of the last UCF before a segment; None without one, or if it leads to no group."""
        before = self.last_before(b"UCF", segment)
        try:
            return None if before is None else self.group_of(before)
        except Lost:
            return None

    def message_of(self, segment):
        """The message that a UCM names: the first with its reference in the group that is named before it, or in none."""
        due, group = self.reply.value(segment, 1), self.group_round(segment)
        return first_of([message for message in self.text.messages if self.text.group_at(message.first) == group
                         and self.text.value(message.first, 1) == due])

    def position_of(self, segment):
        """The segment of the text that a UCS names by its position, in the message of the last UCM before it."""
        position, before = number_in(self.reply.value(segment, 1)), self.last_before(b"UCM", segment)
        if before is None:
            raise Lost
        message = self.message_of(before)
        if position > message.last - message.first + 1:
            raise Lost
        return message.first + position - 1

    def place_in(self, segment, element):
        """The element and the component that S011 tells; 0 where one isn't filled. The tag field is position 1."""
        first, second = values(self.reply, segment, element, 2)
        return number_in(first) - 1 if first else 0, number_in(second) if second else 0

    def answer(self, level, place, segment, element):
        """What is told by 0085, 0013 and S011, which are this element and the next two. The place is judged in any case."""
        told = self.place_in(segment, element + 2)
        code = self.reply.value(segment, element)
        return [Finding(level, place, self.reply.value(segment, element + 1), *told, code)] if code else []

    def found_by(self, segment):
        """What a segment of the reply finds."""
        tag = self.reply.tags[segment - 1]
        if tag == b"UCI":
            return self.answer("interchange", 0, segment, 5)
        if tag == b"UCF":
            return self.answer("group", self.group_of(segment).first, segment, 5)
        if tag == b"UCM":
            return self.answer("message", self.message_of(segment).first, segment, 4)
        if tag == b"UCS":
            place, code = self.position_of(segment), self.reply.value(segment, 2)
            return [Finding("segment", place, b"", 0, 0, code)] if code else []
        if tag == b"UCD":
            before = self.last_before(b"UCS", segment)
            if before is None:
                raise Lost
            place = self.position_of(before)
            return [Finding("segment", place, b"", *self.place_in(segment, 2), self.reply.value(segment, 1))]
        return []

    def findings(self):
        found = []
        for segment in range(1, len(self.reply.tags) + 1):
            try:
                found += self.found_by(segment)
            except Lost:
                raise NoMatch("unknown %d" % segment) from None
        return found


def is_contrl(reply):
    """Whether a reply is one CONTRL message outside of groups."""
    return (not reply.groups and len(reply.messages) == 1
            and tuple(values(reply, reply.messages[0].first, 2, 4)) == service.CONTRL_NAME)


def is_answer(text, reply):
    """Whether the first UCI of a reply names the reference, the sender and the recipient of a text with a good UNB."""
    is_good = text.begins_with_unb() and not any(error.segment == 1 and error.number >= NUMBER_OF["bad-tag"]
                                                 for error in text.errors)
    answer = reply.with_tag(b"UCI")[0]
    return is_good and (values(reply, answer, 1, 1) == values(text, 1, 5, 1)
                        and values(reply, answer, 2, 3) == values(text, 1, 2, 3)
                        and values(reply, answer, 3, 3) == values(text, 1, 3, 3))


def findings_of(text, reply):
    """What a reply finds in a text. The first rule that it breaks is raised."""
    if reply.errors:
        raise NoMatch("unclean %d" % len(reply.errors))
    if not is_contrl(reply):
        raise NoMatch("not-contrl")
    if not is_answer(text, reply):
        raise NoMatch("other")
    return Match(text, reply).findings()


def line_of(finding):
    return "%s %d %s %d %d %s" % (finding.level, finding.segment, printed_value(finding.tag) or "-", finding.element,
                                  finding.component, printed_value(finding.code))


def print_findings(found):
    lines = ["findings %d" % len(found)] + [line_of(finding) for finding in found]
    return "".join(line + "\n" for line in lines).encode("ascii")


def print_match(text, reply):
    """What the command match prints, and its status."""
    try:
        found = findings_of(text, reply)
    except NoMatch as why:
        return b"reply %s\n" % str(why).encode("ascii"), 1
    return print_findings(found), 0


def told_in_full(reading):
    """Whether an acknowledgement tells all that it may of a text: no limit leaves an error out, no UNG and no UNH has a
    local error, and groups and messages have references of their own."""
    names = [reading.value(group.first, 5) for group in reading.groups]
    names_of_messages = [(reading.group_at(m.first), reading.value(m.first, 1)) for m in reading.messages]
    openings = reading.with_tag(b"UNG", b"UNH")
    return (len(set(names)) == len(names) and len(set(names_of_messages)) == len(names_of_messages)
            and len(reading.errors) <= ERROR_LIMIT
            and all(error.element <= 998 and error.component <= 999 for error in reading.errors)
            and not any(error.segment in openings and error.number >= NUMBER_OF["bad-tag"]
                        for error in reading.errors))


def is_part(error):
    """Whether an error is told of a segment of a message, and not of the message as a whole."""
    return error.number >= NUMBER_OF["missing-segment"]


def whole_finding(level, segment, error):
    """The finding of an error of the interchange, of a group or of a message as a whole."""
    code, tag, place = details([error])
    position = [int(number or 0) for number in place] or [1, 0]
    return Finding(level, segment, tag[0], position[0] - 1, position[1], code[0])


def message_due(reading, message):
    """What is told of a message: its first error as a whole, and then each of its segments'."""
    errors = errors_of(reading, "message", message)
    found = [whole_finding("message", message.first, error) for error in errors if not is_part(error)][:1]
    return found + [Finding("segment", error.segment, b"", error.element, error.component,
                            CODE_OF[error.kind].encode("ascii")) for error in errors if is_part(error)]


def findings_due(reading):
    """What the acknowledgement of a text reports, by its errors alone, where it tells all that it may."""
    errors = errors_of(reading, "interchange", None)
    if errors:
        return [whole_finding("interchange", 0, errors[0])]
    if not reading.groups:
        return [finding for message in reading.messages for finding in message_due(reading, message)]
    found = []
    for group in reading.groups:
        errors = errors_of(reading, "group", group)
        inside = [message for message in reading.messages if reading.group_at(message.first) == group]
        found += ([whole_finding("group", group.first, errors[0])] if errors
                  else [finding for message in inside for finding in message_due(reading, message)])
    return found


def print_due(reading):
    """What match prints of a text and its own acknowledgement, or None where that may not tell all."""
    return print_findings(findings_due(reading)) if told_in_full(reading) else None
