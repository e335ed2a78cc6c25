"""How a text is read: its service characters, segments, values and context.

Octets are numbered from 0; segments, elements, repetitions and components from 1.
"""
from typing import NamedTuple, Optional

LETTERS = b"ABCDEFGHIJKLMNOPQRSTUVWXYZabcdefghijklmnopqrstuvwxyz"
CAPITALS = b"ABCDEFGHIJKLMNOPQRSTUVWXYZ"
DIGITS = b"0123456789"
LINE_ENDS = b"\r\n"
SPACE = 32
TEXT_LIMIT = 4194304


class Service(NamedTuple):
    """The service characters of a text, where its body begins, and whether its advice is sound."""
    component: int
    element: int
    mark: int
    release: Optional[int]
    terminator: int
    body: int
    sound: bool
    repetition: Optional[int] = None


class Segment(NamedTuple):
    """A segment: its number, its first octet, the place of its terminator, and the octets between."""
    number: int
    start: int
    end: int
    octets: bytes


class Context(NamedTuple):
    """What a segment's reading needs of its text."""
    service: Service
    level: bytes
    version: bytes


LEVELS = (b"UNOA", b"UNOB", b"UNOC", b"UNOD", b"UNOE", b"UNOF")
VERSIONS = (b"1", b"2", b"3", b"4")


def default_service(body, sound):
    return Service(ord(":"), ord("+"), ord("."), ord("?"), ord("'"), body, sound)


def is_acceptable(advice):
    """Whether nine octets that begin with UNA can be used."""
    component, element, _mark, release, _reserved, terminator = advice[3:9]
    delimiters = [component, element, terminator]
    characters = delimiters if release == SPACE else delimiters + [release]
    # They are pairwise different, none is a letter, a digit or a line end, and no delimiter is a space.
    return (len(set(characters)) == len(characters)
            and not any(c in LETTERS or c in DIGITS or c in LINE_ENDS for c in characters)
            and SPACE not in delimiters)


def service_of(text):
    """The service characters that a text gives in its first nine octets, or the default ones: none for repetitions."""
    if not text.startswith(b"UNA"):
        return default_service(0, True)
    # The advice is outside the body, whether it can be used or not.
    if len(text) < 9 or not is_acceptable(text[:9]):
        return default_service(min(9, len(text)), False)
    component, element, mark, release, _reserved, terminator = text[3:9]
    return Service(component, element, mark, None if release == SPACE else release, terminator, 9, True)


def is_released(octets, place, first, service):
    """Whether the run of release characters directly before a place, from first on, has odd length."""
    run = 0
    while place - run > first and octets[place - run - 1] == service.release:
        run += 1
    return run % 2 == 1


def ends_of(text, service):
    """The places of the body that hold a terminator which isn't released."""
    return [place for place in range(service.body, len(text))
            if text[place] == service.terminator and not is_released(text, place, service.body, service)]


def past_line_ends(text, place):
    """The first place from this one on that is no CR and no LF."""
    while place < len(text) and text[place] in LINE_ENDS:
        place += 1
    return place


def segments_of(text):
    """Every stretch up to an end, without the line ends in front of it. An empty one counts too."""
    service = service_of(text)
    found = []
    boundary = service.body
    for end in ends_of(text, service):
        start = past_line_ends(text, boundary)
        found.append(Segment(len(found) + 1, start, end, text[start:end]))
        boundary = end + 1
    return found


def tail_of(text):
    """Where the octets after the last end begin, without line ends in front, or None if there are none."""
    service = service_of(text)
    ends = ends_of(text, service)
    start = past_line_ends(text, ends[-1] + 1 if ends else service.body)
    return start if start < len(text) else None


def parts_between(octets, separator, service):
    """The parts of these octets between the separators that aren't released."""
    cuts = [place for place in range(len(octets))
            if octets[place] == separator and not is_released(octets, place, 0, service)]
    return [octets[first:last] for first, last in zip([0] + [cut + 1 for cut in cuts], cuts + [len(octets)])]


def value_of(octets, service):
    """A component's octets without the release characters that aren't released themselves."""
    return bytes(octets[place] for place in range(len(octets))
                 if octets[place] != service.release or is_released(octets, place, 0, service))


def elements_of(octets, service):
    """A segment's elements: of each its repetitions, of each of these the values of its components.

    Element 0 is the tag field. It is one repetition, as every element is where no octet separates repetitions.
    """
    tag_field, *further = parts_between(octets, service.element, service)
    return [[values_of(tag_field, service)]] + [
        [values_of(repetition, service) for repetition in parts_between(element, service.repetition, service)]
        for element in further]


def values_of(octets, service):
    """The values of the components of a repetition."""
    return [value_of(component, service) for component in parts_between(octets, service.component, service)]


def is_tag(octets):
    """Three capital letters and digits, the first a letter."""
    return len(octets) == 3 and octets[0] in CAPITALS and all(c in CAPITALS or c in DIGITS for c in octets)


def tag_of(octets, service):
    """The tag field's first value, if it is a tag and all further components of the field are empty."""
    first, *further = elements_of(octets, service)[0][0]
    return first if is_tag(first) and not any(further) else None


def value_at(elements, element, component=1):
    """The value at an element and a component, in the first repetition; what isn't written is empty."""
    if element >= len(elements) or component > len(elements[element][0]):
        return b""
    return elements[element][0][component - 1]


def context_of(text):
    """The service characters, and the level and version of the first segment, if that is UNB.

    That segment is cut without repetitions for its level and version.
    """
    service = service_of(text)
    segments = segments_of(text)
    level, version = b"", b""
    if segments and tag_of(segments[0].octets, service) == b"UNB":
        elements = elements_of(segments[0].octets, service)
        level, version = value_at(elements, 1, 1), value_at(elements, 1, 2)
    if version == b"4":
        service = with_repetitions(text, service)
    return Context(service, level if level in LEVELS else b"UNOB", version if version in VERSIONS else b"3")


def with_repetitions(text, service):
    """The service characters of a text of version 4: octet 7 of an acceptable advice, or a star, separates repetitions.

    A space there means that nothing does. So does an octet that has another use, but then the advice isn't sound.
    """
    octet = text[7] if text.startswith(b"UNA") and service.sound else ord("*")
    if octet == SPACE:
        return service
    others = (service.component, service.element, service.release, service.terminator)
    if octet in others or octet in LETTERS or octet in DIGITS or octet in LINE_ENDS:
        return service._replace(sound=False)
    return service._replace(repetition=octet)


def printed_tag(tag):
    return "---" if tag is None else tag.decode("ascii")


def printed_value(value):
    """The octets from 32 to 126 as they are, except the backslash; the others as two hexadecimal digits."""
    return "".join(chr(c) if 32 <= c <= 126 and c != ord("\\") else "\\%02x" % c for c in value)


def print_segments(text, with_values):
    """What the commands segments and values print of a text."""
    service = context_of(text).service
    segments = segments_of(text)
    lines = ["segments %d" % len(segments)]
    for segment in segments:
        tag = printed_tag(tag_of(segment.octets, service))
        lines.append("%d %d %d %s" % (segment.number, segment.start, segment.end, tag))
        if with_values:
            lines += value_lines(elements_of(segment.octets, service))
    start = tail_of(text)
    if start is not None:
        lines.append("tail %d %d" % (start, len(text) - start))
    return "".join(line + "\n" for line in lines).encode("ascii")


def value_lines(elements):
    """A line for each component that isn't empty, except those of the tag field. The first repetition has no number."""
    return ["  %d%s %d %s" % (element, "" if repetition == 1 else "*%d" % repetition, component, printed_value(value))
            for element, repetitions in enumerate(elements) if element > 0
            for repetition, values in enumerate(repetitions, 1)
            for component, value in enumerate(values, 1) if value]
