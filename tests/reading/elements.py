"""What is wrong inside a segment, by the definitions of a directory."""
from . import service
from .text import CAPITALS, DIGITS, LEVELS, VERSIONS, elements_of, tag_of, value_at

LEVEL_A = CAPITALS + DIGITS + b" .,-()/='+:?!\"%&*;<>"
LEVEL_B = LEVEL_A + b"abcdefghijklmnopqrstuvwxyz"
# By the project's own choice the other levels admit all but the control characters.
LEVELS_C_TO_F = bytes(c for c in range(256) if not (c <= 31 or 127 <= c <= 159))
HYPHEN = ord("-")


def admitted_by(level):
    return {b"UNOA": LEVEL_A, b"UNOB": LEVEL_B}.get(level, LEVELS_C_TO_F)


def representation_of(text):
    """The class, whether the length is exact, and the length, of a representation as an..35."""
    class_ = text.rstrip(b".0123456789")
    return class_, b".." not in text, int(text.lstrip(b"an."))


def marks_of(service_characters):
    """The decimal marks: stop, comma and that of the advice, except octets with another use in a number or a text."""
    characters = service_characters
    others = [characters.component, characters.element, characters.repetition, characters.release,
              characters.terminator, HYPHEN]
    return [c for c in (ord("."), ord(","), characters.mark) if c not in others and c not in DIGITS]


def is_digits(value):
    return len(value) > 0 and all(c in DIGITS for c in value)


def is_number(value, marks):
    """A hyphen or none, digits, and a mark with digits after it or none."""
    unsigned = value[1:] if value[:1] == b"-" else value
    return is_digits(unsigned) or any(unsigned[place] in marks
                                      and is_digits(unsigned[:place]) and is_digits(unsigned[place + 1:])
                                      for place in range(len(unsigned)))


def value_errors(value, representation, codes, context):
    """The kinds of errors of a value that isn't empty. No list of codes: any value is one."""
    class_, exact, length = representation_of(representation)
    marks = marks_of(context.service)
    found = []
    if any(c not in admitted_by(context.level) for c in value):
        found.append("repertoire")
    if class_ == b"a" and any(c in DIGITS for c in value):
        found.append("type")
    if class_ == b"n" and any(c not in DIGITS and c != HYPHEN and c not in marks for c in value):
        found.append("type")
    elif class_ == b"n" and not is_number(value, marks):
        found.append("decimal")
    counted = [c for c in value if class_ != b"n" or (c != HYPHEN and c not in marks)]
    if len(counted) > length:
        found.append("too-long")
    if exact and len(counted) < length:
        found.append("too-short")
    if codes is not None and value not in codes:
        found.append("code")
    return found


def stand_alone_errors(item, values, codes, context):
    """The errors of a repetition without parts, by component; component 0 is the element as a whole."""
    found = [(component, "too-many-components")
             for component, value in enumerate(values, 1) if component > 1 and value]
    if values[0]:
        found += [(0, kind) for kind in value_errors(values[0], item.representation, codes, context)]
    return found


def composite_errors(parts, values, list_of, context):
    """The errors of a used repetition of a composite, by component."""
    found = [(component, "too-many-components")
             for component, value in enumerate(values, 1) if component > len(parts) and value]
    filled = [(part, values[place] if place < len(values) else b"") for place, part in enumerate(parts)]
    # A component 1131 tells that codes are from another list than the directory's.
    other_list = any(part.code == b"1131" and value for part, value in filled)
    for component, (part, value) in enumerate(filled, 1):
        codes = None if other_list else list_of(part.code)
        if value:
            found += [(component, kind) for kind in value_errors(value, part.representation, codes, context)]
        elif part.mandatory:
            found.append((component, "missing"))
    return found


def is_used(values):
    """Whether a repetition has a component that isn't empty, a surplus one too."""
    return any(values)


def errors_over_repetitions(item, repetitions):
    """The errors that an element has by all of its repetitions together."""
    found = []
    if any(is_used(values) for values in repetitions[item.repetitions:]):
        found.append((0, "too-many-repetitions"))
    is_filled = any(values[0] if item.representation else is_used(values) for values in repetitions)
    if item.mandatory and not is_filled:
        found.append((0, "missing"))
    return found


def local_errors_of(directory, context, octets):
    """The errors of a segment by itself: a set of element, component and kind, each of which is told once."""
    tag = tag_of(octets, context.service)
    if tag is None:
        return {(0, 0, "bad-tag")}
    in_service = tag in service.SERVICE_SEGMENTS
    if not in_service and tag not in directory.segments:
        return {(0, 0, "unknown-segment")}
    items = service.SERVICE_SEGMENTS[tag] if in_service else directory.segments[tag]
    composites = service.composites_of(context.version) if in_service else directory.composites
    elements = elements_of(octets, context.service)

    def list_of(code):
        return None if in_service else directory.lists.get(code)

    def repetition_errors(item, values):
        if item.representation:
            return stand_alone_errors(item, values, list_of(item.code), context)
        return composite_errors(composites[item.code], values, list_of, context) if is_used(values) else []

    found = {(element, 0, "too-many-elements") for element, repetitions in enumerate(elements)
             if element > len(items) and any(is_used(values) for values in repetitions)}
    for element, item in enumerate(items, 1):
        # An element that isn't written is one empty repetition.
        repetitions = elements[element] if element < len(elements) else [[b""]]
        errors = errors_over_repetitions(item, repetitions)
        for values in repetitions:
            errors += repetition_errors(item, values)
        found |= {(element, component, kind) for component, kind in errors}
    return found


def syntax_errors_of(elements):
    """What of a UNB's level and version is filled and none that is known."""
    return [(1, component, "syntax") for component, known in ((1, LEVELS), (2, VERSIONS))
            if value_at(elements, 1, component) and value_at(elements, 1, component) not in known]
