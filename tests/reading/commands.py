"""The commands: their words, what each prints, and the status that it ends with."""
from .acknowledgement import acknowledgement_of
from .directory import Refusal, is_name, load, open_file, print_tables
from .files import Fault
from .guide import narrow
from .interchange import Reading, print_errors, print_tree
from .matching import print_match
from .script import EDIT_LINES, REFERENCE, SESSION_LINES, STAMP, answer_script
from .store import write_store
from .text import TEXT_LIMIT, print_segments
from . import drill


def run(words, shelf, given):
    """The output of a command and its status. The shelf gives a file's octets, and given the input's."""
    try:
        return answer(words, shelf, given)
    except Refusal as refusal:
        return refusal.line + b"\n", refusal.status


def answer(words, shelf, given):
    command, rest = (words[0], words[1:]) if words else (b"", [])
    if command in (b"segments", b"values") and not rest:
        text = given()
        if len(text) > TEXT_LIMIT:
            raise Refusal(7, b"fault large -")
        return print_segments(text, command == b"values"), 0
    if command in (b"tables", b"compile") and len(rest) == 1 and is_name(rest[0]):
        directory = load(shelf, rest[0])
        return (print_tables(directory) if command == b"tables" else write_store(directory)), 0
    if command in (b"guide", b"match") and len(rest) == 3 and all(is_name(word) for word in rest):
        return answer_guided(shelf, *rest) if command == b"guide" else answer_matched(shelf, *rest)
    if command in (b"check", b"edit", b"session", b"contrl") and are_names_and_more(command, rest):
        directory = load(shelf, rest[0])
        text = open_file(shelf, rest[1])
        if command in (b"edit", b"session"):
            return answer_script(directory, text, given(), EDIT_LINES if command == b"edit" else SESSION_LINES)
        if command == b"check":
            return check(directory, text)
        reading = Reading(directory, text)
        octets, why_not = acknowledgement_of(reading, STAMP.fullmatch(rest[2]).groups(), rest[3])
        return (octets, 0) if why_not is None else (why_not + b"\n", 1)
    if command == b"drill" and len(rest) == 3 and drill.are_numbers(rest):
        return drill.print_drill(*[int(word) for word in rest]), 0
    raise Refusal(2, b"fault words")


def check(directory, text):
    reading = Reading(directory, text)
    return print_errors(reading) + print_tree(reading), 1 if reading.errors else 0


def answer_guided(shelf, manifest, guide, text):
    """A text, checked by the directory that a guide narrows. The guide is read before the text."""
    directory = load(shelf, manifest)
    octets = open_file(shelf, guide)
    try:
        narrowed = narrow(directory, octets)
    except Fault as fault:
        raise Refusal(3, b"fault guide %s %d %s" % (guide, fault.line, fault.kind.encode("ascii"))) from None
    return check(narrowed, open_file(shelf, text))


def answer_matched(shelf, manifest, text, reply):
    """An acknowledgement, led back to the text that it answers. The text is read before it."""
    directory = load(shelf, manifest)
    octets = open_file(shelf, text)
    return print_match(Reading(directory, octets), Reading(directory, open_file(shelf, reply)))


def are_names_and_more(command, rest):
    """Whether these are the words of a command that reads a text by a directory."""
    in_form = all(is_name(word) for word in rest[:2])
    if command == b"contrl":
        return (in_form and len(rest) == 4 and STAMP.fullmatch(rest[2]) is not None
                and REFERENCE.fullmatch(rest[3]) is not None)
    return in_form and len(rest) == 2
