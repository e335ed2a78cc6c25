"""Random inputs for the program: its words, the files that it finds, and what it is given to read."""
import random
from typing import NamedTuple, Optional

from . import random_directories, random_guides, random_replies, random_texts
from .acknowledgement import acknowledgement_of
from .directory import Directory, load
from .interchange import Reading
from .matching import print_due
from .random_scripts import script, session, stamp_words
from .store import spelling_of

WORDS = [b"segments", b"values", b"tables", b"check", b"edit", b"session", b"contrl", b"compile", b"drill", b"m", b"t",
         b"none", b"", b".m", b"a//b", b"960106:0800", b"C1", b"0", b"1", b"01", b"1001", b"x" * 128, b"x" * 129,
         b"a/b", b"-"]


class Input(NamedTuple):
    """Words, files by their names, and octets on the input; and what must be printed, where another rule tells it too."""
    words: list
    files: dict
    given: bytes
    due: Optional[bytes] = None


class Hand(random.Random):
    """Random numbers, and how often a slip is made: never, seldom or often in one input."""

    def __init__(self, seed):
        super().__init__(seed)
        self.care = self.choice([0, 0.1, 0.1, 0.3, 1, 2])

    def slips(self, chance):
        return self.random() < chance * self.care


def input_of(seed, examples):
    """The input that a seed makes. The files of the example directory are told."""
    rng = Hand(seed)
    make = rng.choices([reading_input, checking_input, script_input, table_input, broken_files_input,
                        item_lines_input, broken_parts_input, store_input, session_input, limits_input, drill_input,
                        odd_words_input, matching_input, guided_input],
                       [4, 12, 12, 6, 10, 6, 4, 10, 10, 0.3, 0.2, 0.5, 12, 12])[0]
    return make(rng, examples)


def some_directory(rng, examples):
    """The files of a directory, and the directory: the example or a random one."""
    if rng.random() < 0.35:
        files = dict(examples)
    else:
        parts = random_directories.Parts(rng)
        files = random_directories.files_of(rng, parts)
    return files, load(files.get, b"m")


def text_for(rng, directory):
    """A text: an interchange, an acknowledgement of one, or any octets."""
    octets = random_texts.text(rng, directory)
    if rng.random() < 0.06:
        answer, _why_not = acknowledgement_of(Reading(directory, octets), (b"960106", b"0800"), b"C1")
        return answer or octets
    if rng.random() < 0.05:
        return rng.choice([b"", b"UNA", b"UNB+"]) + bytes(rng.choice(random_texts.ODD_OCTETS)
                                                          for _ in range(rng.randint(0, 40)))
    return octets


def reading_input(rng, examples):
    _files, directory = some_directory(rng, examples)
    return Input([rng.choice([b"segments", b"values", b"values"])], {}, text_for(rng, directory))


def checking_input(rng, examples):
    files, directory = some_directory(rng, examples)
    files[b"t"] = text_for(rng, directory)
    words = rng.choice([[b"check", b"m", b"t"]] + 2 * [[b"contrl", b"m", b"t"] + stamp_words(rng)])
    return Input(words, files, b"")


def matching_input(rng, examples):
    """A reply to a text: its own acknowledgement, changed or not, or any text."""
    files, directory = some_directory(rng, examples)
    files[b"t"] = text_for(rng, directory)
    reading = Reading(directory, files[b"t"])
    stamp, reference = stamp_words(rng)
    files[b"r"], due = acknowledgement_of(reading, tuple(stamp.split(b":")), reference)[0], None
    if files[b"r"] is None:
        files[b"r"] = text_for(rng, directory)
    elif rng.random() < 0.5:
        due = print_due(reading)
    else:
        files[b"r"] = random_replies.changed(rng, files[b"r"])
    if rng.random() < 0.03:
        files[b"r"] = rng.choice([files[b"t"], text_for(rng, directory)])
        due = None
    return Input([b"match", b"m", b"t", b"r"], files, b"", due)


def guided_input(rng, examples):
    """A text that is checked by a guide, most of which are lawful."""
    files, directory = some_directory(rng, examples)
    files[b"g"] = random_guides.guide(rng, directory)
    files[b"t"] = text_for(rng, directory)
    for _ in range(rng.choice([1, 2]) if rng.slips(0.1) else 0):
        files[b"g"] = rng.choice([changed_lines, changed_words, changed_octets])(rng, files[b"g"])
    if rng.random() < 0.02:
        del files[rng.choice([b"g", b"t", b"m"])]
    return Input([b"guide", b"m", b"g", b"t"], files, b"")


def limits_input(rng, examples):
    files, directory = some_directory(rng, examples)
    files[b"t"] = random_texts.near_limits(rng, directory)
    return Input([b"contrl", b"m", b"t"] + stamp_words(rng), files, b"")


def table_input(rng, examples):
    files, _directory = some_directory(rng, examples)
    return Input([rng.choice([b"tables", b"tables", b"compile"]), b"m"], files, b"")


def broken_files_input(rng, examples):
    """A directory one of whose files is changed in few places, by lines or by octets."""
    if rng.random() < 0.6:
        files = random_directories.files_of(rng, random_directories.Parts(rng), rng.choice([0.01, 0.03, 0.08]))
    else:
        files, _directory = some_directory(rng, examples)
    name = rng.choice(sorted(files))
    for _ in range(rng.choice([0, 1, 1, 2])):
        files[name] = rng.choice([changed_lines, changed_lines, changed_words, changed_numbers,
                                  changed_octets])(rng, files[name])
    if rng.random() < 0.05:
        del files[rng.choice(sorted(files))]
    return Input([rng.choice([b"tables", b"compile"]), b"m"], files, b"")


def item_lines_input(rng, _examples):
    """A directory whose segment file is changed, for the most part at what may be numbers of repetitions."""
    parts = random_directories.Parts(rng)
    files = random_directories.files_of(rng, parts)
    files[b"ed/s"] = random_directories.Files(rng, rng.choice([0, 0.02, 0.05])).segments(parts)
    for _ in range(rng.choice([0, 1, 1, 2])):
        # A composite file has no such numbers.
        name = rng.choice([b"ed/s"] * 5 + [b"ed/p"])
        files[name] = changed_numbers(rng, files[name])
    return Input([rng.choice([b"tables", b"compile", b"compile"]), b"m"], files, b"")


def broken_parts_input(rng, _examples):
    """A directory whose definitions don't fit together, or one of whose tables breaks a rule."""
    parts = random_directories.Parts(rng)
    for _ in range(rng.choice([1, 1, 2])):
        random_directories.spoil(rng, parts)
    files = random_directories.files_of(rng, parts)
    if rng.random() < 0.1:
        lines = files[b"m"].split(b"\n")
        files[b"m"] = b"\n".join(sorted(lines[:-1] + [rng.choice(lines[1:-1])], key=lines.index)) + b"\n"
    return Input([rng.choice([b"tables", b"compile"]), b"m"], files, b"")


def changed_lines(rng, octets):
    """A line taken away, there twice, moved, or indented otherwise."""
    lines = octets.split(b"\n")
    place = rng.randrange(len(lines))
    line = lines.pop(place)
    new = rng.choice([[], [line, line], [line], [b"  " + line], [line.lstrip(b" ")], [b"X " + line],
                      [line, b"-" * 12]])
    place = place if rng.random() < 0.6 else rng.randrange(len(lines) + 1)
    lines[place:place] = new
    return b"\n".join(lines)


def changed_words(rng, octets):
    """A word of a line taken away, changed, there twice, or put in the place of another."""
    lines = octets.split(b"\n")
    place = rng.randrange(len(lines))
    words = lines[place].split(b" ")
    k = rng.randrange(len(words))
    other = rng.choice(random_directories.ODD_WORDS + [rng.choice(words)])
    words[k:k + 1] = rng.choice([[], [other], [other], [words[k], other], [other, words[k]]])
    lines[place] = b" ".join(words)
    return b"\n".join(lines)


def changed_numbers(rng, octets):
    """Numbers put after the status of a line, beside the next word or in its place; or that word taken away."""
    lines = octets.split(b"\n")
    with_status = [k for k, line in enumerate(lines) if {b"M", b"C"} & set(line.split(b" "))]
    place = rng.choice(with_status or [0])
    words = lines[place].split(b" ")
    after = 1 + max((k for k, word in enumerate(words) if word in (b"M", b"C")), default=0)
    while after < len(words) and not words[after]:
        after += 1
    number = rng.choice(random_directories.NUMBERS)
    words[after:after + rng.choice([0, 1])] = rng.choice([[number]] * 4 + [[number, number], []])
    lines[place] = b" ".join(words)
    return b"\n".join(lines)


def changed_octets(rng, octets):
    place = rng.randint(0, len(octets))
    return octets[:place] + rng.choice([b"", b" ", b"\n", b"\r", b"\t", b"+", b"0", b"9", b"M", b"-"]) \
        + octets[place + rng.choice([0, 1, 1]):]


def store_input(rng, examples):
    """A store, old or new, and a text that is checked by it; now and then the store is changed."""
    _files, directory = some_directory(rng, examples)
    store = spelling_of(spoiled(rng, directory) if rng.random() < 0.4 else directory, rng.choice([1, 2, 2]))
    for _ in range(rng.choice([0, 0, 1, 1, 2])):
        store = rng.choice([changed_lines, changed_words, changed_numbers, changed_numbers, changed_first_line,
                            changed_octets, changed_octets])(rng, store)
    text = text_for(rng, directory)
    words = rng.choice([[b"check", b"s", b"t"], [b"tables", b"s"], [b"compile", b"s"]])
    return Input(words, {b"s": store, b"t": text}, b"")


def changed_first_line(rng, octets):
    """The first line of another version, of none, or one that isn't quite a first line."""
    rest = octets[octets.find(b"\n"):]
    return rng.choice([b"EDIDIR1", b"EDIDIR1", b"EDIDIR2", b"EDIDIR2", b"EDIDIR3", b"EDIDIR", b"EDIDIR1\r",
                       b"EDIDIR2\r", b"EDIDIR2 ", b" EDIDIR2", b"edidir2", b"\nEDIDIR2"]) + rest


def spoiled(rng, directory):
    """A directory as none can be: its definitions, one of which is changed."""
    parts = random_directories.Parts(rng)
    parts.elements, parts.lists = dict(directory.elements), dict(directory.lists)
    parts.composites, parts.segments = dict(directory.composites), dict(directory.segments)
    parts.messages = {name: list(rows) for name, rows in directory.messages.items()}
    if rng.random() < 0.3:
        random_directories.spoil_number(rng, parts.segments)
    else:
        random_directories.spoil(rng, parts)
    return Directory(directory.labels, parts.elements.items(), parts.lists.items(), parts.composites.items(),
                     parts.segments.items(), parts.messages.items())


def script_input(rng, examples):
    files, directory = some_directory(rng, examples)
    files[b"t"] = text_for(rng, directory)
    return Input([b"edit", b"m", b"t"], files, script(rng, files[b"t"]))


def session_input(rng, examples):
    files, directory = some_directory(rng, examples)
    files[b"t"] = text_for(rng, directory)
    return Input([b"session", b"m", b"t"], files, session(rng, files[b"t"]))


def drill_input(rng, _examples):
    return Input([b"drill", b"%d" % rng.randint(1, 4), b"%d" % rng.randint(0, 30), b"%d" % rng.randrange(1000000000)],
                 {}, b"")


def odd_words_input(rng, examples):
    """Words that are often of no form."""
    words = [rng.choice(WORDS) for _ in range(rng.choice([0, 1, 2, 3, 3, 4, 5, 6]))]
    return Input(words, {**examples, b"t": b"UNZ'"}, b"end\n")

