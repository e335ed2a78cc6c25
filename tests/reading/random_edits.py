"""Random edits of a text, aimed at what a reading by segments can get wrong: the service string advice, the version of the
syntax, line ends in front of segments, release characters, the text's end, terminators, many segments at once, and the
segments that open and close extents."""
from .random_texts import edit

OPEN_OR_CLOSE = [b"UNH", b"UNT", b"UNG", b"UNE", b"UNB", b"UNZ"]


def aimed_edit(rng, octets):
    """A place, how many octets are cut there, and what is put."""
    aim = rng.choice([edit, edit, in_the_advice, in_the_version, at_line_ends, at_a_release, at_the_end, at_a_terminator,
                      over_segments, at_an_extent, of_one_octet])
    return aim(rng, octets)


def terminator_of(octets):
    """The terminator that the advice names, if the text begins with one, or the usual one."""
    return octets[8:9] if octets[:3] == b"UNA" and len(octets) > 8 else b"'"


def release_of(octets):
    return octets[6:7] if octets[:3] == b"UNA" and len(octets) > 8 else b"?"


def some_place(rng, octets, part):
    """A place where a part is, from any place on, or else from the start on; the text's end, where it is nowhere."""
    place = octets.find(part, rng.randint(0, len(octets)))
    place = octets.find(part) if place < 0 else place
    return len(octets) if place < 0 else place


def in_the_advice(rng, octets):
    """An advice put in front, one taken away, or an octet in its place changed."""
    roll = rng.random()
    if roll < 0.3:
        return 0, 0, rng.choice([b"UNA:+.? '", b"UNA:+.? '\n", b"UNA;+.? '", b"UNA:+.* '", b"UNA:+.? ~",
                                 b"UNA:+.?*'", b"UNA:+*? '", b"UNA:+.?:'", b"UNA"])
    if roll < 0.5:
        return 0, min(9, len(octets)), b""
    at = min(rng.randint(0, 9), len(octets))
    return at, min(rng.choice([0, 1, 1]), len(octets) - at), rng.choice([b"", b"'", b"?", b" ", b"+", b":", b"\n", b"~",
                                                                                  b"*"])


def in_the_version(rng, octets):
    """The version of the syntax, or the octet before or after it, in place of another."""
    at = min(some_place(rng, octets[:60], b"UNO") + rng.choice([5, 5, 5, 4, 6]), len(octets))
    return at, min(1, len(octets) - at), rng.choice([b"3", b"4", b"4", b"5", b"*", b":", b"4*"])


def at_line_ends(rng, octets):
    """Line ends put in front of a segment, or taken away there."""
    at = min(some_place(rng, octets, terminator_of(octets)) + 1, len(octets))
    if rng.random() < 0.5:
        return at, 0, rng.choice([b"\r\n", b"\n", b"\r", b"\n\n", b" \n"])
    cut = len(octets[at:]) - len(octets[at:].lstrip(b"\r\n"))
    return at, rng.randint(0, cut), b""


def at_a_release(rng, octets):
    """A release character taken away, put in front of one, or in front of a terminator or a separator."""
    release = release_of(octets)
    if rng.random() < 0.5:
        at = some_place(rng, octets, release)
        return at, min(rng.choice([0, 1, 1]), len(octets) - at), rng.choice([b"", release, b"x"])
    at = some_place(rng, octets, rng.choice([terminator_of(octets), b"+", b":"]))
    return at, 0, release * rng.choice([1, 1, 2, 3])


def at_the_end(rng, octets):
    """Octets at the end, or the last ones taken away."""
    cut = min(rng.choice([0, 0, 0, 1, 2, 10]), len(octets))
    put = rng.choice([b"", b"X", terminator_of(octets), b"\n", b"UNZ+1+R1'", b"UNT+1+1'UNZ+1+R1'", release_of(octets)])
    return len(octets) - cut, cut, put


def at_a_terminator(rng, octets):
    """Two segments joined, or one split."""
    terminator = terminator_of(octets)
    if rng.random() < 0.5:
        at = some_place(rng, octets, terminator)
        return at, min(1, len(octets) - at), rng.choice([b"", b"", b"+", terminator * 2])
    return rng.randint(0, len(octets)), 0, terminator * rng.choice([1, 1, 2])


def over_segments(rng, octets):
    """Many segments taken away, put twice, or put in place of others."""
    ends = [0] + [k + 1 for k in range(len(octets)) if octets[k:k + 1] == terminator_of(octets)]
    first, last = sorted(rng.choice(ends) for _ in range(2))
    if rng.random() < 0.5:
        return first, last - first, b""
    low, high = sorted(rng.choice(ends) for _ in range(2))
    at = rng.choice(ends)
    return at, rng.choice([0, 0, min(last - first, len(octets) - at)]), octets[low:high][:400]


def at_an_extent(rng, octets):
    """A segment that opens or closes an extent taken away, put in, or given another tag."""
    tag, terminator = rng.choice(OPEN_OR_CLOSE), terminator_of(octets)
    at = some_place(rng, octets, tag)
    if rng.random() < 0.4:
        end = octets.find(terminator, at) + 1
        return at, max(0, end - at), b""
    if rng.random() < 0.5:
        return at, min(3, len(octets) - at), rng.choice(OPEN_OR_CLOSE + [b"BGM", b"LIN"])
    at = min(some_place(rng, octets, terminator) + 1, len(octets))
    put = rng.choice([tag + terminator, b"UNH+9+TSTORD:D:96A:UN" + terminator, b"UNT+3+9" + terminator])
    return at, 0, put


def of_one_octet(rng, octets):
    """A letter or a digit in place of one octet, put in, or an octet taken away: a tag changes, or a value."""
    at = rng.randint(0, len(octets))
    return at, min(rng.choice([0, 1, 1]), len(octets) - at), rng.choice([b"", b"7", b"N", b"U"])
