"""Random replies to a text: its own acknowledgement, that with few changes, and others."""
from .random_texts import DEFAULT, characters, segment_octets
from .text import elements_of, segments_of, service_of

POSITIONS = [b"0", b"1", b"2", b"3", b"5", b"004", b"-1", b"1.0", b"999999", b"40"]
PLACES = [[b"1"], [b"0"], [b"2"], [b"2", b"1"], [b"002", b"03"], [b"2", b"0"], [b"3", b"-1"], [b"9"]]
REFERENCES = [b"1", b"2", b"3", b"01", b"G1", b"G2", b"R1", b"X"]


def elements_in(octets):
    """The elements of each segment of a reply, which has no repetitions."""
    service = service_of(octets)
    return [[repetitions[0] for repetitions in elements_of(segment.octets, service)] for segment in segments_of(octets)]


def put(elements, number, values):
    """The elements with one of them put, filled up with empty ones."""
    elements = elements + [[b""] for _ in range(number + 1 - len(elements))]
    return elements[:number] + [values] + elements[number + 1:]


def changed_segment(rng, elements):
    """A segment of an acknowledgement with one of its elements changed."""
    tag = elements[0][0]
    if tag == b"UCS":
        return put(elements, *rng.choice([(1, [rng.choice(POSITIONS)]), (2, [rng.choice([b"13", b""])])]))
    if tag == b"UCD":
        return put(elements, 2, rng.choice(PLACES))
    if tag in (b"UCM", b"UCF"):
        first = 4 if tag == b"UCM" else 5
        return put(elements, *rng.choice([(1, [rng.choice(REFERENCES)]), (first, [rng.choice([b"", b"29", b"A"])]),
                                          (first + 1, [rng.choice([b"", b"UNT"])]), (first + 2, rng.choice(PLACES))]))
    if tag == b"UCI":
        return put(elements, *rng.choice([(rng.choice([1, 2, 3]), [rng.choice(REFERENCES)]), (5, [b""]), (5, [b"28"]),
                                          (6, [b"UNZ"]), (7, rng.choice(PLACES))]))
    return put(elements, rng.randint(1, 3), [rng.choice(REFERENCES)])


def changed(rng, reply):
    """A reply with few of its segments changed, taken away, moved or there twice, and its count put right for the most."""
    segments = elements_in(reply)
    for _ in range(rng.choice([1, 1, 2, 3])):
        inside = range(2, len(segments) - 2)
        place = rng.choice(inside) if len(inside) > 0 and rng.random() < 0.95 else rng.randrange(len(segments))
        segment = segments[place]
        segments[place:place + 1] = rng.choice([[changed_segment(rng, segment)]] * 12
                                               + [[], [segment, segment], [segment, [[b"UCS"], [b"2"], [b"13"]]]])
    if rng.random() < 0.95 and len(segments) > 3 and segments[-2][0] == [b"UNT"]:
        segments[-2] = put(segments[-2], 1, [b"%d" % (len(segments) - 2)])
    used = characters(rng) if rng.random() < 0.1 else DEFAULT
    octets = b"".join(segment_octets(segment, used) for segment in segments)
    return octets if used == DEFAULT else b"UNA" + used + octets
