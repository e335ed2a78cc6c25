"""Random scripts: edits, questions, ways back to earlier texts, and where scripts break off."""
from .random_edits import aimed_edit
from .script import SESSION_LINES, Past, command_in, edited, moved
from .text import TEXT_LIMIT

BAD_LINES = [b"error\n", b"replace 0 00 0\n\n", b"replace 0 0 4194305\n", b"replace 0 0 1\nXY\n", b"\n", b"End\n",
             b"contrl 960106:080 C1\n", b"contrl 960106:0800 c1\n", b"contrl 960106:0800 C\r\n", b"end \n",
             b"contrl 960106:0800 ABCDEFGHIJ12345\n", b"replace 0 0\n", b"text text\n", b"\xff", b"errors\r\n",
             b"replace 10000000000000000000 0 0\n\n", b"replace -1 0 0\n\n", b"tree \n"]
BAD_SESSION_LINES = [b"batch 0\n", b"batch 17\n", b"batch 01\n", b"batch\n", b"batch 1 \n", b"batch 100\n", b"undo \n",
                     b"undo 1\n", b"redo\r\n", b"Redo\n", b"batch 1\nerrors\n", b"batch 2\nreplace 0 0 0\n\nundo\n",
                     b"batch 1\nbatch 1\nreplace 0 0 0\n\n", b"batch 2\nreplace 0 0 0\n\nend\n", b"batch 1\n\n",
                     b"batch 2\nreplace 0 0 1\nX\nreplace 0 0 1\nXY\n", b"batch 1\nreplace 0 0 4194305\n"]


def stamp_words(rng):
    return [b"%06d:%04d" % (rng.randrange(1000000), rng.randrange(10000)), rng.choice([b"C1", b"0", b"ABCDEFGH123456"])]


def script(rng, text):
    """Some 20 to 60 commands: edits, most of which are soon taken back, and questions. Some scripts break off."""
    commands, before = [], None
    for _ in range(rng.randint(20, 60)):
        if before is not None and rng.random() < 0.4:
            commands.append(way_back(text, before))
        else:
            commands.append(command(rng, text))
        if commands[-1].startswith(b"replace"):
            before, text = text, text_after(commands[-1], text)
    return ended(rng, commands, BAD_LINES)


def ended(rng, commands, bad_lines):
    """These commands and an end; but now and then there is a bad line, or the script is cut off."""
    commands.append(b"end\n" + rng.choice([b"", b"errors\n"]))
    if rng.random() < 0.25:
        commands[rng.randrange(len(commands))] = rng.choice(bad_lines)
    octets = b"".join(commands)
    if rng.random() < 0.1:
        line = rng.choice(bad_lines)
        return b"".join(commands[:rng.randrange(len(commands))]) + line[:rng.randint(1, len(line))]
    return octets[:rng.randint(0, len(octets))] if rng.random() < 0.1 else octets


def way_back(text, before):
    """The edit that makes the text what it was: what is between the octets that both begin and end with."""
    front = next((k for k in range(min(len(text), len(before))) if text[k] != before[k]), min(len(text), len(before)))
    back = 0
    while back < min(len(text), len(before)) - front and text[len(text) - 1 - back] == before[len(before) - 1 - back]:
        back += 1
    put = before[front:len(before) - back]
    return b"replace %d %d %d\n%s\n" % (front, len(text) - back - front, len(put), put)


def text_after(line, text):
    """The text that an edit leaves, if it is inside."""
    head, data = line.split(b"\n", 1)
    at, cut, _size = (int(word) for word in head.split(b" ")[1:])
    left = text[:at] + data[:-1] + text[at + cut:]
    return left if at + cut <= len(text) and len(left) <= TEXT_LIMIT else text


def command(rng, text):
    roll = rng.random()
    if roll < 0.55:
        at, cut, put = aimed_edit(rng, text)
        return b"replace %d %d %d\n%s\n" % (at, cut, len(put), put)
    if roll < 0.6:
        at, cut = rng.choice([(len(text), 1), (len(text) + 1, 0), (0, len(text) + 1), (9999999999999999999, 1),
                              (9999999999999999999, 9999999999999999999), (0, 0)])
        return b"replace %d %d 1\n'\n" % (at, cut)
    if roll < 0.602:
        # One octet more than a text may have.
        size = TEXT_LIMIT - len(text) + 1
        return b"replace %d 0 %d\n%s\n" % (rng.randint(0, len(text)), size, b" " * size)
    if roll < 0.62:
        return b"text\n"
    if roll < 0.72:
        return b"contrl %s %s\n" % tuple(stamp_words(rng))
    return rng.choice([b"errors\n", b"tree\n"])


def session(rng, text):
    """A script with batches and ways in the history, which now and then is longer than what is kept of it."""
    commands, past = [], Past([], text, [])
    for _ in range(rng.randint(10, 40)):
        roll = rng.random()
        if roll < 0.02:
            new = [short_edit(rng, past.text)] * rng.randint(90, 120) + [b"undo\n"] * rng.randint(90, 120)
        elif roll < 0.25:
            new = [b"undo\n"] * rng.choice([1, 1, 1, 2, 3, 6])
        elif roll < 0.45:
            new = [b"redo\n"] * rng.choice([1, 1, 1, 2, 3, 6])
        elif roll < 0.6:
            new = [batch(rng, past.text)]
        elif past.before and roll < 0.65:
            new = [way_back(past.text, rng.choice(past.before))]
        else:
            new = [command(rng, past.text)]
        for octets in new:
            past = past_after(past, octets)
        commands += new
    return ended(rng, commands, BAD_LINES + BAD_SESSION_LINES)


def past_after(past, octets):
    """The history after a command, if these octets are one."""
    made, _rest = command_in(octets, SESSION_LINES)
    if made is None:
        return past
    if made.edits:
        return edited(past, made)[1]
    return moved(past, made.line)[1] if made.line in (b"undo\n", b"redo\n") else past


def short_edit(rng, text):
    """An edit that can be made again and again."""
    return b"replace %d 0 1\n%c\n" % (rng.randint(0, len(text)), rng.choice(b"X?'+1"))


def batch(rng, text):
    """Edits of the texts that those before them leave, one of which may be refused."""
    count = rng.choice([1, 1, 2, 2, 2, 3, 4, 8, 16])
    edits = []
    for _ in range(count):
        at, cut, put = aimed_edit(rng, text)
        if rng.random() < 0.3 / count:
            at, cut = rng.choice([(len(text) + 1, 0), (len(text), 1), (0, len(text) + 1), (9999999999999999999, 0)])
        if rng.random() < 0.002:
            cut, put = 0, b" " * (TEXT_LIMIT - len(text) + 1)
        edits.append(b"replace %d %d %d\n%s\n" % (at, cut, len(put), put))
        text = text_after(edits[-1], text)
    return b"batch %d\n" % count + b"".join(edits)
