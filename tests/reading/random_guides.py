"""Random guides: for the most part lawful ones, and some with a fault of each kind."""
from .tables import is_group

ODD_NUMBERS = [b"00000000000000000001", b"-1", b"x", b"1.0", b"+1", b""]
ODD_LINES = [b"table", b"colour BGM", b"node 1 M 1 1", b"Table TSTORD", b"segment bgm", b"codes 100", b"composite S001", b"X",
             b"keep", b"node 1 M", b"item 1 M", b"item 1 drop", b"part 1 M 1", b"node\t1 M 1", b"keep 1 2",
             b"keep " + b"9" * 36, b"table TSTORD TSTCOL", b"segment UNB", b"table CONTRL", b"codes 9999",
             b"composite C999", b"segment ZZZ", b"table ZZZZZZ"]


def status_for(rng, mandatory):
    """A status that is no weaker, or now and then any."""
    strict = mandatory or rng.random() < 0.4
    return rng.choice([b"M", b"C", b"R"]) if rng.slips(0.03) else (b"M" if strict else b"C")


def number_for(rng, number):
    """A number, with leading zeros now and then, or seldom one that is none."""
    if rng.slips(0.01):
        return rng.choice(ODD_NUMBERS)
    return b"0" * rng.choice([0, 0, 0, 0, 1, 3]) + b"%d" % number


def count_for(rng, greatest):
    """A number from 1 to the greatest, or seldom one outside."""
    return rng.choice([0, greatest + 1]) if rng.slips(0.03) else rng.choice([greatest, rng.randint(1, greatest)])


def some_of(rng, numbers):
    """Some of these numbers in any order, seldom with one that is there twice or is none of them."""
    numbers = list(numbers)
    found = rng.sample(numbers, rng.randint(0, min(4, len(numbers))))
    if rng.slips(0.04):
        found.append(rng.choice(found or [numbers[-1] + 1]))
    return found + ([rng.choice([numbers[0] - 1, numbers[-1] + 1])] if rng.slips(0.03) else [])


def node_lines(rng, rows):
    lines = []
    for node in some_of(rng, range(len(rows))):
        row = rows[max(0, min(node, len(rows) - 1))]
        if not row.mandatory and rng.random() < (0.6 if is_group(rows, rows.index(row)) else 0.3) or rng.slips(0.02):
            lines.append(b"node %s drop" % number_for(rng, max(0, node)))
        else:
            lines.append(b"node %s %s %s" % (number_for(rng, max(0, node)), status_for(rng, row.mandatory),
                                             number_for(rng, count_for(rng, row.greatest))))
    return lines


def item_lines(rng, items):
    return [b"item %s %s %s" % (number_for(rng, number), status_for(rng, item.mandatory),
                                number_for(rng, count_for(rng, item.repetitions)))
            for number in some_of(rng, range(1, len(items) + 1))
            for item in [items[max(0, min(number, len(items)) - 1)]]]


def part_lines(rng, parts):
    return [b"part %s %s" % (number_for(rng, number), status_for(rng, parts[max(0, min(number, len(parts)) - 1)].mandatory))
            for number in some_of(rng, range(1, len(parts) + 1))]


def keep_lines(rng, values):
    """Values of a list, or any where there is no list."""
    known = list(values) if values is not None else [b"1", b"2", b"A" * 35, b"?", b"220"]
    kept = rng.sample(known, rng.randint(0, len(known)))
    kept += [rng.choice(kept or [b"1"])] if rng.slips(0.05) else []
    kept += [b"QQ"] if rng.slips(0.05) else []
    return [b"keep " + value for value in kept]


def sections(rng, directory):
    """Heads with their details."""
    found = [[b"table " + name] + node_lines(rng, rows) for name, rows in directory.messages.items()]
    found += [[b"segment " + tag] + item_lines(rng, items) for tag, items in directory.segments.items()]
    found += [[b"composite " + code] + part_lines(rng, parts) for code, parts in directory.composites.items()]
    found += [[b"codes " + code] + keep_lines(rng, directory.lists.get(code)) for code in directory.elements]
    found = rng.sample(found, rng.randint(0, min(8, len(found))))
    return found + ([rng.choice(found or [[b"X"]])] if rng.slips(0.05) else [])


def guide(rng, directory):
    """The octets of a guide."""
    lines = [line for section in sections(rng, directory) for line in section]
    if rng.slips(0.1):
        lines.insert(rng.randint(0, len(lines)), rng.choice(ODD_LINES))
    if lines and rng.slips(0.05):
        lines.insert(rng.randint(0, len(lines)), lines.pop(rng.randrange(len(lines))))
    lines = [spaced(rng, line) for line in lines]
    for _ in range(rng.choice([0, 0, 1, 2])):
        lines.insert(rng.randint(0, len(lines)), rng.choice([b"", b"", b"  "]))
    return rng.choice([b"\n", b"\n", b"\r\n"]).join(lines) + rng.choice([b"", b"\n"])


def spaced(rng, line):
    return rng.choice([line] * 9 + [b"  " + line, line.replace(b" ", b"   ") + b" "])
