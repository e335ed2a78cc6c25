#!/bin/sh
# Makes two directories and prints time and peak memory of `tables` on them, from their files and from their stores: one of
# a usual size, and one whose segment table is as long as can be, with one tag on every row but the first and the last.
# usage: bench/tables.sh   (the program is built first, if need be)
set -eu
top=$(cd "$(dirname "$0")/.." && pwd)
. "$top/tests/build.sh"
need_program || exit 1
work=$(mktemp -d)
trap 'rm -rf "$work"' EXIT
python3 - "$work" <<'P'
import random, sys

folder = sys.argv[1]
drawn = random.Random(1996)
RULE = "-" * 70 + "\n"
ELEMENTS, COMPOSITES, SEGMENTS, MESSAGES, ROWS = 700, 150, 130, 200, 60


def write(name, text):
    with open(f"{folder}/{name}", "w", newline="\n") as file:
        file.write(text)


def element_entry(code, shape):
    return f"{RULE}     {code}  Name of an element\n\n     Desc: What it is for.\n\n     Repr: {shape}\n"


def list_entry(code):
    values = "".join(f"     {value:<5} Name of a code\n              What it is for.\n" for value in range(1, 41))
    return f"{RULE}  {code}  Name of an element\n\n{values}"


def part_line(front, code, status, shape):
    return f"{front:<7}{code}   Name of an element                      {status}  {shape}\n"


def composite_entry(code, parts, shapes):
    lines = [part_line(f"{10 * place:03}", part, status, shapes[part]) for place, (part, status) in enumerate(parts, 1)]
    return f"{RULE}       {code} NAME OF A COMPOSITE\n\n       Desc: What it is for.\n\n" + "".join(lines)


def segment_entry(tag, composites, shapes):
    """A segment of 3 to 9 items, about half of them composites whose parts are repeated."""
    lines = []
    for place in range(1, drawn.randint(4, 10)):
        position = f"{10 * place:03}"
        if drawn.random() < 0.5:
            code = drawn.choice(sorted(shapes))
            lines.append(part_line(position, code, drawn.choice("MC"), shapes[code]))
        else:
            code = drawn.choice(sorted(composites))
            lines.append(f"{position:<7}{code}   NAME OF A COMPOSITE                     C\n")
            lines += [part_line("", part, status, shapes[part]) for part, status in composites[code]]
    return f"{RULE}       {tag}  NAME OF A SEGMENT\n\n       Function: What it is for.\n\n" + "".join(lines)


def row(position, name, status, most, tail=""):
    return f"{position:04} {name:<30} {status} {most:<4} {tail:>8}".rstrip() + "\n"


def segment_row(position, tag, status, most, tail=""):
    return row(position, f"{tag} Name of a segment", status, most, tail)


def group_row(position, number, most, depth):
    return row(position, f"---- Segment group {number} ----", "C", most, "-+" + "|" * depth)


def drawn_rows(tags):
    """The rows of a table: groups of up to four levels, each with its trigger."""
    rows, depth, groups = [segment_row(10, "UNH", "M", 1)], 0, 0
    while len(rows) < ROWS - 2:
        position = 10 * len(rows) + 10
        status, most = drawn.choice("MCCC"), drawn.choice([1, 1, 2, 9, 99])
        if depth < 4 and drawn.random() < 0.2:
            groups += 1
            rows.append(group_row(position, groups, drawn.choice([1, 5, 99, 9999]), depth))
            position, status, most = position + 10, "M", 1
            depth += 1
        ends = drawn.randint(1, depth) if depth > 0 and drawn.random() < 0.25 else 0
        if len(rows) >= ROWS - 3:
            ends = depth
        depth -= ends
        tail = ("-" + "+" * ends if ends > 0 else "") + "|" * depth
        rows.append(segment_row(position, drawn.choice(tags), status, most, tail))
    rows.append(segment_row(10 * len(rows) + 10, "UNT", "M", 1))
    return rows


def message(name, rows):
    return f"Message Type : {name}\n\nPos  Tag Name                       S R\n" + "".join(rows)


def drawn_shape():
    return drawn.choice(["a", "n", "an"]) + drawn.choice(["", "..", ".."]) + str(drawn.choice([1, 3, 17, 35, 70]))


def drawn_tags():
    """Different tags, none of them of a service segment: these begin with U."""
    letters = "ABCDEFGHIJKLMNOPQRST"
    return drawn.sample([a + b + c for a in letters for b in letters for c in letters], SEGMENTS)


def write_usual():
    shapes = {str(code): drawn_shape() for code in drawn.sample(range(1000, 9999), ELEMENTS)}
    composites = {f"C{number:03}": [(part, drawn.choice("MC")) for part in drawn.sample(sorted(shapes), drawn.randint(2, 8))]
                  for number in drawn.sample(range(1000), COMPOSITES)}
    tags = drawn_tags()
    write("usual.eded", "".join(element_entry(code, shapes[code]) for code in sorted(shapes)))
    write("usual.uncl", "".join(list_entry(code) for code in sorted(shapes)[::4]))
    write("usual.edcd", "".join(composite_entry(code, composites[code], shapes) for code in sorted(composites)))
    write("usual.edsd", "".join(segment_entry(tag, composites, shapes) for tag in sorted(tags)))
    lines = ["directory D 96A UN", "elements usual.eded", "codes usual.uncl", "composites usual.edcd", "segments usual.edsd"]
    for number in range(MESSAGES):
        write(f"usual.{number:03}", message(f"MSG{number:03}", drawn_rows(tags)))
        lines.append(f"message usual.{number:03}")
    write("usual", "\n".join(lines) + "\n")


def write_longest():
    dates = [segment_row(position, "DTM", "C", 1) for position in range(2, 2000)]
    rows = [segment_row(1, "UNH", "M", 1)] + dates + [segment_row(2000, "UNT", "M", 1)]
    write("longest.eded", element_entry("2380", "an..35"))
    write("longest.edsd", f"{RULE}       DTM  DATE\n\n" + part_line("010", "2380", "C", "an..35"))
    write("longest.table", message("DATING", rows))
    write("longest", "directory D 96A UN\nelements longest.eded\nsegments longest.edsd\nmessage longest.table\n")


write_usual()
write_longest()
P
for directory in usual longest; do
    (cd "$work" && "$program" compile "$directory" >"store.$directory")
done
for directory in usual store.usual longest store.longest; do
    python3 - "$program" "$work" "$directory" <<'P'
import glob, os, re, resource, subprocess, sys, time

program, folder, name = sys.argv[1:]
best = None
for _ in range(3):
    begin = time.monotonic()
    run = subprocess.run([program, "tables", name], cwd=folder, stdin=subprocess.DEVNULL, stdout=subprocess.PIPE)
    took = time.monotonic() - begin
    best = took if best is None else min(best, took)
peak = resource.getrusage(resource.RUSAGE_CHILDREN).ru_maxrss // 1024
if run.returncode != 0:
    sys.exit(f"{name}: status {run.returncode}, {run.stdout.decode()}")
out = run.stdout.decode()
size = sum(os.path.getsize(file) for file in glob.glob(f"{folder}/{name}*"))
tables = len(re.findall(r"^table ", out, re.M))
collisions = sum(int(count) for count in re.findall(r"^collisions (\d+)$", out, re.M))
print(f"{name:13} {best:6.3f} s {peak:5} MiB {size:8} octets of files {tables:4} tables {collisions:5} collisions")
P
done
