#!/bin/sh
# Makes hostile texts, scripts and directories, and prints the processor time and peak memory of the program on each.
# usage: bench/hostile.sh [CASE..]   (the program is built first, if need be; with `program` set, that one is measured)
# The cases are those of the last lines of this file.
# A peak below some 60 MiB may be that of the Python that starts the run. These variables may be set:
#   spread     edits spread over a text of 4 MiB (100,000)
#   released   edits at the release characters of two texts that have little else (100,000)
#   pieces     edits that each add a piece (40,000)
#   limit      a run that takes more seconds of the processor is ended (600)
#   memory     a run that asks for more MiB is refused them, and ends with status 8 (4,096)
set -eu
top=$(cd "$(dirname "$0")/.." && pwd)
given=${program:-}
. "$top/tests/build.sh"
if [ -n "$given" ]; then
    program=$given
else
    need_program || exit 1
fi
work=$(mktemp -d)
trap 'rm -rf "$work"' EXIT
cp "$top"/examples/directory/* "$work"
python3 "$top/bench/orders.py" 0 >"$work/usual"
cat >"$work/hostile.py" <<'P'
import itertools, os, resource, string, subprocess, sys

program, folder = map(os.path.abspath, sys.argv[1:3])
spread, released, pieces, limit, memory = map(int, sys.argv[3:8])
chosen = sys.argv[8:]
MOST = 4194304
OPENING = b"UNB+UNOA:3+BUYER:14+SELLER:14+960105:0930+R1'"
CLOSING = b"UNZ+1+R1'"
ORDER = OPENING + b"UNH+1+TSTORD:D:96A:UN'BGM+220+PO7+9'DTM+137:19960105:102'UNS+S'UNT+5+1'" + CLOSING
RULE = b"-" * 70 + b"\n"


def write(name, octets):
    with open(f"{folder}/{name}", "wb") as file:
        file.write(octets)


def set_limits():
    resource.setrlimit(resource.RLIMIT_CPU, (limit, limit))
    resource.setrlimit(resource.RLIMIT_AS, (memory << 20, memory << 20))


def measure(case, *words, given=b""):
    """Runs the program on these words and this input, and prints what it took and how its output begins."""
    write("given", given)
    with open(f"{folder}/given", "rb") as file:
        child = subprocess.Popen([program, *words], cwd=folder, stdin=file, stdout=subprocess.PIPE,
                                 preexec_fn=set_limits)
    first, size = b"", 0
    while part := child.stdout.read(1 << 20):
        size += len(part)
        first = first or part[:60]
    _, status, used = os.wait4(child.pid, 0)
    code = child.returncode = os.waitstatus_to_exitcode(status)
    ended = f"status {code}" if code >= 0 else "was ended"
    time, peak = used.ru_utime + used.ru_stime, used.ru_maxrss // 1024
    line = first.split(b"\n", 1)[0].decode("latin-1")
    print(f"{case:16} {words[0]:8} {time:8.2f} s {peak:6} MiB  {ended:9} {size:11} octets  {line}", flush=True)


def measure_text(case, text, *commands):
    """The commands on a text: `values` has it on the input, the others have it in a file."""
    write("t", text)
    for command in commands:
        if command == "values":
            measure(case, command, given=text)
        else:
            measure(case, command, "m", "t", *(["960106:0800", "C1"] if command == "contrl" else []))


def terminators():
    measure_text("terminators", b"'" * MOST, "values", "check", "contrl")


def separators():
    measure_text("elements", b"LIN" + b"+" * (MOST - 4) + b"'", "values", "check")
    measure_text("components", b"LIN+" + b":" * (MOST - 5) + b"'", "values", "check")
    measure_text("filled elements", b"LIN" + b"+A" * ((MOST - 4) // 2) + b"'", "values", "check")


def releases():
    measure_text("releases", b"?" * (MOST - 2) + b"'", "values", "check")
    measure_text("releases, LIN", b"LIN+" + b"?" * (MOST - 6) + b"'", "values", "check")


def breaks():
    measure_text("line breaks", b"\n" * (MOST - 1) + b"'", "values", "check")
    measure_text("breaks, ends", b"\n'" * (MOST // 2), "values", "check")


def enclose(octets):
    """An interchange of these octets, as often as they fit, with their number at its end."""
    count = (MOST - len(OPENING) - 20) // len(octets)
    return OPENING + octets * count + b"UNZ+%d+R1'" % count


def groups():
    measure_text("groups", enclose(b"UNG'"), "check", "contrl")
    measure_text("closed groups", enclose(b"UNG'UNE'"), "check", "contrl")


def messages():
    measure_text("messages", enclose(b"UNH''UNT'"), "check", "contrl")
    measure_text("tabled messages", enclose(b"UNH+1+TSTORD:D:96A:UN'UNS'UNT'"), "check", "contrl")


def row(position, name, status, most, tail=""):
    return f"{position:04} {name:<30} {status} {most:<6} {tail}".rstrip().encode() + b"\n"


def message(name, rows):
    """A message file. A row is a tag or a group, its status, its greatest count and its drawing."""
    lines = [row(position, *parts) for position, parts in enumerate([("UNH x", "M", 1), *rows, ("UNT x", "M", 1)], 1)]
    return b"Message Type : " + name + b"\n" + b"".join(lines)


def add_message(manifest, file, octets):
    """A manifest of the example's directory and one message more."""
    write(file, octets)
    with open(f"{folder}/m", "rb") as example:
        write(manifest, example.read() + b"message " + file.encode() + b"\n")


def deep():
    rows = []
    for depth in range(16):
        rows.append((f"---- Segment group {depth + 1} ----", "C", 999999, "-+"))
        rows.append(("LIN x", "M", 1, "-" + "+" * 16 if depth == 15 else ""))
    add_message("m16", "t16", message(b"TSTDPT", rows))
    text = OPENING + b"UNH+1+TSTDPT:D:96A:UN'" + b"LIN+1'" * 299998 + b"UNT+300000+1'" + CLOSING
    write("t", text)
    measure("depth 16", "check", "m16", "t")
    write("t", text.replace(b"LIN+1'", b"AAA+1'").replace(b"AAA+1'", b"LIN+1'", 16))
    measure("depth 16, absent", "check", "m16", "t")


def place(number, length):
    """A place in so many octets: those of following numbers are far from each other."""
    return number * 2654435761 % length


def usual():
    with open(f"{folder}/usual", "rb") as file:
        return file.read()


def edits():
    text = usual()
    script = b"".join(b"replace %d 1 1\nA\n" % place(number, len(text)) for number in range(spread))
    measure("spread edits", "edit", "m", "usual", given=script + b"end\n")
    # Each of these edits changes how many release characters there are before a terminator.
    both = b"replace %d 0 1\n?\nreplace %d 1 0\n\n"
    one, short = b"?" * (MOST - 4) + b"'", (b"?" * 62 + b"'") * (MOST // 64)
    for case, text in (("one segment", one), ("short segments", short)):
        write("t", text)
        script = b"".join(both % (2 * (place(number, len(text)),)) for number in range(released // 2))
        measure(case, "edit", "m", "t", given=script + b"end\n")


def added():
    text = usual()[:3145728]
    write("t", text)
    script = b"".join(b"replace %d 0 1\nA\n" % place(number, len(text)) for number in range(pieces))
    measure("added pieces", "edit", "m", "t", given=script + b"end\n")


def errors():
    write("t", ORDER)
    measure("errors", "edit", "m", "t", given=b"errors\n" * (MOST // 7) + b"end\n")


def rows():
    add_message("m2000", "t2000", message(b"TSTLNG", [("DTM x", "C", 1)] * 1998))
    measure("2000 rows", "tables", "m2000")
    opening = OPENING + b"UNH+1+TSTLNG:D:96A:UN'"
    for case, segment in (("2000 rows", b"DTM'"), ("2000 rows, absent", b"AAA'")):
        write("t", opening + segment * 1000000 + b"UNT+1000002+1'" + CLOSING)
        measure(case, "check", "m2000", "t")


def missing():
    """A group with 1,996 segments that must be there, and a text that has its trigger alone, over and over."""
    rows = [("---- Segment group 1 ----", "C", 999999, "-+"), ("LIN x", "M", 1)] + [("BGM x", "M", 1)] * 1995
    add_message("mmissing", "tmissing", message(b"TSTMIS", [*rows, ("BGM x", "M", 1, "-+")]))
    for case, count in (("missing, 1000", 1000), ("missing, 10000", 10000), ("missing, most", 1000000)):
        write("t", OPENING + b"UNH+1+TSTMIS:D:96A:UN'" + b"LIN'" * count + b"UNT+%d+1'" % (count + 2) + CLOSING)
        measure(case, "check", "mmissing", "t")


def collisions():
    """Tables with the most collisions: after segments that must be there, optional ones, each twice."""
    letters = "ABCDEFGHIJKLMNOPQRST"
    tags = ["".join(tag) for tag in itertools.product(letters, repeat=3)][:666]
    write("segments", b"".join(RULE + b" %s x\n\n010 1001 x C an..3\n" % tag.encode() for tag in tags))
    write("elements", RULE + b"  1001  x\n  Repr: an..3\n")
    for case, must, twice in (("few in front", 0, 333), ("many in front", 666, 333), ("most collisions", 666, 666)):
        rows = [(f"{tags[0]} x", "M", 1)] * must + [(f"{tag} x", "C", 1) for tag in tags[:twice]] * 2
        write("message", message(b"TSTMST", rows))
        write("mmost", b"directory D 96A UN\nelements elements\nsegments segments\nmessage message\n")
        measure(case, "compile", "mmost")
        measure(case, "tables", "mmost")


def codes():
    letters = "0123456789ABCDEFGHIJKLMNOPQRSTUVWXYZ"
    drawn = ["".join(code).encode() for code in itertools.islice(itertools.product(letters, repeat=4), 300000)]
    drawn = [drawn[place(number, 300000)] for number in range(300000)]
    write("codes", RULE + b"  1001  x\n" + b"".join(b"     " + code + b" x\n" for code in drawn))
    write("elements", RULE + b"  1001  x\n  Repr: an..4\n")
    write("segments", RULE + b"  BGM  x\n\n010 1001 x C an..4\n")
    write("message", message(b"TSTCOD", [("BGM x", "C", 999999)]))
    write("mcodes", b"directory D 96A UN\nelements elements\ncodes codes\nsegments segments\nmessage message\n")
    measure("codes", "compile", "mcodes")
    body = b"".join(b"BGM+" + code + b"'" for code in drawn)
    write("t", OPENING + b"UNH+1+TSTCOD:D:96A:UN'" + body + b"UNT+300002+1'" + CLOSING)
    measure("codes", "check", "mcodes", "t")


def codes_of_one_place(bits):
    """Codes that the kit's hash tables look for at one place: so many last bits of their hashes are 0."""
    letters = [(letter, ord(letter) * 0x10101) for letter in string.ascii_letters + string.digits]
    full, multiplier, last = (1 << 64) - 1, 0x9E3779B97F4A7C15, (1 << bits) - 1

    def after(state, octets, length):
        product = (state ^ octets) * (multiplier ^ 2 * length)
        return (product ^ product >> 64) & full

    for front in itertools.product(letters, repeat=4):
        state = after(0x243F6A8885A308D3, 5, 8)
        for _, octets in front:
            state = after(state, octets, 1)
        for letter, octets in letters:
            end = after(state, octets, 1)
            if not (end ^ end >> 32) & last:
                yield "".join(before for before, _ in front) + letter


def alike():
    """Two code lists of codes of one place. One is twice as long as the other, and takes some twice its time."""
    drawn = list(itertools.islice(codes_of_one_place(11), 18000))
    for count in (9000, 18000):
        entries = "".join(f"     {code} x\n" for code in drawn[:count])
        write("codes", RULE + b"  1001  x\n" + entries.encode())
        write("elements", RULE + b"  1001  x\n  Repr: an..5\n")
        write("malike", b"directory D 96A UN\nelements elements\ncodes codes\n")
        measure(f"{count} alike", "tables", "malike")


def files():
    write("blank", b"\n" * MOST)
    write("mblank", b"directory D 96A UN\n" + b"elements blank\n" * 400)
    measure("400 blank files", "tables", "mblank")
    table = [("BGM x", "M", 1), ("DTM x", "C", 1), ("DTM x", "C", 1)] * 666
    with open(f"{folder}/m", "rb") as example:
        manifest = b"".join(line for line in example.readlines() if not line.startswith(b"message"))
    for number in range(390):
        write(f"table{number}", message(b"TST%03d" % number, table))
        manifest += b"message table%d\n" % number
    write("mtables", manifest)
    measure("390 tables", "compile", "mtables")
    measure("390 tables", "tables", "mtables")


for make in (terminators, separators, releases, breaks, groups, messages, deep, edits, added, errors, rows, missing,
             collisions, codes, alike, files):
    if not chosen or make.__name__ in chosen:
        make()
P
python3 "$work/hostile.py" "$program" "$work" "${spread:-100000}" "${released:-100000}" "${pieces:-40000}" \
    "${limit:-600}" "${memory:-4096}" "$@"
