#!/bin/sh
# Makes replies and guides, and prints time and peak memory of `match` and `guide` on them, beside those of `contrl` and `check`
# on the same texts.
# usage: bench/partners.sh   (the program is built first, if need be; with `program` set, that one is measured)
set -eu
top=$(cd "$(dirname "$0")/.." && pwd)
given=${program:-}
. "$top/tests/build.sh"
if [ -n "$given" ]; then
    program=$given
else
    need_program || exit 1
fi
work=$(mktemp -d)
trap 'rm -rf "$work"' EXIT
cp "$top"/examples/directory/* "$work"
python3 "$top/bench/orders.py" 0 >"$work/usual"
cat >"$work/partners.py" <<'P'
import resource, subprocess, sys, time

program, folder = sys.argv[1:]
MOST = 4194304
RULE = "-" * 70 + "\n"
OPENING = b"UNB+UNOA:3+BUYER:14+SELLER:14+960105:0930+R1'"
ANSWER = b"UNB+UNOA:3+SELLER:14+BUYER:14+960106:0800+C1'UNH+1+CONTRL:D:3:UN'UCI+R1+BUYER:14+SELLER:14+7'"


def write(name, octets):
    with open(f"{folder}/{name}", "wb") as file:
        file.write(octets if isinstance(octets, bytes) else octets.encode())


def measure(case, *words):
    """The least time of three runs, the peak memory of all runs so far, and how the output begins."""
    best = None
    for _ in range(3):
        begin = time.monotonic()
        out = subprocess.run([program, *words], cwd=folder, stdin=subprocess.DEVNULL, stdout=subprocess.PIPE).stdout
        took = time.monotonic() - begin
        best = took if best is None else min(best, took)
    peak = resource.getrusage(resource.RUSAGE_CHILDREN).ru_maxrss // 1024
    first = out.split(b"\n", 1)[0][:50].decode("latin-1")
    print(f"{case:28} {words[0]:7} {best:7.3f} s {peak:5} MiB {len(out):9} octets  {first}", flush=True)
    return out


def replies():
    """Messages of which each lacks BGM and DTM, as many as fit; their own acknowledgement; and messages named backwards."""
    body, count = [], 0
    size = len(OPENING) + 20
    while True:
        message = b"UNH+%d+TSTORD:D:96A:UN'UNS'UNT+3+%d'" % (count + 1, count + 1)
        if size + len(message) > MOST:
            break
        size, count = size + len(message), count + 1
        body.append(message)
    write("t", OPENING + b"".join(body) + b"UNZ+%d+R1'" % count)
    answer = measure(f"{count} broken messages", "contrl", "m", "t", "960106:0800", "C1")
    write("r", answer)
    measure("their own reply", "match", "m", "t", "r")
    named, size = [], len(ANSWER) + 40
    for number in range(count, 0, -1):
        segment = b"UCM+%d+TSTORD:D:96A:UN+4'" % number
        if size + len(segment) > MOST:
            break
        size += len(segment)
        named.append(segment)
    write("r", ANSWER + b"".join(named) + b"UNT+%d+1'UNZ+1+C1'" % (len(named) + 3))
    measure(f"{len(named)} UCM, backwards", "match", "m", "t", "r")


def head(code):
    return f"{RULE}     {code}  Name\n\n     Repr: an..8\n"


def guides():
    """A guide of the usual directory; one that keeps 100,000 values; and one with a head for each of 10,000 elements."""
    write("g", "table TSTORD\nnode 3 C 1\nsegment BGM\nitem 2 M 1\n")
    measure("usual orders", "check", "m", "usual")
    measure("the same by a guide", "guide", "m", "g", "usual")
    codes = [f"{10000000 + number * 2654435761 % 89999999}" for number in range(100000)]
    codes = list(dict.fromkeys(codes))
    manifest = "directory D 96A UN\nelements manyed\ncodes manycl\n"
    write("manyed", "".join(head(f"{code:04}") for code in range(10000)))
    write("manycl", f"{RULE}  1001  Name\n\n" + "".join(f"     {code}   N\n" for code in codes))
    write("mm", manifest)
    write("t", OPENING + b"UNZ+0+R1'")
    measure("many elements and codes", "check", "mm", "t")
    write("g", "codes 1001\n" + "".join(f"keep {code}\n" for code in codes))
    measure(f"{len(codes)} values kept", "guide", "mm", "g", "t")
    write("g", "".join(f"codes {code:04}\nkeep A\n" for code in range(10000) if code != 1001))
    measure("9999 heads", "guide", "mm", "g", "t")
    write("g", "\n".join(["codes 1001"] * 2 + ["keep A"] * 500000))
    measure("a fault before 500000 lines", "guide", "mm", "g", "t")
    rows = [f"{position:04} {'LIN x':<30} C 9" for position in range(2, 2000)]
    write("long", "\n".join(["Message Type : TSTLNG", "0001 UNH x M 1", *rows, "2000 UNT x M 1", ""]))
    with open(f"{folder}/m") as example:
        write("ml", example.read() + "message long\n")
    write("g", "table TSTLNG\n" + "".join(f"node {node} C 8\n" for node in range(1, 1999)))
    measure("1998 nodes of one table", "guide", "ml", "g", "t")


replies()
guides()
P
python3 "$work/partners.py" "$program" "$work"
