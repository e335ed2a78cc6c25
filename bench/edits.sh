#!/bin/sh
# Prints what an edit costs: 40,000 edits in the middle of usual orders of 1,000, 30,000 and 240,000 segments, through
# `edicheck edit`, of each of four kinds. Each kind but the first is done and undone by turns, so that the text stays what it was:
#   digit     another digit in place of one
#   octet     a digit put into a value, and taken out
#   release   a release character put in front of a terminator, and taken out
#   segment   a segment put in front of another, and taken out
# A line has the microseconds an edit and the peak memory; what a script without an edit takes is taken off the time, and the
# peak memory of that script is beside. Then the time of `errors` after each of 20 edits, and the peak memory of a script that puts
# 200 repeats, one after the other, into a run of 100,000, each of which places the rest of the run again. A line `session` has
# the microseconds of another digit, an undo and a redo together, through `edicheck session`, which keeps a hundred texts; its
# peak memory is beside that of a session without an edit.
# Times are processor time, the least of three runs.
# usage: bench/edits.sh   (the program is built first, if need be)
set -eu
top=$(cd "$(dirname "$0")/.." && pwd)
. "$top/tests/build.sh"
need_program || exit 1
work=$(mktemp -d)
trap 'rm -rf "$work"' EXIT
cp "$top"/examples/directory/* "$work"
cat >"$work/measure.py" <<'P'
import os, sys

program, bench = sys.argv[1:]
sys.path.insert(0, bench)
import orders

EDITS = 40000


def run(script, command="edit"):
    """The processor time of one run of a script on the text, in seconds, and its peak memory in MiB."""
    with open("script", "wb") as file:
        file.write(script + b"end\n")
    files = [(os.POSIX_SPAWN_OPEN, 0, "script", os.O_RDONLY, 0),
             (os.POSIX_SPAWN_OPEN, 1, "answers", os.O_WRONLY | os.O_CREAT | os.O_TRUNC, 0o600)]
    child = os.posix_spawn(program, [program, command, "m", "text"], os.environ, file_actions=files)
    _, status, used = os.wait4(child, 0)
    with open("answers", "rb") as file:
        if status or b"no " in file.read():
            sys.exit(f"a script was stopped: {status}")
    return used.ru_utime + used.ru_stime, used.ru_maxrss // 1024


def least(script, count=3, command="edit"):
    return min(run(script, command) for _ in range(count))


def replace(at, cut, put):
    return b"replace %d %d %d\n%s\n" % (at, cut, len(put), put)


def kinds(text):
    """For each kind, two edits that follow each other."""
    middle = text.index(b"PRI+AAA:12.5'", len(text) // 2)
    value = text.index(b"12.5", middle)
    terminator = text.index(b"'", middle)
    extra = b"PRI+AAB:11.5'"
    return [("digit", replace(value, 1, b"2"), replace(value, 1, b"1")),
            ("octet", replace(value, 0, b"3"), replace(value, 1, b"")),
            ("release", replace(terminator, 0, b"?"), replace(terminator, 1, b"")),
            ("segment", replace(middle, 0, extra), replace(middle, len(extra), b""))]


def put(text):
    with open("text", "wb") as file:
        file.write(text)


for messages in (66, 2000, 16000):
    text = orders.interchange(0, most=messages)
    put(text)
    base, room = least(b"")
    for name, there, back in kinds(text):
        took, peak = least((there + back) * (EDITS // 2))
        print(f"{text.count(bytes([39])):8} segments  {name:8} {1e6 * (took - base) / EDITS:8.1f} us  "
              f"{peak:5} MiB, {room} without an edit", flush=True)
    there, back = kinds(text)[0][1:]
    begun, room = least(b"", command="session")
    took, peak = least((there + b"undo\nredo\n" + back + b"undo\nredo\n") * (EDITS // 2), command="session")
    print(f"{text.count(bytes([39])):8} segments  {'session':8} {1e6 * (took - begun) / EDITS:8.1f} us  "
          f"{peak:5} MiB, {room} without an edit", flush=True)
    asked, _ = least((there + b"errors\n" + back + b"errors\n") * 10)
    print(f"{text.count(bytes([39])):8} segments  {'errors':8} {1e6 * (asked - base) / 20:8.1f} us after each edit", flush=True)

run_of = b"LIN+1'" * 100000
head = orders.OPENING + b"UNH+1+TSTORD:D:96A:UN'BGM+220+PO1+9'DTM+137:19960105:102'"
put(head + run_of + b"UNS+S'UNT+100005+1'UNZ+1+R1'")
base, room = least(b"")
middle = len(head) + 6 * 50000
took, peak = least(b"".join(replace(middle + 6 * k, 0, b"LIN+1'") for k in range(200)))
print(f"  100000 repeats   200 put in {1e3 * (took - base) / 200:8.1f} ms each  {peak:5} MiB, {room} without an edit")
P
cd "$work"
python3 measure.py "$program" "$top/bench"
