#!/bin/sh
# Makes texts of 4 MiB and prints time and peak memory of the two commands on them.
# usage: bench/segments.sh   (the program is built first, if need be)
set -eu
top=$(cd "$(dirname "$0")/.." && pwd)
. "$top/tests/build.sh"
need_program || exit 1
work=$(mktemp -d)
trap 'rm -rf "$work"' EXIT
python3 - "$work" <<'P'
import sys
folder = sys.argv[1]
limit = 4194304
head = b"UNB+UNOA:3+BUYER:14+SELLER:14+960105:0930+R1'UNH+1+TSTORD:D:96A:UN'BGM'"
body = b"DTM+2:19960'" + b"LIN+1234567890'" + b"QTY+21:12345'"
many = head + body * ((limit - len(head)) // len(body))
open(folder + "/order", "wb").write(many)
open(folder + "/releases", "wb").write(b"?" * 1000000 + b"'")
open(folder + "/value", "wb").write(b"FTX+" + b"A" * (limit - 5) + b"'")
open(folder + "/terminators", "wb").write(b"'" * limit)
P
for text in order releases value terminators; do
    for command in segments values; do
        python3 - "$program" "$command" "$work/$text" "$text" <<'P'
import resource, subprocess, sys, time
program, command, path, name = sys.argv[1:]
best = None
for _ in range(3):
    with open(path, "rb") as text:
        begin = time.monotonic()
        out = subprocess.run([program, command], stdin=text, stdout=subprocess.PIPE).stdout
        took = time.monotonic() - begin
    best = took if best is None else min(best, took)
peak = resource.getrusage(resource.RUSAGE_CHILDREN).ru_maxrss // 1024
first = out.split(b"\n", 1)[0].decode()
print(f"{name:12} {command:9} {best:6.3f} s {peak:5} MiB {len(out):9} octets  {first}")
P
    done
done
