#!/bin/sh
# Prints time and peak memory of drills of 1,000 messages: with 10 edits, and with 1,000.
# usage: bench/drill.sh   (the program is built first, if need be)
set -eu
top=$(cd "$(dirname "$0")/.." && pwd)
. "$top/tests/build.sh"
need_program || exit 1
for words in "1000 10 7" "1000 1000 7"; do
    python3 - "$program" $words <<'P'
import resource, subprocess, sys, time
program, *words = sys.argv[1:]
best = None
for _ in range(3):
    begin = time.monotonic()
    out = subprocess.run([program, "drill", *words], stdin=subprocess.DEVNULL, stdout=subprocess.PIPE).stdout
    took = time.monotonic() - begin
    best = took if best is None else min(best, took)
peak = resource.getrusage(resource.RUSAGE_CHILDREN).ru_maxrss // 1024
lines = out.decode().split("\n")
print(f"drill {' '.join(words):12} {best:7.3f} s {peak:5} MiB  {lines[1]}, {lines[2]}")
P
done
