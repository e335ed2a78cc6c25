#!/bin/sh
# Makes texts of 4 MiB, in version 3 of the syntax and in version 4, and prints time and peak memory of `check` on them, by the directory of the examples; and of the checker
# of by_hand.rs on three of them, where there is a rustc to build it.
# usage: bench/check.sh   (the program is built first, if need be)
set -eu
top=$(cd "$(dirname "$0")/.." && pwd)
. "$top/tests/build.sh"
need_program || exit 1
work=$(mktemp -d)
trap 'rm -rf "$work"' EXIT
cp "$top"/examples/directory/* "$work"
python3 "$top/bench/orders.py" 0 >"$work/usual"
# 15 segments a message: one broken segment in a hundred.
python3 "$top/bench/orders.py" 7 >"$work/broken"
python3 "$top/bench/orders.py" 0 different >"$work/different"
python3 "$top/bench/orders.py" 0 version-4 >"$work/version-4"
python3 "$top/bench/orders.py" 0 repeated >"$work/repeated"
python3 - "$work" <<'P'
import sys
folder = sys.argv[1]
limit = 4194304
opening = b"UNB+UNOA:3+BUYER:14+SELLER:14+960105:0930+R1'"
opening_4 = b"UNB+UNOA:4+BUYER:14+SELLER:14+19960105:0930+R1'"

def one_message(body, opening=opening):
    text = b"UNH+1+TSTORD:D:96A:UN'BGM+220'" + body
    count = text.count(b"'") + 1
    return opening + text + b"UNT+%d+1'UNZ+1+R1'" % count

def one_date(element):
    return one_message(b"DTM+" + element + b"'UNS+S'", opening_4)

open(folder + "/terminators", "wb").write(b"'" * limit)
open(folder + "/long", "wb").write(one_message(b"DTM+2'DTM+3'" + b"LIN+1'" * 300000 + b"UNS+1'"))
rows = [b"UNH Message header M 1"] + [b"DTM Date C 1", b"RFF Reference C 1"] * 999 + [b"UNT Message trailer M 1"]
open(folder + "/long2000", "wb").write(b"Message Type : TSTLNG\n" + b"".join(b"%04d %s\n" % (i + 1, r) for i, r in enumerate(rows)))
manifest = open(folder + "/m", "rb").read()
open(folder + "/m2", "wb").write(manifest + b"message long2000\n")
# Lists of 400 codes for the coded values of the usual orders.
entries = []
for element, used in [("1001", "220"), ("1225", "9"), ("2005", "137"), ("2379", "102"), ("3035", "BY"), ("3055", "9"),
                      ("5125", "AAA"), ("6063", "21"), ("7143", "EN")]:
    codes = sorted({str(k) for k in range(1, 400)} | {used})
    entries.append("-" * 70 + f"\n  {element}  Name of an element\n\n" + "".join(f"     {code}   Name\n" for code in codes))
open(folder + "/longlists", "w").write("".join(entries))
open(folder + "/m3", "wb").write(manifest.replace(b"codes uncl", b"codes longlists"))
# Two repetitions of the elements that are repeated in the orders.
segments = open(folder + "/edsd", "rb").read().split(b"\n")
segments = [s + b" 2" if b"C507" in s or b"C509" in s else s for s in segments]
open(folder + "/edsd4", "wb").write(b"\n".join(segments))
open(folder + "/m4", "wb").write(manifest.replace(b"segments edsd", b"segments edsd4"))
# A segment of empty repetitions; of 2,000 repetitions of 2,000 components, each with an error at another place; of many
# repetitions with one error at the same place, by themselves and after a repetition with as many errors as it has octets.
open(folder + "/stars", "wb").write(one_date(b"2" + b"*" * (limit - 200)))
open(folder + "/squared", "wb").write(one_date(b"*".join(b":" * k + b"1" + b":" * (1999 - k) for k in range(2000))))
open(folder + "/million", "wb").write(one_date(b"*".join([b"2222"] + [b":1"] * 1000000)))
open(folder + "/surplus", "wb").write(one_date(b":1" * 700000 + b"*1" * 1000000))
open(folder + "/absent", "wb").write(opening + b"UNH+1+TSTLNG:D:96A:UN'" + b"AAA'" * 1000000 + b"UNT+1000002+1'UNZ+1+R1'")
P
cd "$work"
for case in "m usual" "m different" "m3 usual" "m broken" "m terminators" "m2 absent" "m long" \
    "m4 version-4" "m4 repeated" "m4 stars" "m4 squared" "m4 million" "m4 surplus"; do
    python3 - "$program" $case <<'P'
import resource, subprocess, sys, time
program, manifest, name = sys.argv[1:]
best = None
for _ in range(3):
    begin = time.monotonic()
    out = subprocess.run([program, "check", manifest, name], stdin=subprocess.DEVNULL, stdout=subprocess.PIPE).stdout
    took = time.monotonic() - begin
    best = took if best is None else min(best, took)
peak = resource.getrusage(resource.RUSAGE_CHILDREN).ru_maxrss // 1024
first = out.split(b"\n", 1)[0].decode()
print(f"{manifest:2} {name:12} {best:6.3f} s {peak:5} MiB {len(out):10} octets  {first}")
P
done
if command -v rustc >/dev/null; then
    rustc -O -o by_hand "$top/bench/by_hand.rs"
    for text in usual broken different; do
        python3 - "$text" <<'P'
import subprocess, sys, time
text = sys.argv[1]
best = None
for _ in range(3):
    begin = time.monotonic()
    out = subprocess.run(["./by_hand", text], stdout=subprocess.PIPE).stdout
    took = time.monotonic() - begin
    best = took if best is None else min(best, took)
first = out.split(b"\n", 1)[0].decode()
print(f"by hand: {text:12} {best:6.3f} s {len(out):10} octets  {first}")
P
    done
fi
