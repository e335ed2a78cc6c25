#!/bin/sh
# Measures the program on real directories, which are made from the package that examples/real gets. It prints a line of
# docs/REAL.md for each from D.93A to D.08A: its messages and segments, its tables with collisions, and the time to load it
# from its files and from its store; the same of D.96A with the code lists of the package; and time and peak memory of
# `check` on 4 MiB of INVOIC and of ORDERS by D.96A with these lists. A load is `check` of a text of four octets. Times are
# the processor time of a whole run of the program, the least of 101 runs for a load, and of seven for a check.
# usage: bench/real.sh   (the program is built first; examples/real has been run)
set -eu
top=$(cd "$(dirname "$0")/.." && pwd)
package=$top/examples/out/packages/usr/share/perl5/Business/EDI
if [ ! -d "$package" ]; then
    echo "there is no package in examples/out: run examples/real first" >&2
    exit 1
fi
. "$top/tests/build.sh"
need_program || exit 1
work=$(mktemp -d)
trap 'rm -rf "$work"' EXIT

# Makes a directory in a folder of its own, with its store, what the tool told, and a text of four octets.
make() {
    folder=$work/$1
    shift
    "$top/tools/real-directory" "$@" "$folder" --from "$package" >"$work/told"
    (cd "$folder" && "$program" compile m >store && printf "UNB'" >text && mv ../told .)
}

cat >"$work/measure.py" <<'P'
import os, re, subprocess, sys

program = sys.argv[1]


def run(words, folder):
    """The processor time of one run in milliseconds, and its peak memory in MiB."""
    nowhere = [(os.POSIX_SPAWN_OPEN, 0, "/dev/null", os.O_RDONLY, 0), (os.POSIX_SPAWN_OPEN, 1, "/dev/null", os.O_WRONLY, 0)]
    os.chdir(folder)
    child = os.posix_spawn(program, [program, *words], os.environ, file_actions=nowhere)
    _, status, used = os.wait4(child, 0)
    if os.waitstatus_to_exitcode(status) not in (0, 1):
        sys.exit(f"{words} in {folder}: status {os.waitstatus_to_exitcode(status)}")
    return 1000 * (used.ru_utime + used.ru_stime), used.ru_maxrss // 1024


def loads(folder):
    """The least time of a load from the files, and from the store; the two are run by turns."""
    turns = [[run(["check", manifest, "text"], folder)[0] for manifest in ("m", "store")] for _ in range(101)]
    return map(min, zip(*turns))


def answer(words, folder, given=subprocess.DEVNULL):
    return subprocess.run([program, *words], cwd=folder, stdin=given, stdout=subprocess.PIPE).stdout.decode("latin-1")


def tell_directory(name, folder):
    with open(folder + "/told") as file:
        segments, messages, known = re.search(r"(\d+) segments, (\d+) of (\d+) messages", file.read()).groups()
    collisions = len(re.findall("^collisions [1-9]", answer(["tables", "store"], folder), re.M))
    files, store = loads(folder)
    count = messages if messages == known else f"{messages} of {known}"
    print(f"| {name} | {count} | {segments} | {collisions} | {files:.1f} | {store:.1f} |")


def tell_check(name, folder):
    runs = [run(["check", "store", name], folder) for _ in range(7)]
    errors = answer(["check", "store", name], folder).split("\n", 1)[0]
    with open(f"{folder}/{name}", "rb") as file:
        segments = answer(["segments"], folder, file).split("\n", 1)[0]
    print(f"check {name:8} {min(runs)[0] / 1000:6.3f} s {runs[0][1]:5} MiB  {segments}, {errors}")


if sys.argv[2] == "start":
    took = min(run(["--version"], "/")[0] for _ in range(101))
    print(f"a run that loads nothing takes {took:.2f} ms")
    print("| directory | messages | segments | tables with collisions | from its files, ms | from its store, ms |")
    print("|---|---|---|---|---|---|")
elif sys.argv[2] == "directory":
    tell_directory(*sys.argv[3:])
else:
    tell_check(*sys.argv[3:])
P
measure() { python3 "$work/measure.py" "$program" "$@"; }

measure start
for release in D.93A D.94A D.94B D.95A D.95B D.96A D.96B D.97A D.97B D.98A D.98B D.99A D.99B D.00A D.00B D.01A D.01B D.01C \
    D.02A D.02B D.03A D.03B D.04A D.04B D.05A D.05B D.06A D.06B D.07A D.07B D.08A; do
    make "$release" "$release"
    measure directory "$release" "$folder"
done
make with-codes D.96A --codes
measure directory "D.96A with codes" "$folder"
echo "making 4 MiB of INVOIC and of ORDERS"
for name in INVOIC ORDERS; do
    python3 "$top/bench/walk.py" "$folder/store" "$name" >"$folder/$name"
    measure check "$name" "$folder"
done
