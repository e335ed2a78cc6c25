#!/bin/sh
# Prints what a call of the static library takes, by the directory of the examples: on no text, on the
# order of the examples, on a hundred messages of 15 segments, and on 4 MiB of these.
# usage: bench/embedding.sh [STORE]   (the library and the program are built first, if need be; STORE is tried too, with the order)
set -eu
top=$(cd "$(dirname "$0")/.." && pwd)
. "$top/tests/build.sh"
need_program || exit 1
(cd "$top/crates/edicheck_c" && rt lib) >/dev/null
kit=$(dirname "$(rt doc)")
work=$(mktemp -d)
trap 'rm -rf "$work"' EXIT
cc -std=c11 -O2 -I"$top/include" "$top/bench/embedding.c" "$top/crates/edicheck_c/out/libedicheck_c.a" "$kit/c/liblibc_c.a" \
    -o "$work/embedding"
(cd "$top/examples/directory" && "$program" compile m) >"$work/store"
cp "$top/examples/directory/order-with-errors.edi" "$work/order"
: >"$work/none"
python3 "$top/bench/orders.py" 0 100 >"$work/hundred"
python3 "$top/bench/orders.py" 0 >"$work/usual"
[ $# -eq 0 ] || cp "$1" "$work/given"
cd "$work"
./embedding store none 10000
./embedding store order 10000
./embedding store hundred 200
./embedding store usual 3
[ ! -f given ] || ./embedding given order 100
