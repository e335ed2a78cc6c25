# Read by the scripts of this folder that time calls of a library: only a program can make these, so a script writes one.
# It is in a repository of its own, beside a copy of the crates and of what was proved of them. `top` is set before.

work=$(mktemp -d)
trap 'rm -rf "$work"' EXIT
program=$work/repository/crates/bench/out/bench

# new_program LIBRARY ..: makes the repository, in which the crate `bench` uses these libraries of this repository.
# It goes through the segments of a text; its main file is for the script to write.
new_program() {
    echo "proving a program that makes these calls, and the crates that it stands on: a few minutes;" >&2
    echo "up to 40 on four processors if these crates aren't proved yet" >&2
    for library in "$@"; do
        (cd "$top/crates/$library" && rt lib >"$work/log" 2>&1) || { cat "$work/log" >&2; exit 1; }
    done
    mkdir -p "$work/repository/crates"
    cp "$top/HANDLES" "$work/repository"
    { cat "$top/crates.txt"; echo "bench: $* anyhow"; } >"$work/repository/crates.txt"
    for crate in "$top"/crates/*; do
        copy=$work/repository/crates/${crate##*/}
        mkdir "$copy"
        for part in src specs proofs; do
            [ ! -e "$crate/$part" ] || cp -r "$crate/$part" "$copy"
        done
        [ -d "$crate/out/rlib" ] || continue
        mkdir "$copy/out"
        # What was proved takes gigabytes: it is linked where it can be.
        cp -rl "$crate/out/rlib" "$copy/out" 2>/dev/null || cp -r "$crate/out/rlib" "$copy/out"
    done
    crate=$work/repository/crates/bench
    mkdir -p "$crate/src" "$crate/proofs/segments/count_all" "$crate/proofs/segments/count_segments"
    cat >"$crate/src/segments.rt" <<'P'
//! The segments of a text, one after another.
ghost use Rattle.std.specs.Prelude.{◌≡◌, ◌<◌, ◌≤◌, length};
ghost use Rattle.edi_octets.specs.declared.octets.TheConstants.{LONGEST_TEXT};

use edi_octets::Octets;
use seg_lexer::{Lexed, next_segment, read_service};
use std::marker::Brand;
use std::sync::ledger::{Blank, Ledger};
use step_counter::Steps;

/// How many segments a text has.
pub fn count_all<O: Octets>(text: &O) -> u64
    requires { length (O.octets text.now) ≤ LONGEST_TEXT }
{
    count_segments::<O, Brand>(text, Blank::new(1))
}

fn count_segments<O: Octets, L: Ledger>(text: &O, blank: Blank) -> u64
    requires name { blank.name ≡ L.name }
    requires parts { blank.parts ≡ L.parts }
    requires some { 0 < blank.parts }
    requires short { length (O.octets text.now) ≤ LONGEST_TEXT }
{
    let mut lexed = Steps::<L>::start(blank);
    let service = read_service(text);
    let mut from = service.body;
    let mut count: u64 = 0;
    while let Lexed::Ended { start: _, end } = next_segment(text, &service, from, &mut lexed) {
        count = count.wrapping_add(1);
        from = end + 1;
    }
    count
}
P
    : >"$crate/proofs/Lib.antt"
    cat >"$crate/proofs/segments/count_all/Invariants.antt" <<'P'
use Rattle.bench.proofs.segments.count_all.Given as goal

abbrev pub ghosts-count_segments : goal.ghosts-count_segments
ghosts-count_segments g a = record { name = a.blank.name; parts = a.blank.parts }
P
    cat >"$crate/proofs/segments/count_segments/Invariants.antt" <<'P'
use Rattle.std.proofs.Common.{◌-◌, length}
use Rattle.seg_lexer.specs.Segments.{IsBoundary}
use Rattle.bench.proofs.segments.count_segments.Given as goal

abbrev pub invariant-loop-end : goal.invariant-loop-end
invariant-loop-end g l = IsBoundary l.service (g.O.Octets.octets l.text) l.from

abbrev pub decreases-loop-end : goal.decreases-loop-end
decreases-loop-end g l = length (g.O.Octets.octets l.text) - l.from
P
    cat >"$crate/proofs/segments/count_segments/Answers.antt" <<'P'
use Rattle.seg_lexer.proofs.SegmentsLemmas.{first-boundary}
use Rattle.bench.proofs.segments.count_segments.Goals as goal

pub loop-end-init : goal.loop-end-init
loop-end-init g c = first-boundary _ _
P
}

# build_program: proves and builds it. It is run without its files, and so ends at once.
build_program() {
    (cd "$work/repository/crates/bench" && rt run </dev/null >"$work/log" 2>&1) || true
    [ -x "$program" ] || { cat "$work/log" >&2; exit 1; }
}
