#!/bin/sh
# Prints the time of `check_segment` by itself, by the directory of the examples: on two texts of 4 MiB of orders, one of
# them with one broken segment in a hundred, and on a segment with a long value, or with many empty elements, in two sizes
# each. Beside it are `next_segment`, which finds the segments, and `fields`, which finds the components of each: what is
# left without the checks. It is processor time in nanoseconds, the least of seven runs.
# usage: bench/elements.sh   (everything below the program is proved first)
set -eu
top=$(cd "$(dirname "$0")/.." && pwd)
. "$top/bench/program.sh"
new_program element_check dir_load dir_compile edi_ports seg_lexer step_counter edi_octets
crate=$work/repository/crates/bench
mkdir -p "$crate/proofs/places/list_all" "$crate/proofs/places/list_places"
cat >"$crate/src/places.rt" <<'P'
//! Where the segments of a text are.
ghost use Rattle.std.specs.Prelude.{◌≡◌, ◌<◌, ◌≤◌, length};
ghost use Rattle.edi_octets.specs.declared.octets.TheConstants.{LONGEST_TEXT};

use edi_octets::Flat;
use seg_lexer::{Lexed, next_segment, read_service};
use std::alloc::{AllocError, Global};
use std::marker::Brand;
use std::sync::ledger::{Blank, Ledger};
use step_counter::Steps;

/// The first octet of a segment, and the place of its terminator.
#[derive(Clone, Copy)]
pub struct Place {
    pub start: usize,
    pub end: usize,
}

/// The places of all segments of a text.
pub fn list_all(alloc: Global, text: &Flat<'_>) -> Result<Vec<Place>, AllocError>
    requires { length text.now.octets.now ≤ LONGEST_TEXT }
{
    list_places::<Brand>(alloc, text, Blank::new(1))
}

fn list_places<L: Ledger>(
    alloc: Global,
    text: &Flat<'_>,
    blank: Blank,
) -> Result<Vec<Place>, AllocError>
    requires name { blank.name ≡ L.name }
    requires parts { blank.parts ≡ L.parts }
    requires some { 0 < blank.parts }
    requires short { length text.now.octets.now ≤ LONGEST_TEXT }
{
    let mut lexed = Steps::<L>::start(blank);
    let service = read_service(text);
    let mut from = service.body;
    let mut places = Vec::new(alloc);
    while let Lexed::Ended { start, end } = next_segment(text, &service, from, &mut lexed) {
        places.push(Place { start, end })?;
        from = end + 1;
    }
    Ok(places)
}
P
cat >"$crate/proofs/places/list_all/Invariants.antt" <<'P'
use Rattle.bench.proofs.places.list_all.Given as goal

abbrev pub ghosts-list_places : goal.ghosts-list_places
ghosts-list_places a = record { name = a.blank.name; parts = a.blank.parts }
P
cat >"$crate/proofs/places/list_places/Invariants.antt" <<'P'
use Rattle.std.proofs.Common.{◌-◌, length}
use Rattle.seg_lexer.specs.Segments.{IsBoundary}
use Rattle.bench.proofs.places.list_places.Given as goal

abbrev pub invariant-loop-start : goal.invariant-loop-start
invariant-loop-start g l = IsBoundary l.service l.text.octets.now l.from

abbrev pub decreases-loop-start : goal.decreases-loop-start
decreases-loop-start g l = length l.text.octets.now - l.from
P
cat >"$crate/proofs/places/list_places/Answers.antt" <<'P'
use Rattle.seg_lexer.proofs.SegmentsLemmas.{first-boundary}
use Rattle.bench.proofs.places.list_places.Goals as goal

pub loop-start-init : goal.loop-start-init
loop-start-init g c = first-boundary _ _
P
cat >"$crate/src/main.rt" <<'P'
//! Times the segments, the components and the local errors of the texts that its words name, in the processor time of its
//! thread. Each line has a text's name and its octets, and then counts, each with nanoseconds.
#![tactic(auto)]

ghost use Rattle.std.specs.Prelude.{◌≤◌, length};
ghost use Rattle.seg_lexer.specs.Service.{IsUsable};
ghost use Rattle.edi_octets.specs.declared.octets.TheConstants.{LONGEST_TEXT};

mod places;
mod segments;

use anyhow::{Result, ensure};
use dir_compile::Directory;
use dir_load::load;
use edi_octets::{Flat, LONGEST_TEXT};
use edi_ports::FolderShelf;
use element_check::check_segment;
use places::{Place, list_all};
use seg_lexer::{Context, Level, fields, read_service};
use segments::count_all;
use std::alloc::Global;
use std::rt::{Env, Files};
use std::time::{CpuClock, Duration};
use std::{env, fs};

const RUNS: u32 = 7;

/// What is counted in one run over a text.
#[derive(Clone, Copy)]
enum Counted {
    Segments,
    Components,
    Errors,
}

fn main(rt: HostRuntime) -> Result<()> {
    let alloc = rt.alloc();
    let mut shelf = FolderShelf::new(&rt);
    let directory = load(alloc, &mut shelf, b"m")?;
    time_texts(&rt, alloc, &directory)
}

// The directory is let go at one place, in `main`: proofs of that take long.
fn time_texts(
    rt: &(impl Alloc + CpuClock + Env + Files + Print),
    alloc: Global,
    directory: &Directory,
) -> Result<()> {
    for name in env::args(rt)?.skip(1) {
        let octets = fs::read(rt, name.as_str())?;
        print!(rt; "{name} {}", octets.len())?;
        time_text(rt, alloc, directory, &octets)?;
    }
    Ok(())
}

fn time_text(
    rt: &(impl CpuClock + Print),
    alloc: Global,
    directory: &Directory,
    octets: &[u8],
) -> Result<()> {
    ensure!(octets.len() <= LONGEST_TEXT, "the text is too long");
    let text = Flat { octets };
    // The level and the version that the texts name, or that are as good for them.
    let context = Context {
        service: read_service(&text),
        level: Level::A,
        version: 3,
    };
    let places = list_all(alloc, &text)?;
    for counted in [Counted::Segments, Counted::Components, Counted::Errors] {
        let mut least = Duration::MAX;
        let mut found = 0;
        for _ in 0..RUNS {
            let begin = rt.thread_cpu_time()?;
            found = count(alloc, directory, &context, &text, &places, counted)?;
            least = least.min(rt.thread_cpu_time()?.saturating_sub(begin));
        }
        print!(rt; " {found} {}", least.as_nanos())?;
    }
    println!(rt; "")?;
    Ok(())
}

fn count(
    alloc: Global,
    directory: &Directory,
    context: &Context,
    text: &Flat<'_>,
    places: &[Place],
    counted: Counted,
) -> Result<u64>
    requires usable { IsUsable context.now.service text.now.octets.now }
    requires short { length text.now.octets.now ≤ LONGEST_TEXT }
{
    match counted {
        Counted::Segments => Ok(count_all(text)),
        Counted::Components => count_components(context, text, places),
        Counted::Errors => count_errors(alloc, directory, context, text, places),
    }
}

fn count_components(context: &Context, text: &Flat<'_>, places: &[Place]) -> Result<u64>
    requires usable { IsUsable context.now.service text.now.octets.now }
    requires short { length text.now.octets.now ≤ LONGEST_TEXT }
{
    let mut count: u64 = 0;
    for place in places {
        let Place { start, end } = *place;
        ensure!(start <= end && end <= text.octets.len(), "the place is outside of the text");
        for _ in fields(text, &context.service, start, end) {
            count = count.wrapping_add(1);
        }
    }
    Ok(count)
}

fn count_errors(
    alloc: Global,
    directory: &Directory,
    context: &Context,
    text: &Flat<'_>,
    places: &[Place],
) -> Result<u64>
    requires usable { IsUsable context.now.service text.now.octets.now }
    requires short { length text.now.octets.now ≤ LONGEST_TEXT }
{
    let mut count: u64 = 0;
    for place in places {
        let Place { start, end } = *place;
        ensure!(start <= end && end <= text.octets.len(), "the place is outside of the text");
        let errors = check_segment(alloc, directory, context, text, start, end)?;
        count = count.wrapping_add(errors.len() as u64);
    }
    Ok(count)
}
P
build_program
cp "$top"/examples/directory/* "$work"
cd "$work"
python3 "$top/bench/orders.py" 0 >usual
python3 "$top/bench/orders.py" 7 >broken
python3 - <<'P'
def write(name, front, octet, count):
    with open(name, "wb") as file:
        file.write(front + octet * count + b"'")

for octets in (1048576, 4194304):
    write(f"value-{octets}", b"BGM+220+", b"A", octets - 9)
for elements in (250000, 1000000):
    write(f"elements-{elements}", b"NAD+BY", b"+", elements)
P
"$program" usual broken value-1048576 value-4194304 elements-250000 elements-1000000 | python3 -c '
import sys
print(f"""{"":16} {"octets":>8} {"segments":>8} {"components":>10} {"errors":>7}  {"nanoseconds a segment":>34}  an octet""")
print(f"""{"":16} {"":8} {"":8} {"":10} {"":7}  {"next_segment":>12} {"fields":>7} {"check_segment":>13}""")
for line in sys.stdin:
    name, *numbers = line.split()
    octets, segments, lexing, components, cutting, errors, checking = map(int, numbers)
    each = [f"{time / segments:.0f}" for time in (lexing, cutting, checking)]
    print(f"{name:16} {octets:8} {segments:8} {components:10} {errors:7}  {each[0]:>12} {each[1]:>7} {each[2]:>13}  {checking / octets:8.2f}")
'
