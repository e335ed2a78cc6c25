#!/bin/sh
# Prints the time of `next_segment` over a text of 4 MiB of orders: in one slice, over a view of one piece, and over a view
# of some 10,000 pieces; and the time of 40,000 edits of one octet in it: at one place, typed one after the other, and
# spread over the text, with the pieces that are left. It is processor time, the least of seven runs.
# Then the time and the peak memory of a sequence of 300,000 items, each as large as the record of a segment, and of 60
# splices that each put a new tail into it, one item further on than the last.
# usage: bench/pieces.sh   (everything below the program is proved first)
set -eu
top=$(cd "$(dirname "$0")/.." && pwd)
. "$top/bench/program.sh"
new_program piece_text seg_lexer seq_tree step_counter edi_octets
cat >"$work/repository/crates/bench/src/main.rt" <<'P'
//! Times readings and edits of the text in the file `text`: processor time of this thread, the least of several runs.
//! Each line has a name, how often something was done, how many pieces there are, and nanoseconds. With a word after its
//! name, it times splices instead.
#![tactic(auto)]

mod segments;
mod splices;

use anyhow::{Result, ensure};
use edi_octets::{Flat, LONGEST_TEXT, Octets};
use piece_text::Text;
use segments::count_all;
use splices::time_splices;
use std::alloc::Global;
use std::fs;
use std::rt::Env;
use std::time::{CpuClock, Duration};

const RUNS: u32 = 7;

/// Edits of one octet each, `stride` octets apart, from the start again after the end. Each puts the octet of the first
/// text in place of `cut` octets.
#[derive(Clone, Copy)]
struct Edits {
    count: u32,
    first: usize,
    stride: usize,
    cut: usize,
}

fn main(rt: HostRuntime) -> Result<()> {
    let mut word = [0; 16];
    if rt.arg(1, &mut word).is_ok() {
        return time_splices(&rt, rt.alloc());
    }
    let octets = fs::read(&rt, "text")?;
    let alloc = rt.alloc();
    let text = of_bytes(alloc, &octets)?;
    time_readings(&rt, alloc, &octets, &text)?;
    time_all_edits(&rt, alloc, &octets, &text)
}

fn of_bytes(alloc: Global, octets: &[u8]) -> Result<Text> {
    ensure!(octets.len() <= LONGEST_TEXT, "the text is too long");
    Ok(Text::of_bytes(alloc, octets)?)
}

fn time_readings(
    rt: &(impl CpuClock + Print),
    alloc: Global,
    octets: &[u8],
    text: &Text,
) -> Result<()> {
    time_reading(rt, "flat", 0, &Flat { octets })?;
    time_reading(rt, "view", count_pieces(text), &text.view(0, text.len()))?;
    let spread = Edits {
        count: 5_000,
        first: 0,
        stride: 838,
        cut: 1,
    };
    let cut_up = edited(alloc, octets, text, spread)?;
    expect_same(alloc, &cut_up, octets)?;
    time_reading(
        rt,
        "view",
        count_pieces(&cut_up),
        &cut_up.view(0, cut_up.len()),
    )
}

fn time_reading<O: Octets>(
    rt: &(impl CpuClock + Print),
    name: &str,
    pieces: usize,
    text: &O,
) -> Result<()> {
    ensure!(text.len() <= LONGEST_TEXT, "the text is too long");
    let mut least = Duration::MAX;
    let mut segments = 0;
    for _ in 0..RUNS {
        let begin = rt.thread_cpu_time()?;
        segments = count_all(text);
        least = least.min(rt.thread_cpu_time()?.saturating_sub(begin));
    }
    println!(rt; "{name} {segments} {pieces} {}", least.as_nanos())?;
    Ok(())
}

fn time_all_edits(
    rt: &(impl CpuClock + Print),
    alloc: Global,
    octets: &[u8],
    text: &Text,
) -> Result<()> {
    let count = 40_000;
    let first = octets.len() / 2;
    let one_place = Edits {
        count,
        first,
        stride: 0,
        cut: 1,
    };
    time_edits(rt, alloc, "one-place", octets, text, one_place)?;
    let typed = Edits {
        count,
        first,
        stride: 1,
        cut: 0,
    };
    let without = edit(alloc, text, first, count as usize, b"")?;
    time_edits(rt, alloc, "typed", octets, &without, typed)?;
    let spread = Edits {
        count,
        first,
        stride: 1_618_033,
        cut: 1,
    };
    time_edits(rt, alloc, "spread", octets, text, spread)
}

fn time_edits(
    rt: &(impl CpuClock + Print),
    alloc: Global,
    name: &str,
    octets: &[u8],
    text: &Text,
    edits: Edits,
) -> Result<()> {
    let mut least = Duration::MAX;
    let mut pieces = 0;
    for _ in 0..RUNS {
        let begin = rt.thread_cpu_time()?;
        let after = edited(alloc, octets, text, edits)?;
        least = least.min(rt.thread_cpu_time()?.saturating_sub(begin));
        expect_same(alloc, &after, octets)?;
        pieces = count_pieces(&after);
    }
    println!(rt; "{name} {} {pieces} {}", edits.count, least.as_nanos())?;
    Ok(())
}

/// The text after all these edits.
fn edited(alloc: Global, octets: &[u8], text: &Text, edits: Edits) -> Result<Text> {
    let mut after = edit(alloc, text, 0, 0, b"")?;
    let mut at = edits.first;
    for _ in 0..edits.count {
        ensure!(at < octets.len(), "the place is outside of the text");
        after = edit(alloc, &after, at, edits.cut, &octets[at..at + 1])?;
        at = at.wrapping_add(edits.stride) % octets.len();
    }
    Ok(after)
}

fn edit(alloc: Global, text: &Text, at: usize, cut: usize, put: &[u8]) -> Result<Text> {
    let len = text.len();
    ensure!(
        at <= len && cut <= len - at,
        "the edit is outside of the text"
    );
    ensure!(
        len - cut <= LONGEST_TEXT && put.len() <= LONGEST_TEXT - (len - cut),
        "the text would be too long"
    );
    Ok(text.replace(alloc, at, cut, put)?)
}

fn expect_same(alloc: Global, text: &Text, octets: &[u8]) -> Result<()> {
    ensure!(
        text.copy(alloc)?.octets() == octets,
        "the text is another one"
    );
    Ok(())
}

/// How many pieces a text has: a view lends the rest of one at a time.
fn count_pieces(text: &Text) -> usize {
    let view = text.view(0, text.len());
    let mut pieces: usize = 0;
    let mut at = 0;
    for _ in 0..view.len() {
        if at >= view.len() {
            break;
        }
        at += view.slice_at(at).len();
        pieces = pieces.wrapping_add(1);
    }
    pieces
}
P
cat >"$work/repository/crates/bench/src/splices.rt" <<'P'
//! Splices of a new tail: each version has one item more of those before it.

use anyhow::{Result, ensure};
use seq_tree::{Measured, Seq};
use std::alloc::Global;
use std::time::CpuClock;

const ITEMS: u32 = 300_000;

const SPLICES: u32 = 60;

/// As large as the record of a segment.
#[derive(Debug, Drop)]
struct Item {
    weight: u32,
    rest: [u64; 11],
}

impl Measured for Item {
    ghost measure = { λ item. item.weight };

    ghost marks = { λ _. 0 };

    fn weight(&self) -> u32 {
        self.weight
    }

    fn marks(&self) -> u32 {
        0
    }
}

/// Prints the time of a sequence of `ITEMS` items, and that of `SPLICES` splices: the first puts a new tail after the
/// first item, and each other one after one item more.
pub fn time_splices(rt: &(impl CpuClock + Print), alloc: Global) -> Result<()> {
    let begin = rt.thread_cpu_time()?;
    let mut whole = make(alloc, ITEMS)?;
    let made = rt.thread_cpu_time()?;
    println!(rt; "made 1 {ITEMS} {}", made.saturating_sub(begin).as_nanos())?;
    for from in 1..SPLICES + 1 {
        whole = with_tail(alloc, &whole, from)?;
    }
    let took = rt.thread_cpu_time()?.saturating_sub(made);
    println!(rt; "spliced {SPLICES} {} {}", whole.len(), took.as_nanos())?;
    Ok(())
}

fn make(alloc: Global, count: u32) -> Result<Seq<Item>> {
    let mut items = Vec::with_capacity(alloc, count as usize)?;
    for weight in 0..count {
        let item = Item {
            weight,
            rest: [0; 11],
        };
        items.push(item)?;
    }
    ensure!(items.len() <= ITEMS as usize, "there are too many items");
    Ok(Seq::of_items(alloc, items)?)
}

/// The items before the place `from`, and as many new ones as there were from there on.
fn with_tail(alloc: Global, whole: &Seq<Item>, from: u32) -> Result<Seq<Item>> {
    let len = whole.len();
    let from = from as usize;
    ensure!(
        from <= len && len <= ITEMS as usize,
        "the place is outside of the sequence"
    );
    let tail = make(alloc, (len - from) as u32)?;
    ensure!(tail.len() <= ITEMS as usize, "the tail is too long");
    Ok(whole.splice(alloc, from, len, &tail)?)
}
P
build_program
cd "$work"
python3 "$top/bench/orders.py" 0 >text
"$program" | python3 -c '
import sys
for line in sys.stdin:
    what, count, pieces, time = line.split()
    done = "segments" if what in ("flat", "view") else "edits"
    print(f"{what:10} {count:>7} {done:8} {pieces:>6} pieces {int(time) / 1e6:8.2f} ms {int(time) / int(count):8.0f} ns each")
'
python3 - "$program" <<'P'
import resource, subprocess, sys
out = subprocess.run([sys.argv[1], "splices"], stdout=subprocess.PIPE, check=True, text=True).stdout
for line in out.splitlines():
    what, count, items, time = line.split()
    print(f"{what:10} {count:>7} times    {items:>6} items  {int(time) / 1e6:8.2f} ms {int(time) / int(count) / 1e6:8.2f} ms each")
print(f"peak memory {resource.getrusage(resource.RUSAGE_CHILDREN).ru_maxrss // 1024} MiB")
P
