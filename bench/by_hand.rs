//! A checker written by hand, to measure `check` against. It isn't proved and does less: it is for the directory of the
//! examples and its message TSTORD, whose tables are written down here, it keeps nothing of a text, and it counts errors and
//! tells none. Of a text without an error it prints what `check` prints.
//!
//! usage: by_hand TEXT   (built by: rustc -O by_hand.rs)

use std::arch::x86_64::{
    _mm_cmpeq_epi8, _mm_loadu_si128, _mm_movemask_epi8, _mm_or_si128, _mm_set1_epi8,
};
use std::io::Write;

/// The separators and the other characters that a text without service string advice is read by.
const COMPONENT: u8 = b':';
const ELEMENT: u8 = b'+';
const RELEASE: u8 = b'?';
const TERMINATOR: u8 = b'\'';

#[derive(Clone, Copy)]
enum Class {
    A,
    N,
    An,
}

use Class::{An, A, N};

/// A data element: the class and the length of its values, and the codes that they are from, if they are coded.
struct Part {
    class: Class,
    max: usize,
    exact: bool,
    must: bool,
    codes: &'static [&'static [u8]],
}

const fn part(class: Class, max: usize, must: bool) -> Part {
    Part {
        class,
        max,
        exact: false,
        must,
        codes: &[],
    }
}

const fn exact(class: Class, max: usize, must: bool) -> Part {
    Part {
        class,
        max,
        exact: true,
        must,
        codes: &[],
    }
}

const fn coded(must: bool, codes: &'static [&'static [u8]]) -> Part {
    Part {
        class: An,
        max: 3,
        exact: false,
        must,
        codes,
    }
}

/// An element of a segment: a data element, or a composite of some.
struct Item {
    must: bool,
    parts: &'static [Part],
}

const fn item(must: bool, parts: &'static [Part]) -> Item {
    Item { must, parts }
}

const PARTY: &[Part] = &[part(An, 35, true), part(An, 4, false), part(An, 14, false)];

static UNB: &[Item] = &[
    item(true, &[exact(A, 4, true), exact(N, 1, true)]),
    item(true, PARTY),
    item(true, PARTY),
    item(true, &[exact(N, 6, true), exact(N, 4, true)]),
    item(true, &[part(An, 14, true)]),
    item(false, &[part(An, 14, true), exact(An, 2, false)]),
    item(false, &[part(An, 14, false)]),
    item(false, &[exact(A, 1, false)]),
    item(false, &[exact(N, 1, false)]),
    item(false, &[part(An, 35, false)]),
    item(false, &[exact(N, 1, false)]),
];

static UNH: &[Item] = &[
    item(true, &[part(An, 14, true)]),
    item(
        true,
        &[
            part(An, 6, true),
            part(An, 3, true),
            part(An, 3, true),
            part(An, 2, true),
            part(An, 6, false),
        ],
    ),
    item(false, &[part(An, 35, false)]),
    item(false, &[part(N, 2, true), exact(A, 1, false)]),
];

static BGM: &[Item] = &[
    item(
        false,
        &[
            coded(false, &[b"220", b"231"]),
            part(An, 3, false),
            part(An, 35, false),
        ],
    ),
    item(false, &[part(An, 35, false)]),
    item(false, &[part(An, 3, false)]),
];

static CTA: &[Item] = &[
    item(false, &[part(An, 3, false)]),
    item(false, &[part(An, 17, false), part(An, 35, false)]),
];

static DTM: &[Item] = &[item(
    true,
    &[
        coded(true, &[b"2", b"137"]),
        part(An, 35, false),
        part(An, 3, false),
    ],
)];

static LIN: &[Item] = &[
    item(false, &[part(N, 6, false)]),
    item(false, &[part(An, 3, false)]),
    item(false, &[part(An, 35, false), part(An, 3, false)]),
];

static MOA: &[Item] = &[item(true, &[part(An, 3, true), part(N, 18, false)])];

static NAD: &[Item] = &[
    item(true, &[part(An, 3, true)]),
    item(
        false,
        &[part(An, 17, true), part(An, 3, false), part(An, 3, false)],
    ),
];

static PRI: &[Item] = &[item(false, &[part(An, 3, false), part(N, 15, false)])];

static QTY: &[Item] = &[item(
    true,
    &[part(An, 3, true), part(N, 15, true), part(An, 3, false)],
)];

static UNS: &[Item] = &[item(true, &[exact(A, 1, true)])];

/// Of UNT and UNZ: a count and a reference.
static CLOSING: &[Item] = &[
    item(true, &[part(N, 6, true)]),
    item(true, &[part(An, 14, true)]),
];

fn items_of(tag: &[u8]) -> Option<&'static [Item]> {
    Some(match tag {
        b"UNB" => UNB,
        b"UNH" => UNH,
        b"BGM" => BGM,
        b"CTA" => CTA,
        b"DTM" => DTM,
        b"LIN" => LIN,
        b"MOA" => MOA,
        b"NAD" => NAD,
        b"PRI" => PRI,
        b"QTY" => QTY,
        b"UNS" => UNS,
        b"UNT" | b"UNZ" => CLOSING,
        _ => return None,
    })
}

/// An entry of the segment table: its node, and the group that it is in, 0 outside of groups.
struct Entry {
    node: u32,
    tag: &'static [u8; 3],
    max: u32,
    group: usize,
}

const fn entry(node: u32, tag: &'static [u8; 3], max: u32, group: usize) -> Entry {
    Entry {
        node,
        tag,
        max,
        group,
    }
}

static TABLE: [Entry; 12] = [
    entry(0, b"UNH", 1, 0),
    entry(1, b"BGM", 1, 0),
    entry(2, b"DTM", 2, 0),
    entry(4, b"NAD", 1, 1),
    entry(5, b"CTA", 1, 1),
    entry(7, b"LIN", 1, 2),
    entry(8, b"QTY", 1, 2),
    entry(10, b"PRI", 1, 3),
    entry(11, b"DTM", 1, 3),
    entry(12, b"UNS", 1, 0),
    entry(13, b"MOA", 1, 0),
    entry(14, b"UNT", 1, 0),
];

/// A group: its trigger, the group round it, how many groups it and those round it are, and how often it may come.
struct Group {
    trigger: usize,
    parent: usize,
    depth: usize,
    max: u32,
}

static GROUPS: [Group; 4] = [
    Group {
        trigger: 0,
        parent: 0,
        depth: 0,
        max: 1,
    },
    Group {
        trigger: 3,
        parent: 0,
        depth: 1,
        max: 2,
    },
    Group {
        trigger: 5,
        parent: 0,
        depth: 1,
        max: 3,
    },
    Group {
        trigger: 7,
        parent: 2,
        depth: 2,
        max: 2,
    },
];

/// The octets of level A.
static LEVEL_A: [bool; 256] = {
    let mut admitted = [false; 256];
    let mut octet = b' ' as usize;
    while octet <= b'Z' as usize {
        admitted[octet] =
            octet != b'#' as usize && octet != b'$' as usize && octet != b'@' as usize;
        octet += 1;
    }
    admitted
};

/// Whether a value passes the tests of its data element.
fn is_good(part: &Part, value: &[u8]) -> bool {
    let admitted = value
        .iter()
        .fold(true, |all, octet| all & LEVEL_A[*octet as usize]);
    let counted = match part.class {
        An => Some(value.len()),
        A if value.iter().any(u8::is_ascii_digit) => None,
        A => Some(value.len()),
        N => count_digits(value),
    };
    admitted
        && counted.is_some_and(|length| length <= part.max && (!part.exact || length == part.max))
        && (part.codes.is_empty() || part.codes.contains(&value))
}

/// How many digits a number has; `None` where these octets are none.
fn count_digits(value: &[u8]) -> Option<usize> {
    let unsigned = value.strip_prefix(b"-").unwrap_or(value);
    let marks = unsigned
        .iter()
        .filter(|octet| matches!(octet, b'.' | b','))
        .count();
    let digits = unsigned
        .iter()
        .filter(|octet| octet.is_ascii_digit())
        .count();
    let ends = unsigned.first()?.is_ascii_digit() && unsigned.last()?.is_ascii_digit();
    (ends && marks <= 1 && digits + marks == unsigned.len()).then_some(digits)
}

/// A component of a segment: the number of its element, 0 for the tag, and where it is in the text.
#[derive(Clone, Copy)]
struct Component {
    element: usize,
    from: usize,
    to: usize,
}

/// Where a message is in its table: the entry, how often it came in a row, and how often each group has come.
struct Walk {
    at: usize,
    times: u32,
    counts: [u32; 4],
}

impl Walk {
    const START: Walk = Walk {
        at: 0,
        times: 1,
        counts: [0; 4],
    };

    /// Goes to the first entry that a tag can be at. The answer is whether a group is opened there; `None`: there is no entry.
    fn go_to(&mut self, tag: &[u8]) -> Option<bool> {
        if TABLE[self.at].tag == tag && self.times < TABLE[self.at].max {
            self.times += 1;
            return Some(false);
        }
        let (at, opened) = self.later(tag).or_else(|| self.again(tag))?;
        if opened {
            let group = TABLE[at].group;
            self.counts[group] += 1;
            for inner in group + 1..GROUPS.len() {
                if GROUPS[inner].parent == group {
                    self.counts[inner] = 0;
                }
            }
        }
        self.at = at;
        self.times = 1;
        Some(opened)
    }

    /// The first later entry with a tag: one of a group that is open, or the trigger of another.
    fn later(&self, tag: &[u8]) -> Option<(usize, bool)> {
        (self.at + 1..TABLE.len())
            .filter(|at| TABLE[*at].tag == tag)
            .find_map(|at| {
                let group = TABLE[at].group;
                let open = self.is_open(group);
                (open || at == GROUPS[group].trigger).then_some((at, !open))
            })
    }

    /// The trigger of a group that is open, which comes once more.
    fn again(&self, tag: &[u8]) -> Option<(usize, bool)> {
        let mut group = TABLE[self.at].group;
        while group > 0 {
            if TABLE[GROUPS[group].trigger].tag == tag {
                return Some((GROUPS[group].trigger, true));
            }
            group = GROUPS[group].parent;
        }
        None
    }

    fn is_open(&self, group: usize) -> bool {
        let mut open = TABLE[self.at].group;
        while open != group && open > 0 {
            open = GROUPS[open].parent;
        }
        open == group
    }

    /// Whether the entry, or the group that was opened, is one too many.
    fn is_over(&self, opened: bool) -> bool {
        let group = TABLE[self.at].group;
        opened && self.counts[group] > GROUPS[group].max
    }
}

/// The reading of a text: what is printed of it so far, and what its heads have opened.
struct Reading<'a> {
    text: &'a [u8],
    components: Vec<Component>,
    segments: usize,
    errors: usize,
    lines: usize,
    tree: Vec<u8>,
    walk: Option<Walk>,
    control_reference: &'a [u8],
    message_reference: &'a [u8],
    messages: usize,
    opened_by: usize,
}

impl<'a> Reading<'a> {
    fn of(text: &'a [u8]) -> Reading<'a> {
        Reading {
            text,
            components: Vec::new(),
            segments: 0,
            errors: 0,
            lines: 0,
            tree: Vec::with_capacity(text.len() * 3 / 2),
            walk: None,
            control_reference: &[],
            message_reference: &[],
            messages: 0,
            opened_by: 0,
        }
    }

    fn octets(&self, component: Component) -> &'a [u8] {
        &self.text[component.from..component.to]
    }

    /// The value of a component of an element, both from 1.
    fn value(&self, element: usize, component: usize) -> &'a [u8] {
        let mut of_element = self
            .components
            .iter()
            .filter(|found| found.element == element);
        of_element
            .nth(component - 1)
            .map_or(&[], |found| self.octets(*found))
    }

    /// Reads the segment whose components were found.
    fn end_segment(&mut self) {
        self.segments += 1;
        let tag = self.octets(self.components[0]);
        match items_of(tag) {
            Some(items) => self.check_elements(items),
            None => self.errors += 1,
        }
        match tag {
            b"UNB" => self.control_reference = self.value(5, 1),
            b"UNZ" => self.close(self.messages, self.control_reference),
            b"UNH" => self.open_message(),
            b"UNT" => self.close(self.segments + 1 - self.opened_by, self.message_reference),
            _ => {}
        }
        self.place(tag);
        self.components.clear();
    }

    fn check_elements(&mut self, items: &[Item]) {
        let mut rest = &self.components[1..];
        for (number, item) in items.iter().enumerate() {
            let count = rest
                .iter()
                .take_while(|found| found.element == number + 1)
                .count();
            let (values, later) = rest.split_at(count);
            rest = later;
            if values.iter().all(|value| value.from == value.to) {
                self.errors += usize::from(item.must);
                continue;
            }
            for (place, part) in item.parts.iter().enumerate() {
                self.errors += usize::from(match values.get(place) {
                    Some(value) if value.from < value.to => {
                        !is_good(part, &self.text[value.from..value.to])
                    }
                    _ => part.must,
                });
            }
            self.errors += values
                .iter()
                .skip(item.parts.len())
                .filter(|value| value.from < value.to)
                .count();
        }
        self.errors += rest.iter().filter(|value| value.from < value.to).count();
    }

    fn open_message(&mut self) {
        let tabled = [1, 2, 3, 4].map(|component| self.value(2, component))
            == [b"TSTORD".as_slice(), b"D", b"96A", b"UN"];
        self.walk = tabled.then_some(Walk::START);
        self.message_reference = self.value(1, 1);
        self.opened_by = self.segments;
        self.messages += 1;
    }

    /// Compares the count and the reference of a UNT or a UNZ with what was read.
    fn close(&mut self, count: usize, reference: &[u8]) {
        let written = self.value(1, 1).iter().fold(0_usize, |sum, octet| {
            sum.wrapping_mul(10)
                .wrapping_add(usize::from(octet.wrapping_sub(b'0')))
        });
        self.errors += usize::from(written != count) + usize::from(self.value(2, 1) != reference);
    }

    /// Prints where a segment is, and the group that it opens.
    fn place(&mut self, tag: &[u8]) {
        let Some(walk) = &mut self.walk else {
            return self.put_line(b"- ", tag, None);
        };
        let opened = if tag == b"UNH" {
            Some(false)
        } else {
            walk.go_to(tag)
        };
        let Some(opened) = opened else {
            self.errors += 1;
            return self.put_line(b"! ", tag, None);
        };
        self.errors += usize::from(walk.is_over(opened));
        let Entry { node, group, .. } = TABLE[walk.at];
        let count = walk.counts[group];
        let depth = GROUPS[group].depth;
        if opened {
            self.indent(depth - 1);
            self.tree.extend_from_slice(b"group ");
            self.put_number(group);
            self.tree.push(b' ');
            self.put_number(count as usize);
            self.tree.push(b'\n');
            self.lines += 1;
        }
        self.indent(depth);
        self.put_line(b"= ", tag, Some(node as usize));
        if tag == b"UNT" {
            self.walk = None;
        }
    }

    fn put_line(&mut self, mark: &[u8], tag: &[u8], node: Option<usize>) {
        self.tree.extend_from_slice(mark);
        self.put_number(self.segments);
        self.tree.push(b' ');
        self.tree.extend_from_slice(tag);
        if let Some(node) = node {
            self.tree.push(b' ');
            self.put_number(node);
        }
        self.tree.push(b'\n');
        self.lines += 1;
    }

    fn indent(&mut self, groups: usize) {
        for _ in 0..groups {
            self.tree.extend_from_slice(b"  ");
        }
    }

    fn put_number(&mut self, number: usize) {
        let mut digits = [0; 20];
        let mut at = digits.len();
        let mut left = number;
        loop {
            at -= 1;
            digits[at] = b'0' + (left % 10) as u8;
            left /= 10;
            if left == 0 {
                break;
            }
        }
        self.tree.extend_from_slice(&digits[at..]);
    }
}

/// How many octets are compared at once.
const BLOCK: usize = 32;

/// Goes over a text, a block at a time, from one of the four characters to the next.
fn read(reading: &mut Reading<'_>) {
    let (mut element, mut from, mut released) = (0, 0, usize::MAX);
    for base in (0..reading.text.len()).step_by(BLOCK) {
        let mut marks = marks_in(reading.text, base);
        while marks != 0 {
            let at = base + marks.trailing_zeros() as usize;
            marks &= marks - 1;
            let octet = reading.text[at];
            if at == released {
                continue;
            }
            if octet == RELEASE {
                released = at + 1;
                continue;
            }
            reading.components.push(Component {
                element,
                from,
                to: at,
            });
            from = at + 1;
            match octet {
                COMPONENT => {}
                ELEMENT => element += 1,
                _ => {
                    reading.end_segment();
                    element = 0;
                }
            }
        }
    }
}

/// A bit for each octet of a block that is one of the four characters.
fn marks_in(text: &[u8], base: usize) -> u32 {
    let mut block = [0; BLOCK];
    let octets: &[u8; BLOCK] = match text[base..].first_chunk() {
        Some(octets) => octets,
        None => {
            block[..text.len() - base].copy_from_slice(&text[base..]);
            &block
        }
    };
    // The wide registers of every x86-64 processor.
    let found = |at: usize| unsafe {
        let octets = _mm_loadu_si128(octets[at..at + 16].as_ptr().cast());
        let is = |mark: u8| _mm_cmpeq_epi8(octets, _mm_set1_epi8(mark as i8));
        let separators = _mm_or_si128(is(COMPONENT), is(ELEMENT));
        _mm_movemask_epi8(_mm_or_si128(
            separators,
            _mm_or_si128(is(RELEASE), is(TERMINATOR)),
        )) as u32
    };
    found(0) | found(16) << 16
}

fn main() -> std::io::Result<()> {
    let Some(name) = std::env::args().nth(1) else {
        return Err(std::io::Error::other("usage: by_hand TEXT"));
    };
    let text = std::fs::read(name)?;
    let mut reading = Reading::of(&text);
    read(&mut reading);
    let mut out = std::io::stdout().lock();
    write!(out, "errors {}\ntree {}\n", reading.errors, reading.lines)?;
    out.write_all(&reading.tree)
}
