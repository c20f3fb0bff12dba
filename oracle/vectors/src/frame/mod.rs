//! Modules 5 to 7, the frame: records, the crate's answers to them, edges, random calls and whole chains.
mod answer;
mod ask;
mod chain;
mod context;
mod edges;
mod foreseen;
mod mark;
mod random;
pub mod record;
mod shape;
mod spoil;
mod stored;

use crate::chance::Chance;
use crate::record::TCP;
use crate::{fail, Out};
use foreseen::Site;
use record::{Call, Left, FORMAT, NAMES, PARSE};
use spoil::FIELDS;
use std::collections::{BTreeMap, BTreeSet};

/// The kinds each call can answer, from call 31 on.
#[rustfmt::skip]
const KINDS: [&[u8]; 11] = [
    &[0, 21, 23, 24], &[0, 21, 23, 27], &[0, 21, 23, 26], &[0, 21], &[0, 21, 23, 27], &[0, 21, 23, 25, 26],
    &[0, 21, 22, 23, 24, 26, 27], &[0, 21, 22, 23, 24, 26, 27], &[0, 21], &[0], &[0],
];

const LIST_RECORD: usize = 200; // the longest record of modules 5 to 7 in the list, but for those of a number

/// The fewest bytes of data that the largest of so many calls must have read and written.
const MANY: (usize, usize) = (250, 240);

/// Exactly n records as lines: the edges, then random calls and chains.
pub fn stream(n: usize, seed: u64) {
    let mut out = Out::new();
    let (mut seen, mut stored) = (Seen::default(), Stored::default());
    calls(n, seed, &mut |call, left, site| {
        seen.note(call, left, site);
        stored.note(call, left, site);
        out.line(&call.record(left));
    });
    out.flush();
    stored.finish();
    seen.finish();
}

/// The same, with one field of one record's answer spoilt, each field once; says the numbers of those records. The
/// first record that has the field is taken, from a place on that is another for each.
pub fn spoilt(n: usize, seed: u64) {
    let mut out = Out::new();
    let mut number = 0;
    let mut fields: Vec<usize> = (0..FIELDS.len()).rev().collect();
    calls(n, seed, &mut |call, left, _| {
        number += 1;
        let mut record = call.record(left);
        if let Some(field) = fields.last().copied().filter(|field| number > n / FIELDS.len() * field) {
            if spoil::spoil(field, &mut record) {
                eprintln!("{number} {}", FIELDS[field]);
                fields.pop();
            }
        }
        out.line(&record);
    });
    out.flush();
    if let Some(field) = fields.last() {
        fail(&format!("no record was left to spoil by {}", FIELDS[*field]));
    }
}

/// The fixed list: of every call each way out, each place where the crate panics, and each number in mark.rs.
pub fn sample(seed: u64) {
    let mut out = Out::new();
    let head = format!(
        "# Answers of the crate rmodbus 0.13.0, calls of modules 5 to 7, one record a line in hex digits.\n\
         # Made by `vectors sample {seed}` (oracle/vectors, built by bin/frame-runs); not to be edited by hand.\n\
         # Where the crate panics the answer is document 01's.\n{FORMAT}"
    );
    out.bytes(head.as_bytes());
    let (mut ways, mut marked) = (BTreeSet::new(), BTreeSet::new());
    let mut seen = Seen::default();
    calls(200_000, seed, &mut |call, left, site| {
        let record = call.record(left);
        let mut chosen = record.len() <= LIST_RECORD && ways.insert(way(call, left, site));
        for mark in mark::marks(call, left) {
            chosen |= marked.insert(mark);
        }
        if chosen {
            seen.note(call, left, site);
            out.line(&record);
        }
    });
    out.flush();
    seen.finish();
}

/// What tells one way out of a call from another.
fn way(call: &Call, left: &Left, site: Option<Site>) -> String {
    let (s, t) = (&call.state, &left.state);
    let done = (call.which, left.kind, site, t.error.filter(|_| s.error != t.error));
    let stored = call.serves() && call.table_bytes() != left.tables;
    let moved = s.response_len.cmp(&t.response_len);
    let func = if left.kind == 0 { t.func } else { 0 };
    format!("{done:?} {stored} {moved:?} {func} {} {}", s.proto == TCP, s.response_required != t.response_required)
}

/// Asks the crate n times and hands on what it leaves.
fn calls(n: usize, seed: u64, put: &mut dyn FnMut(&Call, &Left, Option<Site>)) {
    let made = std::cell::Cell::new(0);
    let mut ask = |call: Call| {
        let (left, site) = answer::answer(&call).unwrap_or_else(|why| fail(&format!("{why}: {call:?}")));
        if made.get() < n {
            put(&call, &left, site);
            made.set(made.get() + 1);
        }
        left
    };
    edges::edges(&mut |call| drop(ask(call)));
    let mut chance = Chance(seed);
    while made.get() < n {
        if chance.percent(25) {
            chain::chain(&mut chance, &mut ask);
        } else {
            ask(random::random(&mut chance));
        }
    }
}

/// What came of the calls of module 6 over the crate's own storage, and how many bytes of data the largest had.
#[derive(Default)]
struct Stored {
    compared: usize,
    ways: BTreeMap<&'static str, usize>,
    read: usize,
    written: usize,
}

impl Stored {
    fn note(&mut self, call: &Call, left: &Left, site: Option<Site>) {
        let (compared, way) = stored::compare(call, left, site).unwrap_or_else(|why| fail(&format!("{why}: {call:?}")));
        self.compared += usize::from(compared);
        if let Some(way) = way {
            *self.ways.entry(way).or_default() += 1;
        }
        if call.which == record::PROCESS_READ && left.kind == 0 {
            self.read = self.read.max(left.state.response_len.saturating_sub(call.state.response_len));
        }
        if call.which == record::PROCESS_WRITE {
            self.written = self.written.max(call.changed(left));
        }
    }

    fn finish(self) {
        for way in stored::WAYS {
            let Some(count) = self.ways.get(way) else { fail(&format!("over its own storage never: {way}")) };
            eprintln!("{count:8} over its own storage: {way}");
        }
        if self.read < MANY.0 || self.written < MANY.1 {
            fail(&format!("the largest read had {} bytes, the largest write {}", self.read, self.written));
        }
        eprintln!(
            "{} calls of module 6 over the crate's own storage, equal but in {} known ways; a response grew by up to {} bytes, a table changed in {}",
            self.compared,
            self.ways.len(),
            self.read,
            self.written
        );
    }
}

/// Which answers came up, and where the crate panicked.
#[derive(Default)]
struct Seen {
    kinds: BTreeMap<(u8, u8), usize>,
    sites: BTreeMap<&'static str, usize>,
}

impl Seen {
    fn note(&mut self, call: &Call, left: &Left, panicked: Option<Site>) {
        *self.kinds.entry((call.which, left.kind)).or_default() += 1;
        if let Some((site, _)) = panicked {
            *self.sites.entry(site).or_default() += 1;
        }
    }

    fn finish(self) {
        let mut said = Vec::new();
        for (which, kinds) in (PARSE..).zip(KINDS) {
            let seen: Vec<u8> = self.kinds.keys().filter(|key| key.0 == which).map(|key| key.1).collect();
            if seen != kinds {
                fail(&format!("{}: came up {seen:?} and not {kinds:?}", NAMES[usize::from(which - PARSE)]));
            }
            let count: usize = self.kinds.iter().filter(|(key, _)| key.0 == which).map(|(_, count)| count).sum();
            said.push(format!("{} {count}", NAMES[usize::from(which - PARSE)]));
        }
        for (site, _) in foreseen::SITES {
            let Some(count) = self.sites.get(site) else { fail(&format!("the crate never panicked in {site}")) };
            eprintln!("{count:8} panics in {site}");
        }
        let total: usize = self.kinds.values().sum();
        eprintln!("{total} records: {}", said.join(" "));
    }
}
