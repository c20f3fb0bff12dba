//! Calls of rmodbus 0.13.0 and its answers, as records for the programs that compare the port with it.
//!
//!     vectors stream N SEED    at least N records of modules 1 to 3 in binary: the edges, the families, then random
//!                              ones up to N
//!     vectors tables N SEED    the same of module 4
//!     vectors drive N SEED     the same of the driver: whole frames, beside the crate's chain from parse to finalize
//!     vectors asking N SEED    the same of the asking side, beside the crate's client
//!     vectors frame N SEED     exactly N records of modules 5 to 7 as text: the edges, then random calls and chains
//!     vectors spoilt N SEED    the same, each field of an expected answer wrong in one record; their numbers are said
//!     vectors list SEED        the fixed list of modules 1 to 3 as text: the edges, then short random ones
//!     vectors sample SEED      the fixed list of modules 5 to 7 as text: every way out of every call
//!
//! It ends with an error where the crate panics and document 01 foresees none, or the other way round, where the crate
//! differs from document 01 in a way not known, and where a kind of answer that a call can give did not come up.
mod answer;
mod asking;
mod bounded;
mod chance;
mod drive;
mod edges;
mod exhaustive;
mod frame;
mod frames;
mod random;
mod record;
mod tables;
mod window;

use chance::Chance;
use drive::record::Answer;
use record::{Call, CALLS, FORMAT, HEAD, NAMES};
use std::collections::{BTreeMap, BTreeSet};
use std::io::{BufWriter, ErrorKind, StdoutLock, Write};
use std::ops::Range;
use std::process::exit;

const LIST: usize = 4400;
const LIST_RECORD: usize = 64; // the longest random record in the list

/// The kinds each call can answer, by call number.
#[rustfmt::skip]
const KINDS: [&[u8]; CALLS] = [
    &[], &[0], &[0, 23], &[0, 23], &[0, 21], &[0, 21, 23], &[0, 21], &[0, 10, 21, 23], &[0, 10, 21, 23],
    &[0, 21], &[0, 21], &[0, 21], &[0, 21], &[0, 21],
    &[0, 22], &[0, 22], &[0, 21, 22], &[0, 21, 22], &[0, 22],
    &[0, 22], &[0, 22], &[0, 21, 22], &[0, 21, 22], &[0, 22],
];

const MODULES_1_TO_3: Range<usize> = 1..9;
const MODULE_4: Range<usize> = 9..CALLS;

fn main() {
    let args: Vec<String> = std::env::args().skip(1).collect();
    let numbers: Vec<u64> = args.iter().skip(1).filter_map(|a| a.parse().ok()).collect();
    answer::hush_the_crate();
    match (args.first().map(String::as_str), &numbers[..]) {
        (Some("stream"), &[n, seed]) if args.len() == 3 => stream(n as usize, seed),
        (Some("tables"), &[n, seed]) if args.len() == 3 => tables(n as usize, seed),
        (Some("drive"), &[n, seed]) if args.len() == 3 => drive(n as usize, seed),
        (Some("asking"), &[n, seed]) if args.len() == 3 => asking(n as usize, seed),
        (Some("frame"), &[n, seed]) if args.len() == 3 => frame::stream(n as usize, seed),
        (Some("spoilt"), &[n, seed]) if args.len() == 3 => frame::spoilt(n as usize, seed),
        (Some("list"), &[seed]) if args.len() == 2 => list(seed),
        (Some("sample"), &[seed]) if args.len() == 2 => frame::sample(seed),
        _ => fail("usage: vectors stream|tables|drive|asking|frame|spoilt N SEED | vectors list|sample SEED"),
    }
}

fn stream(n: usize, seed: u64) {
    let mut out = Writer::new(false);
    edges::edges(&mut |call| out.put(call));
    edges::switches(&mut |call| out.put(call));
    exhaustive::exhaustive(seed, &mut |call| out.put(call));
    let mut chance = Chance(seed);
    while out.total() < n {
        let call = random::random(&mut chance);
        out.put(random::switched(&mut chance, call));
    }
    out.finish(MODULES_1_TO_3);
}

fn tables(n: usize, seed: u64) {
    let mut out = Writer::new(false);
    tables::edges::edges(&mut |call| out.put_table(call));
    tables::exhaustive::exhaustive(seed, &mut |call| out.put_table(call));
    let mut chance = Chance(seed);
    while out.total() < n {
        out.put_table(tables::random::random(&mut chance));
    }
    for known in tables::answer::DIFFERENCES {
        if !out.differences.contains(known) {
            fail(&format!("the crate never differed by this: {known}"));
        }
    }
    out.finish(MODULE_4);
}

/// Says at the end how often the crate differed in each way, with the shortest frame met, and how often it panicked.
fn drive(n: usize, seed: u64) {
    let mut out = Out::new();
    let mut total = 0;
    let mut ways: BTreeMap<&str, (usize, Vec<u8>, String)> = BTreeMap::new();
    let mut panics: BTreeMap<&str, usize> = BTreeMap::new();
    let mut put = |call: drive::record::Call| {
        let (answer, panicked) = drive::answer::answer(&call).unwrap_or_else(|why| fail(&format!("{why}: {call}")));
        out.bytes(&call.record(&answer));
        let Answer { outcome, code, named, .. } = answer;
        let mut differs = |way, said: &dyn Fn() -> String| {
            let (count, shortest, shown) = ways.entry(way).or_default();
            *count += 1;
            if *count == 1 || (call.frame.len(), &call.frame) < (shortest.len(), shortest) {
                *shown = format!("{} | outcome {outcome}, code {code}", said());
                shortest.clone_from(&call.frame);
            }
        };
        if let Some((way, left)) = &answer.difference {
            let stored = left.coils != answer.left.coils || left.holdings != answer.left.holdings;
            differs(way, &|| format!("reply {}{}", hex(&left.reply), if stored { "; stored" } else { "" }));
        }
        if let Some((way, changes)) = answer.renamed {
            differs(way, &|| format!("{changes:?}, and the result {named:?}"));
        }
        if let Some(stage) = panicked {
            *panics.entry(stage).or_default() += 1;
        }
        total += 1;
        total
    };
    drive::edges::edges(seed, &mut |call| {
        put(call);
    });
    let mut chance = Chance(seed);
    while put(drive::random::random(&mut chance)) < n {}
    out.flush();
    for way in drive::answer::WAYS.into_iter().chain(drive::answer::RENAMED) {
        let Some((count, shortest, said)) = ways.get(way) else {
            fail(&format!("the crate never differed by this: {way}"))
        };
        eprintln!("{count:8} {way} | {} | {said}", hex(shortest));
    }
    for stage in drive::answer::PANICS {
        let Some(count) = panics.get(stage) else { fail(&format!("the crate never panicked in {stage}")) };
        eprintln!("{count:8} panics in {stage}");
    }
    let renamed = drive::answer::RENAMED.len();
    let ways = ways.len() - renamed;
    eprintln!(
        "the crate differs in {ways} known ways, its changes in {renamed}, and panics in {} places",
        panics.len()
    );
}

/// Says at the end how often the crate differed in each way, with the smallest call met.
fn asking(n: usize, seed: u64) {
    let mut out = Out::new();
    let mut total = 0;
    let mut ways: BTreeMap<&str, (usize, Vec<u8>, String)> = BTreeMap::new();
    let mut put = |call: asking::Call| {
        let answer = asking::answer(&call).unwrap_or_else(|why| fail(&format!("{why}: {call}")));
        let record = call.record(&answer);
        out.bytes(&record);
        if let Some((way, theirs)) = answer.difference {
            let (count, smallest, said) = ways.entry(way).or_default();
            *count += 1;
            if *count == 1 || (record.len(), &record) < (smallest.len(), smallest) {
                *said = format!("{call} | {theirs} | {}, {}", answer.kind, answer.code);
                *smallest = record;
            }
        }
        total += 1;
        total
    };
    asking::edges().into_iter().for_each(|call| {
        put(call);
    });
    let mut chance = Chance(seed);
    while put(asking::random(&mut chance)) < n {}
    out.flush();
    for way in asking::WAYS {
        let Some((count, _, said)) = ways.get(way) else { fail(&format!("the crate never differed by this: {way}")) };
        eprintln!("{count:8} {way} | {said}");
    }
    eprintln!("the crate's client differs in {} known ways", ways.len());
}

fn hex(bytes: &[u8]) -> String {
    bytes.iter().map(|b| format!("{b:02X}")).collect()
}

fn list(seed: u64) {
    let mut out = Writer::new(true);
    let head = format!(
        "# Answers of the crate rmodbus 0.13.0, calls of modules 1 to 3, one record a line in hex digits.\n\
         # Made by `vectors list {seed}` (oracle/vectors, built by bin/beside); not to be edited by hand.\n\
         # Where the crate panics the answer is document 01's.\n{FORMAT}"
    );
    out.out.bytes(head.as_bytes());
    edges::edges(&mut |call| out.put(call));
    let mut chance = Chance(seed);
    while out.total() < LIST {
        let call = random::random(&mut chance);
        if call.size() <= LIST_RECORD {
            out.put(call);
        }
    }
    out.finish(MODULES_1_TO_3);
}

struct Writer {
    out: Out,
    as_text: bool,
    count: [usize; CALLS],
    seen: [[bool; 256]; CALLS],
    differences: BTreeSet<&'static str>,
}

impl Writer {
    fn new(as_text: bool) -> Self {
        let (out, differences) = (Out::new(), BTreeSet::new());
        Writer { out, as_text, count: [0; CALLS], seen: [[false; 256]; CALLS], differences }
    }

    fn total(&self) -> usize {
        self.count.iter().sum()
    }

    fn put(&mut self, call: Call) {
        let which = usize::from(call.which);
        let answer = answer::answer(&call).unwrap_or_else(|why| {
            fail(&format!(
                "{why}: {} small {} switch {} data_len {} room {} input {:02X?}",
                NAMES[which], call.small, call.hex, call.data_len, call.room, call.input
            ))
        });
        let mut record = call.record(&answer);
        if !self.as_text {
            record.insert(HEAD, call.hex);
        }
        self.put_record(which, answer.kind, &record);
    }

    fn put_table(&mut self, call: tables::record::Call) {
        let which = usize::from(call.which);
        let answer =
            tables::answer::answer(&call).unwrap_or_else(|why| fail(&format!("{why}: {} {call}", NAMES[which])));
        self.differences.extend(answer.difference);
        self.put_record(which, answer.kind, &call.record(&answer));
    }

    fn put_record(&mut self, which: usize, kind: u8, record: &[u8]) {
        self.count[which] += 1;
        self.seen[which][usize::from(kind)] = true;
        if self.as_text {
            self.out.line(record);
        } else {
            self.out.bytes(record);
        }
    }

    fn finish(mut self, calls: Range<usize>) {
        self.out.flush();
        for which in calls.clone() {
            for kind in 0..=255 {
                if self.seen[which][kind] != KINDS[which].contains(&(kind as u8)) {
                    fail(&format!(
                        "{}: kind {kind} came up where it should not, or did not where it should",
                        NAMES[which]
                    ));
                }
            }
        }
        let each: Vec<String> = calls.map(|w| format!("{} {}", NAMES[w], self.count[w])).collect();
        eprintln!("{} records: {}", self.total(), each.join(" "));
    }
}

/// Standard output.
struct Out(BufWriter<StdoutLock<'static>>);

impl Out {
    fn new() -> Self {
        Out(BufWriter::with_capacity(1 << 16, std::io::stdout().lock()))
    }

    /// A record as text.
    fn line(&mut self, record: &[u8]) {
        self.bytes((hex(record) + "\n").as_bytes());
    }

    fn bytes(&mut self, bytes: &[u8]) {
        self.0.write_all(bytes).unwrap_or_else(unwritten);
    }

    fn flush(&mut self) {
        self.0.flush().unwrap_or_else(unwritten);
    }
}

/// A reader that found a difference closes the pipe: that is status 3 and no message.
fn unwritten(why: std::io::Error) {
    if why.kind() == ErrorKind::BrokenPipe {
        exit(3);
    }
    fail(&why.to_string());
}

fn fail(why: &str) -> ! {
    eprintln!("vectors: {why}");
    exit(1)
}
