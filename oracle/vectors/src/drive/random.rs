//! Random calls: requests around each boundary, on every transport, then damaged before or after the check is made.
use super::chain::SHAPES;
use super::record::*;
use super::wire::*;
use crate::chance::Chance;
use crate::random::in_small;
use crate::record::{ASCII, LENIENT, RTU, STRICT, TCP};
use crate::tables::record::{bytes_of, Table};

pub fn random(chance: &mut Chance) -> Call {
    let shape = match chance.below(2500) {
        0 => 6 + chance.below(2),
        1..=500 => 4 + chance.below(2),
        _ => chance.below(4),
    };
    let mut call = lent(chance, shape);
    call.frame = frame(chance, &call);
    call
}

/// A setup without a frame: tables of this shape, mostly random, some with spare bytes.
pub fn lent(chance: &mut Chance, shape: usize) -> Call {
    let mut table = |which: usize| {
        let cells = SHAPES[shape][which];
        let len = bytes_of(cells, which < HOLDINGS) + chance.pick(&[0, 0, 0, 1, 3]);
        let bytes = if chance.percent(10) { vec![chance.pick(&[0, 255]); len] } else { chance.bytes(len) };
        Table { bytes, cells }
    };
    let tables = [0, 1, 2, 3].map(&mut table);
    let transport = chance.pick(&[RTU, ASCII, TCP]);
    let unit = if chance.percent(80) { 1 } else { chance.byte() };
    let list = match chance.below(20) {
        0 => vec![],
        1 => vec![0, 255],
        2 => vec![chance.byte(), chance.byte(), unit],
        _ => vec![0],
    };
    let room = if transport == ASCII { 511 } else { 260 } + chance.pick(&[0, 0, 1, 200]);
    let hex = chance.pick(&[STRICT, LENIENT]);
    Call { transport, unit, hex, list, tables, room, frame: Vec::new() }
}

fn frame(chance: &mut Chance, call: &Call) -> Vec<u8> {
    if chance.percent(1) {
        return chance.bytes_up_to(24);
    }
    let mut body = body(chance, call);
    if chance.percent(10) {
        damage(chance, &mut body);
    }
    let transaction = [chance.byte(), chance.byte()];
    if call.transport == RTU && chance.percent(3) {
        body.extend(crc(&body).to_le_bytes()); // a whole frame within a frame
        body.extend(chance.bytes_up_to(3));
    } else if call.transport == ASCII && chance.percent(3) {
        body.push(lrc(&body));
        body.extend(chance.bytes_up_to(3));
    }
    let mut frame = wrap(call.transport, transaction, &body);
    if (call.transport, call.hex) == (ASCII, LENIENT) && chance.percent(60) {
        in_small(chance, &mut frame);
    }
    match chance.below(20) {
        0 => damage(chance, &mut frame),
        1 if call.transport == ASCII => text_damage(chance, &mut frame),
        1 if call.transport == RTU => frame.extend(chance.bytes_up_to(270)),
        1 => frame[5] = chance.byte().min(251),
        2 if call.transport == RTU => {
            let at = frame.len() - 1 - chance.below(2);
            frame[at] ^= 1 << chance.below(8); // the check
        }
        _ => {}
    }
    frame
}

/// Unit, function, start, count or value, byte count and data.
fn body(chance: &mut Chance, call: &Call) -> Vec<u8> {
    let function = match chance.below(12) {
        0 => chance.pick(&[0, 7, 14, 17, 21, 24, 43, 100, 127, 128, 129, 255]),
        _ => chance.pick(&[1, 2, 3, 4, 5, 6, 15, 15, 16, 16, 22, 23]),
    };
    let unit = match chance.below(14) {
        0 => chance.byte(),
        1 | 2 => call.list.first().copied().unwrap_or(0),
        _ => call.unit,
    };
    let cells = if super::model::served(function) { call.tables[super::model::table_of(function)].cells } else { 9 };
    let most = match function {
        1 | 2 => 2000,
        3 | 4 | 23 => 125,
        15 => 1968,
        _ => 123,
    };
    let count = count_near(chance, cells, most);
    let start = start_near(chance, cells, if matches!(function, 5 | 6 | 22) { 1 } else { count });
    let value = match function {
        5 if chance.percent(90) => chance.pick(&[0, 0xFF00]),
        5 | 6 | 22 => chance.word().into(),
        _ => count,
    };
    let mut body = vec![unit, function];
    body.extend((start as u16).to_be_bytes());
    body.extend((value as u16).to_be_bytes());
    match function {
        15 => data(chance, &mut body, count.div_ceil(8)),
        16 => data(chance, &mut body, 2 * count),
        22 => body.extend(chance.word().to_be_bytes()),
        23 => {
            let written = count_near(chance, cells, 121);
            let over = chance.percent(40); // what is read
            let first = if over { chance.near(start, 3) } else { start_near(chance, cells, written) };
            body.extend((first as u16).to_be_bytes());
            body.extend((written as u16).to_be_bytes());
            data(chance, &mut body, 2 * written);
        }
        _ => {}
    }
    body
}

/// So many cells, mostly within the table and the function's limit.
fn count_near(chance: &mut Chance, cells: usize, most: usize) -> usize {
    match chance.below(12) {
        0 => chance.pick(&[0, most - 1, most, most + 1]),
        1 => chance.pick(&[0, 1, 0xFF00, 65535]),
        2 => chance.word().into(),
        3 => chance.near(cells.min(most), 1),
        _ => 1 + chance.below(cells.clamp(1, most)),
    }
}

/// Where they begin, mostly within the table.
fn start_near(chance: &mut Chance, cells: usize, asked: usize) -> usize {
    let last = cells.saturating_sub(asked);
    match chance.below(10) {
        0 => chance.word().into(),
        1 => chance.near(65536 - asked.clamp(1, 65536), 1).min(65535),
        2 => chance.near(last, 1),
        _ => chance.below(last + 1),
    }
}

/// The byte count, mostly the right one, and its bytes.
fn data(chance: &mut Chance, body: &mut Vec<u8>, right: usize) {
    let bytes = match chance.below(12) {
        0 => chance.near(right, 2),
        1 => chance.below(256),
        2 if chance.percent(30) => chance.near(248, 3),
        _ => right,
    };
    body.push(bytes.min(255) as u8);
    body.extend(chance.bytes(bytes.min(255)));
}

/// Cut, lengthened, or a bit turned.
fn damage(chance: &mut Chance, bytes: &mut Vec<u8>) {
    match chance.below(4) {
        0 => bytes.truncate(chance.below(bytes.len() + 1)),
        1 => bytes.extend(chance.bytes_up_to(4)),
        2 if chance.percent(10) => bytes.extend(chance.bytes_up_to(270)),
        _ if bytes.is_empty() => {}
        _ => {
            let at = chance.below(bytes.len());
            bytes[at] ^= 1 << chance.below(8);
        }
    }
}

/// The colon, CR or LF gone, another end, text after it, or lower case.
fn text_damage(chance: &mut Chance, text: &mut Vec<u8>) {
    if chance.percent(25) {
        text.remove(0);
    }
    match chance.below(8) {
        0 => text.truncate(text.len() - 1),
        1 => text.truncate(text.len() - 2),
        2 => text.extend(chance.pick(&[&b"\r\n"[..], b"\n", b"0", b":0103", b"\0"])),
        3 => *text.last_mut().expect("a line") = chance.pick(b"\0 \rA"),
        4 => text.make_ascii_lowercase(),
        5 => {
            let at = text.len() - 2;
            text[at] = chance.pick(b"\0\n0");
        }
        _ => {}
    }
}
