//! What calls are asked with: requests, the frames around them, tables.
use super::record::*;
use crate::chance::Chance;
use crate::record::{ASCII, RTU, TCP};
use crate::tables::record::{bytes_of, BITS_TABLES, MOST};
use crate::window::{calc_crc16, calc_lrc};

pub use crate::drive::model::table_of;

/// A tenth of the calls are of many cells: their function, whose table then has 2,048 coils or 128 registers.
pub fn wide(chance: &mut Chance) -> Option<u8> {
    chance.percent(10).then(|| chance.pick(&[1, 2, 3, 4, 15, 16]))
}

/// How many cells that table has, and the counts around each bound.
fn width(function: u8) -> (usize, &'static [usize]) {
    match function {
        1 | 2 => (2048, &[1999, 2000, 2001, 2040, 2041, 2048]),
        3 | 4 => (128, &[124, 125, 126, 127, 128]),
        15 => (2048, &[1967, 1968, 1969, 2040]),
        _ => (128, &[122, 123, 124, 127]),
    }
}

/// First cell and count of a request of many cells: any number of them, or one around a bound.
fn wide_extent(chance: &mut Chance, function: u8) -> (u16, u16) {
    let (cells, bounds) = width(function);
    let count = if chance.percent(50) { chance.pick(bounds) } else { 1 + chance.below(cells) };
    let last = cells - count;
    let reg = if chance.percent(10) { chance.near(last, 1) } else { chance.below(last + 1) };
    (reg as u16, count as u16)
}

/// Unit, function, first cell, count or value, and for functions 15 and 16 byte count and data; at least six bytes.
pub fn body(chance: &mut Chance, unit: u8, list: &[u8], tables: &[Lent; 4], wide: Option<u8>) -> Vec<u8> {
    let function = match (wide, chance.below(16)) {
        (Some(function), _) => function,
        (_, 0) => chance.byte(),
        (_, 1) => chance.pick(&[0, 7, 14, 17, 43, 127, 128, 255]),
        _ => chance.pick(&super::random::FUNCTIONS),
    };
    let unit = match chance.below(16) {
        0 => chance.byte(),
        1 | 2 => list.first().copied().unwrap_or(0),
        _ => unit,
    };
    let which = table_of(function);
    let cells = if tables[which].len == 0 { 40 } else { tables[which].cells_there(which) };
    let (reg, mut count) = match wide {
        Some(function) => wide_extent(chance, function),
        None => extent(chance, cells),
    };
    if wide.is_none() && chance.percent(8) {
        count = chance.pick(&[0, 123, 124, 125, 126, 1968, 1969, 2000, 2001, 65535]);
    }
    let value = match function {
        5 if chance.percent(85) => chance.pick(&[0, 0xFF00]),
        5 => chance.pick(&[1, 0xFF01, 0xFE00, 0x00FF]),
        6 => chance.word(),
        _ => count,
    };
    let mut body = vec![unit, function];
    body.extend(reg.to_be_bytes());
    body.extend(value.to_be_bytes());
    if matches!(function, 15 | 16) {
        data(chance, function, count.into(), &mut body);
    }
    body
}

/// Byte count and data, mostly matching.
fn data(chance: &mut Chance, function: u8, count: usize, body: &mut Vec<u8>) {
    let right = if function == 15 { count.div_ceil(8) } else { 2 * count };
    let right = if right > 255 { 0 } else { right };
    let (told, there) = match chance.below(60) {
        0..=4 => (chance.near(right, 2), chance.near(right, 2)),
        5..=7 => (chance.near(248, 4), chance.below(4)),
        8 => {
            let n = chance.near(248, 4);
            (n, n)
        }
        _ => (right, right),
    };
    body.push(told.min(255) as u8);
    body.extend(chance.bytes(there.min(255)));
}

/// First cell and count, mostly inside so many cells, few of them.
pub fn extent(chance: &mut Chance, cells: usize) -> (u16, u16) {
    let count = match chance.below(10) {
        0 => chance.near(cells.min(60), 1),
        1 => 0,
        _ => 1 + chance.below(cells.clamp(1, 12)),
    };
    let last = cells.saturating_sub(count);
    let reg = match chance.below(12) {
        0 => chance.word().into(),
        1 => chance.near(65536 - count, 1),
        2..=4 => chance.near(last, 1),
        _ => chance.below(last + 1),
    };
    (reg.min(65535) as u16, count as u16)
}

/// A frame whose unit stands at `start`, with the check where the crate looks for it and over what it takes it.
pub fn framed(chance: &mut Chance, proto: u8, start: usize, body: &[u8]) -> Vec<u8> {
    let mut buf = chance.bytes(start);
    if proto == TCP {
        let header = [chance.byte(), chance.byte(), 0, 0, 0, chance.pick(&[6, 6, 6, 7, 9, 250, 251, 5])];
        let n = start.min(6);
        buf[..n].copy_from_slice(&header[..n]);
    }
    buf.extend(body);
    checked(proto, start, buf)
}

/// The frame up to its end, with the check, where it is all there.
pub fn checked(proto: u8, start: usize, mut buf: Vec<u8>) -> Vec<u8> {
    let many = matches!(buf.get(start + 1), Some(15 | 16));
    let len = if many { 7 + buf.get(start + 6).map_or(0, |n| usize::from(*n)) } else { 6 };
    if len > 255 || start + len > buf.len() {
        return buf;
    }
    buf.truncate(start + len);
    match proto {
        RTU => buf.extend(calc_crc16(&buf, len as u8).to_le_bytes()),
        ASCII => buf.push(calc_lrc(&buf, len as u8)),
        _ => {}
    }
    buf
}

/// Cut, lengthened, a bit turned, or a byte replaced.
pub fn damage(chance: &mut Chance, bytes: &mut Vec<u8>) {
    match chance.below(5) {
        0 | 1 => bytes.truncate(chance.below(bytes.len() + 1)),
        2 => bytes.extend(chance.bytes_up_to(4)),
        _ if bytes.is_empty() => {}
        3 => {
            let at = chance.below(bytes.len());
            bytes[at] = chance.byte();
        }
        _ => {
            let at = chance.below(bytes.len());
            bytes[at] ^= 1 << chance.below(8);
        }
    }
}

/// Small tables, some with spare bytes, some too short for their cells, some of more cells than there may be; now and
/// then one of about 65,536 cells, and not two, so that the program that replays them needs room for one. The table of
/// a call of many cells holds them all.
pub fn tables(chance: &mut Chance, wide: Option<u8>) -> [Lent; 4] {
    let mut tables = small_tables(chance);
    if let Some(function) = wide {
        let which = table_of(function);
        let cells = width(function).0;
        let len = bytes_of(cells, BITS_TABLES[which]) + chance.below(2);
        tables[which] = Lent { front: chance.bytes(len), filler: chance.byte(), len, cells };
    }
    tables
}

fn small_tables(chance: &mut Chance) -> [Lent; 4] {
    let mut large = false;
    [COILS, DISCRETES, HOLDINGS, INPUTS].map(|which| {
        let bits = BITS_TABLES[which];
        let cells = match chance.below(2000) {
            0 if !large => {
                large = true;
                chance.near(MOST, 1)
            }
            0..=200 => chance.below(41),
            201..=300 => 0,
            _ if bits => chance.below(26),
            _ => chance.below(8),
        };
        let right = bytes_of(cells, bits);
        let len = match chance.below(24) {
            0 => right.saturating_sub(1 + chance.below(2)),
            1..=4 => right + 1 + chance.below(3),
            _ => right,
        };
        let most = if chance.percent(5) { 80 } else { 16 };
        let front = chance.bytes(len.min(most));
        let cells = match chance.below(40) {
            0 => chance.pick(&[MOST, MOST + 1, usize::MAX, usize::MAX / 2 + 1]),
            _ => cells,
        };
        Lent { front, filler: chance.byte(), len, cells }
    })
}
