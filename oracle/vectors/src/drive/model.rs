//! Document 01's driver, with document 02's functions 22 and 23, its switch for lower case and the cells that a result
//! names, written plainly from the pages.
use super::record::*;
use super::wire::*;
use crate::record::{ASCII, LENIENT, RTU};

pub const ANSWERED: u8 = 0;
pub const BROADCAST_DONE: u8 = 1;
pub const EXCEPTION: u8 = 2;
pub const BROADCAST_IGNORED: u8 = 3;
pub const FOREIGN: u8 = 4;
pub const FRAME_BROKEN: u8 = 5;
pub const FRAME_CHECK: u8 = 6;
pub const WRONG_LENGTH: u8 = 7;
pub const BAD_FUNCTION: u8 = 8;
pub const NO_ROOM: u8 = 9;

pub fn served(function: u8) -> bool {
    matches!(function, 1..=6 | 15 | 16 | 22 | 23)
}

/// The table of a function that is served.
pub fn table_of(function: u8) -> usize {
    match function {
        1 | 5 | 15 => COILS,
        2 => DISCRETES,
        4 => INPUTS,
        _ => HOLDINGS,
    }
}

/// Outcome, code, the cells written, and what is left.
pub fn drive(call: &Call) -> (u8, u8, Cells, Left) {
    let (outcome, code, body) = match opened(call) {
        Ok(body) => {
            let (outcome, code) = judge(call, &body);
            (outcome, code, body)
        }
        Err(outcome) => (outcome, 0, Vec::new()),
    };
    let mut left = call.untouched();
    let reply = match outcome {
        ANSWERED | BROADCAST_DONE => serve(call, &body, &mut left),
        EXCEPTION => vec![body[0], body[1] + 128, code],
        _ => Vec::new(),
    };
    if outcome == ANSWERED || outcome == EXCEPTION {
        left.reply = wrap(call.transport, transaction(call.transport, &call.frame), &reply);
    }
    let named = if outcome == ANSWERED || outcome == BROADCAST_DONE { written(&body) } else { NO_CELLS };
    (outcome, code, named, left)
}

/// The cells that a request writes once it is served.
fn written(body: &[u8]) -> Cells {
    let cells = |table, first, count| (table, word(body, first) as u16, count);
    match body[1] {
        5 => cells(1, 2, 1),
        15 => cells(1, 2, word(body, 4) as u16),
        6 | 22 => cells(3, 2, 1),
        16 => cells(3, 2, word(body, 4) as u16),
        23 => cells(3, 6, word(body, 8) as u16),
        _ => NO_CELLS,
    }
}

fn opened(call: &Call) -> Result<Vec<u8>, u8> {
    if call.room < if call.transport == ASCII { 511 } else { 260 } {
        return Err(NO_ROOM);
    }
    unwrap(call.transport, call.hex, &call.frame)
}

/// From the unit byte, without check; or FrameBroken, FrameCheck. A lenient line may have each digit in either case.
pub fn unwrap(transport: u8, hex: u8, frame: &[u8]) -> Result<Vec<u8>, u8> {
    match transport {
        RTU => {
            if !(4..=256).contains(&frame.len()) {
                return Err(FRAME_BROKEN);
            }
            let (body, check) = frame.split_at(frame.len() - 2);
            if crc(body).to_le_bytes() == check {
                Ok(body.to_vec())
            } else {
                Err(FRAME_CHECK)
            }
        }
        ASCII => {
            let digits = frame.strip_prefix(b":").and_then(|f| f.strip_suffix(b"\r\n")).ok_or(FRAME_BROKEN)?;
            let even = digits.len() % 2 == 0 && (6..=508).contains(&digits.len());
            let value = |c: &u8| match c {
                b'0'..=b'9' => Ok(c - b'0'),
                b'A'..=b'F' => Ok(c - b'A' + 10),
                b'a'..=b'f' if hex == LENIENT => Ok(c - b'a' + 10),
                _ => Err(FRAME_BROKEN),
            };
            let values: Vec<u8> = digits.iter().map(value).collect::<Result<_, _>>()?;
            if !even {
                return Err(FRAME_BROKEN);
            }
            let mut body: Vec<u8> = values.chunks(2).map(|pair| 16 * pair[0] + pair[1]).collect();
            if lrc(&body) != 0 {
                return Err(FRAME_CHECK);
            }
            body.pop();
            Ok(body)
        }
        _ => {
            let right = (8..=260).contains(&frame.len()) && word(frame, 2) == 0 && word(frame, 4) == frame.len() - 6;
            if right {
                Ok(frame[6..].to_vec())
            } else {
                Err(FRAME_BROKEN)
            }
        }
    }
}

/// From Foreign on: outcome and code.
fn judge(call: &Call, body: &[u8]) -> (u8, u8) {
    let (unit, function) = (body[0], body[1]);
    let broadcast = call.list.contains(&unit);
    let fault = |code| (if broadcast { BROADCAST_IGNORED } else { EXCEPTION }, code);
    if !broadcast && unit != call.unit {
        return (FOREIGN, 0);
    }
    if function >= 128 {
        return (BAD_FUNCTION, 0);
    }
    if !served(function) {
        return fault(1);
    }
    if broadcast && matches!(function, 1..=4 | 23) {
        return (BROADCAST_IGNORED, 0);
    }
    if body.len() != extent(body) {
        return (WRONG_LENGTH, 0);
    }
    if !value_right(body) {
        return fault(3);
    }
    let cells = call.tables[table_of(function)].cells;
    let write_outside = function == 23 && word(body, 6) + word(body, 8) > cells;
    if word(body, 2) + cells_asked(body) > cells || write_outside {
        return fault(2);
    }
    (if broadcast { BROADCAST_DONE } else { ANSWERED }, 0)
}

/// How long a request of this function is; for 15 and 16 at least 7, for 23 at least 11.
pub fn extent(body: &[u8]) -> usize {
    let and_data = |at: usize| at + 1 + body.get(at).map_or(0, |bytes| usize::from(*bytes));
    match body[1] {
        1..=6 => 6,
        22 => 8,
        23 => and_data(10),
        _ => and_data(6),
    }
}

pub fn value_right(body: &[u8]) -> bool {
    let count = word(body, 4);
    match body[1] {
        1 | 2 => (1..=2000).contains(&count),
        3 | 4 => (1..=125).contains(&count),
        5 => count == 0xFF00 || count == 0,
        15 => (1..=1968).contains(&count) && usize::from(body[6]) == count.div_ceil(8),
        16 => (1..=123).contains(&count) && usize::from(body[6]) == 2 * count,
        23 => {
            let written = word(body, 8);
            (1..=125).contains(&count) && (1..=121).contains(&written) && usize::from(body[10]) == 2 * written
        }
        _ => true,
    }
}

/// From the first on; for 23 those that are read.
pub fn cells_asked(body: &[u8]) -> usize {
    if matches!(body[1], 5 | 6 | 22) {
        1
    } else {
        word(body, 4)
    }
}

/// The reply from the unit byte on; a write is done in `left`.
fn serve(call: &Call, body: &[u8], left: &mut Left) -> Vec<u8> {
    let (start, count) = (word(body, 2), word(body, 4));
    match body[1] {
        1..=4 => return read(call, body),
        5 => put_bit(&mut left.coils, start, count != 0),
        6 => left.holdings[2 * start..][..2].copy_from_slice(&body[4..6]),
        15 => (0..count).for_each(|i| put_bit(&mut left.coils, start + i, bit(&body[7..], i))),
        22 => {
            let (old, and, or) = (word(&left.holdings, 2 * start), word(body, 4), word(body, 6));
            let new = (old & and | or & !and) as u16;
            left.holdings[2 * start..][..2].copy_from_slice(&new.to_be_bytes());
            return body.to_vec();
        }
        23 => {
            let data = &body[11..]; // written first
            left.holdings[2 * word(body, 6)..][..data.len()].copy_from_slice(data);
            let read = &left.holdings[2 * start..][..2 * count];
            return [&body[..2], &[read.len() as u8], read].concat();
        }
        _ => left.holdings[2 * start..][..2 * count].copy_from_slice(&body[7..]),
    }
    body[..6].to_vec()
}

/// The reply to a read of cells that are there, from the unit byte on.
pub fn read(call: &Call, body: &[u8]) -> Vec<u8> {
    let (start, count, table) = (word(body, 2), word(body, 4), &call.tables[table_of(body[1])].bytes);
    let data = if body[1] <= 2 {
        let mut data = vec![0; count.div_ceil(8)];
        (0..count).for_each(|i| put_bit(&mut data, i, bit(table, start + i)));
        data
    } else {
        table[2 * start..2 * (start + count)].to_vec()
    };
    [&body[..2], &[data.len() as u8], &data[..]].concat()
}

pub fn bit(table: &[u8], cell: usize) -> bool {
    table[cell / 8] >> (cell % 8) & 1 == 1
}

pub fn put_bit(table: &mut [u8], cell: usize, value: bool) {
    let mask = 1 << (cell % 8);
    table[cell / 8] = if value { table[cell / 8] | mask } else { table[cell / 8] & !mask };
}
