//! The asking side, written plainly from document 02.
use super::record::*;
use crate::drive::model::{unwrap, ANSWERED, EXCEPTION};
use crate::drive::wire::{word, wrap};
use crate::record::{STRICT, TCP};

/// How many cells a function may name.
pub fn most(func: u8) -> usize {
    match func {
        1 | 2 => 2000,
        3 | 4 => 125,
        15 => 1968,
        16 => 123,
        _ => 1,
    }
}

/// The data bytes that so many cells take.
pub fn octets(func: u8, cells: usize) -> usize {
    if matches!(func, 1 | 2 | 15) {
        cells.div_ceil(8)
    } else {
        2 * cells
    }
}

fn body(call: &Call) -> Vec<u8> {
    let Ask { func, reg, values, .. } = &call.ask;
    let mut body = vec![call.to.unit, *func];
    body.extend(reg.to_be_bytes());
    match func {
        5 => body.extend([if values[0] == 1 { 0xFF } else { 0 }, 0]),
        6 => body.extend(values[0].to_be_bytes()),
        _ => body.extend((call.ask.cells() as u16).to_be_bytes()),
    }
    if matches!(func, 15 | 16) {
        let mut data = vec![0; octets(*func, values.len())];
        for (i, value) in values.iter().enumerate() {
            if *func == 15 {
                data[i / 8] |= (*value as u8) << (i % 8);
            } else {
                data[2 * i..2 * i + 2].copy_from_slice(&value.to_be_bytes());
            }
        }
        body.push(data.len() as u8);
        body.extend(data);
    }
    body
}

fn is_permitted(ask: &Ask) -> bool {
    let fit = !matches!(ask.func, 5 | 15) || ask.values.iter().all(|v| *v <= 1);
    fit && (1..=most(ask.func)).contains(&ask.cells()) && usize::from(ask.reg) + ask.cells() <= 65536
}

pub fn answer(call: &Call) -> Answer {
    if !is_permitted(&call.ask) {
        return Answer { kind: BAD_REQUEST, ..Answer::default() };
    }
    let body = body(call);
    let frame = wrap(call.to.proto, call.to.tr_id.to_be_bytes(), &body);
    match &call.reply {
        None => Answer { frame, ..Answer::default() },
        Some(reply) => {
            let (kind, code, values) = read(call, &body, reply);
            Answer { kind, code, values, frame, ..Answer::default() }
        }
    }
}

fn read(call: &Call, sent: &[u8], reply: &[u8]) -> (u8, u8, Vec<u16>) {
    let (func, cells) = (sent[1], call.ask.cells());
    let bytes = octets(func, cells);
    let body = match unwrap(call.to.proto, STRICT, reply) {
        Ok(body) => body,
        Err(outcome) => return (outcome, 0, Vec::new()),
    };
    let other_tag = call.to.proto == TCP && reply[..2] != call.to.tr_id.to_be_bytes();
    if other_tag || body[0] != sent[0] {
        return (NOT_MY_REPLY, 0, Vec::new());
    }
    match &body[1..] {
        [f, code] if *f == func + 128 && *code != 0 => (EXCEPTION, *code, Vec::new()),
        _ if func > 4 && body == sent[..6] => (ANSWERED, 0, Vec::new()),
        [f, n, data @ ..] if func <= 4 && *f == func && usize::from(*n) == bytes && data.len() == bytes => {
            let bit = |i: usize| u16::from(data[i / 8] >> (i % 8) & 1);
            (ANSWERED, 0, (0..cells).map(|i| if func <= 2 { bit(i) } else { word(data, 2 * i) as u16 }).collect())
        }
        _ => (NOT_MY_REPLY, 0, Vec::new()),
    }
}
