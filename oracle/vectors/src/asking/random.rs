//! Requests on both sides of every limit, and replies: right ones, and of another transaction, unit, function, byte count
//! or echo, cut or damaged.
use super::model;
use super::record::*;
use crate::chance::Chance;
use crate::drive::wire::wrap;
use crate::record::{ASCII, RTU, TCP};

const FIRST: To = To { tr_id: 0, unit: 1, proto: TCP };

fn get(func: u8, reg: u16, count: u16) -> Ask {
    Ask { func, reg, count, values: Vec::new() }
}

fn set(func: u8, reg: u16, values: Vec<u16>) -> Ask {
    Ask { func, reg, count: 0, values }
}

/// The smallest call of every known difference, and both sides of every limit.
pub fn edges() -> Vec<Call> {
    let mut calls = Vec::new();
    let mut build = |proto: u8, ask: Ask| calls.push(Call { to: To { proto, ..FIRST }, ask, reply: None, more: 12 });
    for proto in [RTU, ASCII, TCP] {
        for func in 1..=4 {
            let most = model::most(func) as u16;
            [0, 1, most, most + 1, 65535].iter().for_each(|n| build(proto, get(func, 0, *n)));
            build(proto, get(func, 65535, 1));
            build(proto, get(func, 65535, 2));
        }
        [0, 1, 2].iter().for_each(|v| build(proto, set(5, 0, vec![*v])));
        [0, 1, 65535].iter().for_each(|v| build(proto, set(6, 65535, vec![*v])));
        [0, 1, 7, 8, 9, 1968, 1969, 2040, 2041, 2048, 2049, 4000, 4001]
            .iter()
            .for_each(|n| build(proto, set(15, 0, vec![1; *n])));
        [0, 1, 123, 124, 125, 126].iter().for_each(|n| build(proto, set(16, 0, vec![0xABCD; *n])));
        build(proto, set(15, 65535, vec![1; 2]));
        build(proto, set(16, 65535, vec![1; 2]));
        build(proto, set(15, 0, vec![2]));
    }
    let mut read = |proto: u8, ask: Ask, reply: Vec<u8>| {
        calls.push(Call { to: To { proto, ..FIRST }, ask, reply: Some(reply), more: 0 });
    };
    for proto in [RTU, ASCII, TCP] {
        for body in BODIES {
            read(proto, get(3, 0, 1), wrap(proto, [0, 0], body));
            read(proto, get(1, 0, 9), wrap(proto, [0, 0], body));
            read(proto, set(6, 0, vec![1]), wrap(proto, [0, 0], body));
        }
    }
    read(TCP, get(3, 0, 1), b"\0\0\0\0\0\x06\x01\x03\x02\0\0".to_vec());
    read(ASCII, get(3, 0, 1), b"01030200 00FA\r\n".to_vec());
    read(ASCII, get(3, 0, 1), b"0103020000FA\r\n".to_vec());
    read(ASCII, get(3, 0, 1), b":0103020000FA".to_vec());
    read(ASCII, get(3, 0, 1), Vec::new());
    read(RTU, get(3, 0, 125), wrap(RTU, [0, 0], &[&[1, 3, 250][..], &[0; 252]].concat()));
    read(TCP, get(3, 0, 125), wrap(TCP, [0, 0], &[&[1, 3, 250][..], &[0; 252]].concat()));
    calls
}

const BODIES: [&[u8]; 13] = [
    &[1, 3, 2, 0, 0],
    &[1, 3, 0],
    &[1, 3, 1, 0],
    &[1, 3, 2, 0],
    &[1, 3, 4, 0, 0, 0, 0],
    &[1, 1, 2, 0xFF, 0xFF],
    &[1, 6, 0, 0, 0, 1],
    &[1, 6, 0, 0, 0, 0],
    &[1, 0x83, 0],
    &[1, 0x83, 2],
    &[1, 0x83, 11],
    &[1, 0x83, 2, 0],
    &[2, 3, 2, 0, 0],
];

pub fn random(chance: &mut Chance) -> Call {
    let to = To { tr_id: chance.word(), unit: chance.byte(), proto: chance.pick(&[RTU, ASCII, TCP]) };
    let reads = chance.percent(60);
    let ask = ask(chance, reads);
    let more = chance.pick(&[0, 0, 1, 40]);
    let mut call = Call { to, ask, reply: None, more };
    if reads {
        call.reply = Some(reply(chance, &call));
    }
    call
}

/// One that may be asked, where a reply is to be read.
fn ask(chance: &mut Chance, permitted: bool) -> Ask {
    let func = chance.pick(&[1, 2, 3, 4, 5, 6, 15, 16]);
    let most = model::most(func);
    let cells = match chance.below(10) {
        _ if matches!(func, 5 | 6) => 1,
        0 => most,
        1 if !permitted => chance.near(most, 2),
        2 if !permitted => chance.below(2300),
        3 if !permitted => 0,
        _ => 1 + chance.below(most.min(60)),
    };
    let reg = match chance.below(4) {
        0 => 65536 - cells.max(1) + if permitted { 0 } else { chance.below(2) },
        _ => chance.below(60000),
    };
    let bits = matches!(func, 5 | 15);
    let mut values: Vec<u16> =
        (0..if func <= 4 { 0 } else { cells }).map(|_| if bits { chance.word() & 1 } else { chance.word() }).collect();
    if bits && !permitted && !values.is_empty() && chance.percent(5) {
        let at = chance.below(values.len());
        values[at] = chance.pick(&[2, 128, 255]);
    }
    Ask { func, reg: reg.min(65535) as u16, count: if func <= 4 { cells as u16 } else { 0 }, values }
}

fn reply(chance: &mut Chance, call: &Call) -> Vec<u8> {
    let Ask { func, reg, values, .. } = &call.ask;
    let bytes = model::octets(*func, call.ask.cells());
    let mut tag = call.to.tr_id.to_be_bytes();
    let mut body = vec![call.to.unit, *func];
    if chance.percent(12) {
        body = vec![call.to.unit, func + 128, 1 + chance.below(11) as u8];
    } else if *func <= 4 {
        body.push(bytes as u8);
        body.extend(chance.bytes(bytes));
    } else {
        body.extend(reg.to_be_bytes());
        match func {
            5 => body.extend([if values[0] == 1 { 0xFF } else { 0 }, 0]),
            6 => body.extend(values[0].to_be_bytes()),
            _ => body.extend((values.len() as u16).to_be_bytes()),
        }
    }
    match chance.below(14) {
        0 => tag[chance.below(2)] ^= 1 << chance.below(8),
        1 => body[0] ^= 1 << chance.below(8),
        2 => body[1] = chance.pick(&[1, 2, 3, 4, 5, 6, 15, 16, 129, 131, 132, 144]),
        3 => body[2] = chance.near(body[2].into(), 2).min(255) as u8,
        4 => {
            let (at, bit) = (chance.below(body.len()), 1 << chance.below(8));
            body[at] ^= bit;
        }
        5 => body.truncate(chance.near(body.len(), 2).max(2)),
        6 => body.extend(chance.bytes_up_to(3)),
        _ => {}
    }
    let mut frame = wrap(call.to.proto, tag, &body);
    match chance.below(30) {
        0 => frame.truncate(chance.below(frame.len() + 1)),
        1 => {
            let (at, bit) = (chance.below(frame.len()), 1 << chance.below(8));
            frame[at] ^= bit;
        }
        2 => frame.extend(chance.bytes_up_to(3)),
        _ => {}
    }
    frame
}
