//! Random calls on arbitrary states: frames nearly right, every field likely or anything, room that lacks little.
use super::ask::error_codes;
use super::record::*;
use super::shape::*;
use crate::chance::Chance;
use crate::record::TCP;

pub const FUNCTIONS: [u8; 8] = [1, 2, 3, 4, 5, 6, 15, 16];
const READS: [u8; 4] = [1, 2, 3, 4];
const WRITES: [u8; 4] = [5, 6, 15, 16];

/// How often each call is asked, in a hundred; those left are of `new`.
const SHARES: [(u8, usize); 10] = [
    (PARSE, 26),
    (PROCESS_READ, 13),
    (PROCESS_WRITE, 16),
    (FINALIZE_RESPONSE, 11),
    (GET_EXTERNAL_READ, 9),
    (GET_EXTERNAL_WRITE, 11),
    (PROCESS_EXTERNAL_READ, 4),
    (PROCESS_EXTERNAL_WRITE, 6),
    (SET_MODBUS_ERROR_IF_UNSET, 2),
    (CHANGES, 1),
];

pub const REPORTS: [u8; 9] = [1, 2, 21, 22, 23, 24, 25, 26, 27];

pub fn random(chance: &mut Chance) -> Call {
    let which = asked(chance);
    let (unit_id, proto) = (if chance.percent(85) { 1 } else { chance.byte() }, chance.below(3) as u8);
    let list = list(chance, unit_id);
    let wide = wide(chance);
    let tables = if matches!(which, PROCESS_READ | PROCESS_WRITE) { tables(chance, wide) } else { Default::default() };
    let body = body(chance, unit_id, &list, &tables, wide);
    let start = start(chance, proto);
    let mut buf = framed(chance, proto, start, &body);
    if chance.percent(12) {
        damage(chance, &mut buf);
    }
    if chance.below(300) == 0 {
        let len = chance.below(301);
        buf.resize(len, chance.byte());
    }
    let mut state = state(chance, which, &body, &tables);
    if wide.is_some() && chance.percent(90) {
        // as the frame says it
        state.func = body[1];
        state.reg = u16::from_be_bytes([body[2], body[3]]);
        state.count = u16::from_be_bytes([body[4], body[5]]);
    }
    state.unit_id = unit_id;
    state.proto = proto;
    state.frame_start = if chance.percent(80) { start } else { anywhere(chance, buf.len()) };
    let reported = match which {
        PROCESS_EXTERNAL_READ | PROCESS_EXTERNAL_WRITE if chance.percent(50) => 0,
        PROCESS_EXTERNAL_READ | PROCESS_EXTERNAL_WRITE | SET_MODBUS_ERROR_IF_UNSET => chance.pick(&REPORTS),
        _ => 0,
    };
    let mut call = Call { which, reported, state, buf, list, room: 0, given: Vec::new(), tables };
    room(chance, &mut call, if wide.is_some() { 270 } else { 40 });
    call
}

fn asked(chance: &mut Chance) -> u8 {
    let mut n = chance.below(100);
    for (which, share) in SHARES {
        if n < share {
            return which;
        }
        n -= share;
    }
    NEW
}

pub fn list(chance: &mut Chance, unit: u8) -> Vec<u8> {
    match chance.below(16) {
        0 => vec![],
        1 => vec![0, 255],
        2 => vec![chance.byte(), unit],
        3 => chance.bytes_up_to(4),
        _ => vec![0],
    }
}

/// Mostly where the transport has the unit.
fn start(chance: &mut Chance, proto: u8) -> usize {
    match chance.below(10) {
        0 => chance.below(9),
        _ if proto == TCP => 6,
        _ => 0,
    }
}

/// At the frame's end, at the end of all numbers, or anything.
fn anywhere(chance: &mut Chance, len: usize) -> usize {
    match chance.below(4) {
        0 => chance.near(len, 9),
        1 => usize::MAX - chance.below(10),
        2 => chance.pick(&[0, 6, 65535, isize::MAX as usize, isize::MAX as usize + 1]),
        _ => chance.below(usize::MAX),
    }
}

/// Function, first cell and count mostly as the frame says them or as the tables have them.
fn state(chance: &mut Chance, which: u8, body: &[u8], tables: &[Lent; 4]) -> State {
    let mut s = fresh(1, 0);
    s.processing_required = chance.percent(50);
    s.response_required = chance.percent(50);
    s.readonly = chance.percent(50);
    s.func = match which {
        PROCESS_READ | GET_EXTERNAL_READ | PROCESS_EXTERNAL_READ if chance.percent(90) => chance.pick(&READS),
        PROCESS_WRITE | GET_EXTERNAL_WRITE | PROCESS_EXTERNAL_WRITE if chance.percent(90) => chance.pick(&WRITES),
        _ => chance.pick(&FUNCTIONS),
    };
    if FUNCTIONS.contains(&body[1]) && chance.percent(60) {
        s.func = body[1];
    }
    s.responding_to_fn = match chance.below(4) {
        0 => chance.byte(),
        1 => chance.pick(&[126, 127, 128, 129, 255]),
        _ => s.func,
    };
    let cells = tables[table_of(s.func)].cells_there(table_of(s.func));
    (s.reg, s.count) = match chance.below(10) {
        0 => (chance.word(), chance.word()),
        1 => (chance.pick(&[0, 65535, 65528]), chance.pick(&COUNTS)),
        2 => (chance.near(cells, 3).min(65535) as u16, chance.below(9) as u16),
        3 | 4 => extent(chance, cells),
        _ => (u16::from_be_bytes([body[2], body[3]]), u16::from_be_bytes([body[4], body[5]])),
    };
    s.error = chance.percent(30).then(|| chance.pick(&error_codes()));
    s.response_len = match chance.below(24) {
        0 => chance.near(255, 4),
        1 => chance.below(usize::MAX),
        2..=12 => 0,
        13..=17 => 4,
        _ => chance.below(12),
    };
    s
}

const COUNTS: [u16; 18] =
    [0, 1, 7, 8, 9, 125, 126, 127, 128, 2000, 2001, 2040, 2041, 32766, 32767, 32768, 65534, 65535];

/// Nothing lent, too little, as much as is needed or one byte less, plenty.
fn room(chance: &mut Chance, call: &mut Call, plenty: usize) {
    let held = call.state.response_len;
    let held = if held > 300 { 0 } else { held };
    call.room = held + plenty;
    if held == 0 && call.state.response_len > 0 {
        call.room = chance.below(20);
        return;
    }
    let needed = super::answer::answer(call).map_or(0, |(left, _)| left.state.response_len);
    call.room = match chance.below(12) {
        0 => chance.below(held + 1),
        1 => held,
        2 | 3 => held + chance.below(12),
        4..=6 => needed.max(held),
        7 if plenty > 40 && chance.percent(80) => needed.max(held),
        7 => needed.max(held + 1) - 1,
        8 if chance.percent(4) => held + 260,
        _ => needed.max(held) + chance.below(4),
    };
}
