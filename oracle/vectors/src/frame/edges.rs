//! The edges: every call of every function on every transport, over frames that end at each byte, starts at the ends of
//! the frame and of all numbers, and responses that lack each byte.
use super::ask::error_codes;
use super::random::{FUNCTIONS, REPORTS};
use super::record::*;
use crate::record::TCP;
use crate::tables::record::{bytes_of, BITS_TABLES};

const MAX: usize = usize::MAX;

/// Function 15's or 16's byte count is 2, as is twice the count.
const BODY: [u8; 9] = [1, 0, 0, 1, 0, 1, 2, 0xA5, 0x3C];

fn plain_call(which: u8, proto: u8, func: u8, buf: &[u8], start: usize) -> Call {
    let table = |cells: usize, len: usize| Lent { front: (1..=len as u8).collect(), filler: 0xC3, len, cells };
    let state = State { frame_start: start, func, reg: 1, count: 1, responding_to_fn: func, ..fresh(1, proto) };
    let tables = [table(10, 2), table(9, 3), table(3, 6), table(4, 8)];
    Call { which, reported: 0, state, buf: buf.to_vec(), list: vec![0], room: 20, given: Vec::new(), tables }
}

/// This request where its unit stands at `start`.
fn framed(proto: u8, func: u8, start: usize) -> Vec<u8> {
    let mut buf = vec![0; start];
    if proto == TCP && start > 5 {
        buf[5] = 6;
    }
    buf.extend(BODY);
    buf[start + 1] = func;
    if func == 5 {
        buf[start + 4..start + 6].copy_from_slice(&[0xFF, 0]);
    }
    if func == 15 {
        buf[start + 6] = 1;
        buf.truncate(start + 8);
    }
    buf
}

pub fn edges(put: &mut dyn FnMut(Call)) {
    for (proto, func) in (0..3).flat_map(|p| FUNCTIONS.map(|f| (p, f))) {
        let start = if proto == TCP { 6 } else { 0 };
        let whole = framed(proto, func, start);
        for which in PARSE..=NEW {
            let call = plain_call(which, proto, func, &whole, start);
            ends(&call, put);
            rooms(&call, put);
            counts(&call, put);
            errors(&call, put);
        }
        parses(proto, func, start, put);
    }
}

/// Frames cut at each byte, and starts at the ends.
fn ends(call: &Call, put: &mut dyn FnMut(Call)) {
    let len = call.buf.len();
    let report = call.which == SET_MODBUS_ERROR_IF_UNSET;
    for n in 0..=len {
        put(Call { buf: call.buf[..n].to_vec(), reported: if report { 25 } else { 0 }, ..call.clone() });
    }
    for back in 0..10 {
        for frame_start in [MAX - back, len + 1 - back.min(len)] {
            let state = State { frame_start, ..call.state.clone() };
            for room in [1, 20] {
                put(Call { state: state.clone(), room, reported: if report { 1 } else { 0 }, ..call.clone() });
            }
        }
    }
}

/// Each room up to plenty, over responses that hold nothing, TCP's header, and as much as a check is taken of.
fn rooms(call: &Call, put: &mut dyn FnMut(Call)) {
    for held in [0, 4] {
        for room in 0..16 {
            let state = State { response_len: held, ..call.state.clone() };
            for error in [None, Some(2)] {
                let state = State { error, ..state.clone() };
                put(Call { state, room, reported: if error.is_some() { 2 } else { 25 }, ..call.clone() });
            }
        }
    }
    for held in 250..258 {
        let state = State { response_len: held, error: Some(1), ..call.state.clone() };
        put(Call { state, room: held + 6, reported: 23, ..call.clone() });
    }
}

fn counts(call: &Call, put: &mut dyn FnMut(Call)) {
    if !matches!(call.which, PROCESS_READ | PROCESS_WRITE | GET_EXTERNAL_READ | CHANGES) {
        return;
    }
    for count in [0, 1, 2, 3, 8, 9, 10, 127, 128, 2040, 2041, 32767, 32768, 65534, 65535] {
        for reg in [0, 1, 2, 3, 4, 9, 10, 11, 65535] {
            let state = State { reg, count, ..call.state.clone() };
            put(Call { state, ..call.clone() });
        }
    }
    for which in [COILS, DISCRETES, HOLDINGS, INPUTS] {
        let mut call = call.clone();
        let bytes = |cells: usize| bytes_of(cells, BITS_TABLES[which]);
        for (len, cells) in [(0, 1), (2, MAX), (bytes(65536), 65537), (bytes(65537), 65537), (bytes(65536), 65536)] {
            call.tables[which] = Lent { front: vec![7; len.min(3)], filler: 0xC3, len, cells };
            for reg in [0, 65535] {
                call.state.reg = reg;
                put(call.clone());
            }
        }
    }
}

/// Every error that can be set, every report, and functions whose exception overflows.
fn errors(call: &Call, put: &mut dyn FnMut(Call)) {
    for reported in REPORTS {
        put(Call { reported, ..call.clone() });
    }
    if call.which != FINALIZE_RESPONSE || call.state.func != 1 {
        return;
    }
    for responding_to_fn in [0, 1, 127, 128, 255] {
        for error in error_codes().into_iter().map(Some).chain([None]) {
            let state = State { responding_to_fn, error, ..call.state.clone() };
            put(Call { state, ..call.clone() });
        }
    }
}

/// Units, functions, counts and byte counts at parse, with the right check and without.
fn parses(proto: u8, func: u8, start: usize, put: &mut dyn FnMut(Call)) {
    let whole = framed(proto, func, start);
    let mut send = |unit: u8, number: u8, count: u16, bytes: u8, more: usize| {
        let mut buf = whole.clone();
        buf[start] = unit;
        buf[start + 1] = number;
        buf[start + 4..start + 6].copy_from_slice(&count.to_be_bytes());
        if matches!(number, 15 | 16) {
            buf[start + 6] = bytes;
        } else {
            buf.truncate(start + 6);
        }
        buf.resize(buf.len() + more, 0x11);
        let buf = super::shape::checked(proto, start, buf);
        put(plain_call(PARSE, proto, 1, &buf, start));
    };
    for unit in [0, 1, 2] {
        for count in [0, 1, 123, 124, 125, 126, 1968, 1969, 2000, 2001, 65535] {
            send(unit, func, count, 2, 0);
        }
        for bytes in [0, 1, 2, 3, 245, 246, 247, 248, 249, 255] {
            for more in [0, 4, 260] {
                send(unit, func, 1, bytes, more);
            }
        }
        for number in [0, 7, 14, 17, 127, 128, 255] {
            send(unit, number, 1, 1, 0);
        }
    }
}
