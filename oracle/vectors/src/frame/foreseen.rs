//! Where document 01 says that the crate panics or overflows, and what a port answers there.
use super::record::*;
use crate::answer::{FRAME_BROKEN, OOB};
use crate::record::TCP;

const MAX: usize = usize::MAX;

/// A place where the crate panics, and the answer.
pub type Site = (&'static str, u8);

const FINALIZE: Site = ("finalize_response, function + 128", OOB);
const WRITE_ONE: Site = ("process_write, start + 6", OOB);
const WRITE_MANY: Site = ("process_write, start + 7", OOB);
const WRITE_DATA: Site = ("process_write, data beyond the frame", FRAME_BROKEN);
const GET_COIL_SUM: Site = ("get_external_write of function 5, start + 4", OOB);
const GET_COIL_BYTES: Site = ("get_external_write of function 5, value beyond the frame", FRAME_BROKEN);
const GET_HOLDING_SUM: Site = ("get_external_write of function 6, start + 6", OOB);
const GET_HOLDING_BYTES: Site = ("get_external_write of function 6, value beyond the frame", FRAME_BROKEN);
const GET_MANY_SUM: Site = ("get_external_write of functions 15 and 16, start + 6", OOB);
const GET_MANY_BYTES: Site = ("get_external_write of functions 15 and 16, byte count beyond the frame", FRAME_BROKEN);
const GET_MANY_DATA: Site = ("get_external_write of functions 15 and 16, data beyond the frame", FRAME_BROKEN);
const ECHO_SUM: Site = ("process_external_write, start + 6", OOB);
const ECHO_BYTES: Site = ("process_external_write, echo beyond the frame", FRAME_BROKEN);
const READ_LENGTH: Site = ("process_read, length of TCP", OOB);
const READ_SUM: Site = ("process_read, start + 2", OOB);
const READ_BYTES: Site = ("process_read, unit and function beyond the frame", FRAME_BROKEN);
const GET_READ_LENGTH: Site = ("get_external_read, length of TCP", OOB);
const GET_READ_SUM: Site = ("get_external_read, start + 2", OOB);
const GET_READ_BYTES: Site = ("get_external_read, unit and function beyond the frame", FRAME_BROKEN);
const PARSE_COUNT: Site = ("parse, 7 + byte count", FRAME_BROKEN);

/// Every place, each to come up in a stream.
#[rustfmt::skip]
pub const SITES: [Site; 20] = [
    FINALIZE, WRITE_ONE, WRITE_MANY, WRITE_DATA, GET_COIL_SUM, GET_COIL_BYTES, GET_HOLDING_SUM, GET_HOLDING_BYTES,
    GET_MANY_SUM, GET_MANY_BYTES, GET_MANY_DATA, ECHO_SUM, ECHO_BYTES, READ_LENGTH, READ_SUM, READ_BYTES,
    GET_READ_LENGTH, GET_READ_SUM, GET_READ_BYTES, PARSE_COUNT,
];

/// Where the crate panics over a response with so much room left; None where it answers.
pub fn panics(call: &Call, left: usize) -> Option<Site> {
    let s = &call.state;
    match call.which {
        PARSE => parse(call),
        PROCESS_READ => read(call, left, [READ_LENGTH, READ_SUM, READ_BYTES]),
        PROCESS_WRITE => write(call),
        FINALIZE_RESPONSE => (s.error.is_some() && s.responding_to_fn >= 128).then_some(FINALIZE),
        GET_EXTERNAL_READ => read(call, left, [GET_READ_LENGTH, GET_READ_SUM, GET_READ_BYTES]),
        GET_EXTERNAL_WRITE => get_write(call),
        PROCESS_EXTERNAL_WRITE if call.reported == 0 && s.func > 4 && has_room(call, left) => {
            index(call, 6, 6, ECHO_SUM, ECHO_BYTES)
        }
        _ => None,
    }
}

/// Without room for TCP's length bytes, these are refused before anything is read of the frame.
fn has_room(call: &Call, left: usize) -> bool {
    call.state.proto != TCP || left >= 2
}

/// A sum start + a that overflows, or fewer than `end` bytes from the start on.
fn index(call: &Call, a: usize, end: usize, sum: Site, bytes: Site) -> Option<Site> {
    let start = call.state.frame_start;
    if start > MAX - a {
        Some(sum)
    } else if start.saturating_add(end) > call.buf.len() {
        Some(bytes)
    } else {
        None
    }
}

/// The data of a write of many ends beyond the frame, whose byte count is there.
fn data_beyond(call: &Call, site: Site) -> Option<Site> {
    let start = call.state.frame_start;
    (start + 7 + usize::from(call.buf[start + 6]) > call.buf.len()).then_some(site)
}

fn parse(call: &Call) -> Option<Site> {
    let (s, buf, start) = (&call.state, &call.buf, call.state.frame_start);
    if s.proto == TCP || start >= buf.len() || buf.len() - start < 7 {
        return None;
    }
    let ours = buf[start] == s.unit_id || call.list.contains(&buf[start]);
    (ours && matches!(buf[start + 1], 15 | 16) && buf[start + 6] >= 249).then_some(PARSE_COUNT)
}

fn write(call: &Call) -> Option<Site> {
    let (start, len) = (call.state.frame_start, call.buf.len());
    match call.state.func {
        5 | 6 => (start > MAX - 6).then_some(WRITE_ONE),
        15 | 16 if start > MAX - 7 => Some(WRITE_MANY),
        15 | 16 if start + 7 <= len => data_beyond(call, WRITE_DATA),
        _ => None,
    }
}

fn read(call: &Call, left: usize, [length, sum, bytes]: [Site; 3]) -> Option<Site> {
    let s = &call.state;
    match s.func {
        3 | 4 if s.proto == TCP && s.count & 0x7FFF == 0x7FFF => Some(length),
        1..=4 if has_room(call, left) => index(call, 2, 2, sum, bytes),
        _ => None,
    }
}

fn get_write(call: &Call) -> Option<Site> {
    match call.state.func {
        5 => index(call, 4, 6, GET_COIL_SUM, GET_COIL_BYTES),
        6 => index(call, 6, 6, GET_HOLDING_SUM, GET_HOLDING_BYTES),
        15 | 16 => index(call, 6, 7, GET_MANY_SUM, GET_MANY_BYTES).or_else(|| data_beyond(call, GET_MANY_DATA)),
        _ => None,
    }
}
