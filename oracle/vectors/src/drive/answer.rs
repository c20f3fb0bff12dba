//! The answer expected of a call: document 01's. The crate's reply and tables must be the same, or differ in one of
//! WAYS, and nowhere else than where document 01 refuses what the crate takes. After a write that both serve, the
//! crate's `changes` must name the cells that the result names; elsewhere it may differ in one of RENAMED.
use super::model::*;
use super::record::*;
use super::wire::word;
use super::{chain, lenient, model};
use crate::record::{ASCII, RTU, TCP};

const UNKNOWN_SHAPE: &str = "unknown function, shape wrong";
const UNKNOWN_CHECK: &str = "unknown function, check wrong";
const LONG_RTU: &str = "RTU frame above 256 bytes";
const NO_COLON: &str = "ASCII line without its colon";
const NO_CR_LF: &str = "ASCII line that does not end at CR LF";
const LENGTH_FIELD: &str = "TCP length field that is not the frame's";
const SHORT_TCP: &str = "TCP length 2 to 5";
const LONG_TCP: &str = "TCP length 251 to 254";
const AFTER_CHECK: &str = "bytes after the check";
const AFTER_REQUEST: &str = "bytes after the request";
const NO_DATA: &str = "value fault of a write without its data";
const READ_0: &str = "read of 0 cells";
const WRITE_0: &str = "write of 0 cells";
const OUTSIDE_0: &str = "0 cells outside the table";
const MANY_COILS: &str = "function 15, too many bytes";
const FEW_COILS: &str = "function 15, too few bytes";
const OTHER_COUNT: &str = "function 16, byte count even but not twice the count";
const ODD_BYTES: &str = "function 16, byte count odd";
const OUTSIDE_BYTES: &str = "byte count wrong, and outside the table";
const FUNCTION_22: &str = "function 22, unknown to it";
const FUNCTION_23: &str = "function 23, unknown to it";

/// Every way in which the crate differs, each to come up in a stream.
#[rustfmt::skip]
pub const WAYS: [&str; 21] = [
    UNKNOWN_SHAPE, UNKNOWN_CHECK, LONG_RTU, NO_COLON, NO_CR_LF, LENGTH_FIELD, SHORT_TCP, LONG_TCP, AFTER_CHECK,
    AFTER_REQUEST, NO_DATA, READ_0, WRITE_0, OUTSIDE_0, MANY_COILS, FEW_COILS, OTHER_COUNT, ODD_BYTES, OUTSIDE_BYTES,
    FUNCTION_22, FUNCTION_23,
];

const REFUSED: &str = "changes names a write that was refused";
const UNKNOWN: &str = "changes names nothing of functions 22 and 23";
const UNREAD: &str = "changes names nothing of a TCP frame that parse refuses";

/// Every way in which its `changes` differs from the cells that the result names, each to come up in a stream.
pub const RENAMED: [&str; 3] = [REFUSED, UNKNOWN, UNREAD];

/// The stages of the crate that panic, each to come up in a stream.
pub const PANICS: [&str; 4] = ["parse_ascii_frame", "parse", "process_write", "finalize_response"];

/// The answer, and where the crate panicked. Under the lenient switch the crate is given the text in capitals.
pub fn answer(call: &Call) -> Result<(Answer, Option<&'static str>), String> {
    let (outcome, code, named, said) = model::drive(call);
    let call = &call.in_capitals();
    let (left, panicked, changes) = chain::ask(call);
    let known = lenient::left(call);
    if known.0 != left || known.1 != panicked {
        return Err("what the crate does is not known".into());
    }
    // where there is no difference, the bytes and the cells named that are recorded are the crate's own
    let renamed = if changes == named { None } else { Some((renaming(call, outcome, named)?, changes)) };
    let named = if renamed.is_none() { changes } else { named };
    let answer = if left == said {
        Answer { outcome, code, named, left, difference: None, renamed }
    } else {
        Answer { outcome, code, named, left: said, difference: Some((way(call, outcome, code)?, left)), renamed }
    };
    Ok((answer, panicked))
}

/// The way in which `changes` differs from the cells that the result names. Of a write that both serve there is none.
fn renaming(call: &Call, outcome: u8, named: Cells) -> Result<&'static str, String> {
    let served = outcome == ANSWERED || outcome == BROADCAST_DONE;
    let function = lenient::seen(call).map_or(0, |body| body[1]);
    match function {
        5 | 6 | 15 | 16 if !served && named == NO_CELLS => Ok(REFUSED),
        22 | 23 if served => Ok(UNKNOWN),
        _ if served && call.transport == TCP && call.frame.len() > 256 => Ok(UNREAD),
        _ => Err(format!("changes does not name {named:?} after outcome {outcome}")),
    }
}

/// The way in which the crate differs, told by document 01's answer and the frame.
fn way(call: &Call, outcome: u8, code: u8) -> Result<&'static str, String> {
    let none = || Err(format!("the crate differs where document 01 says outcome {outcome}, code {code}"));
    let frame = &call.frame;
    if let Some(way) = beyond(call, outcome) {
        return Ok(way);
    }
    let body = lenient::seen(call).map_err(|_| "the crate differs on a frame it refuses")?;
    let (known, long) = (lenient::knows(body[1]), body.len() > extent(&body));
    match (outcome, call.transport) {
        (FRAME_BROKEN, _) if !known => Ok(UNKNOWN_SHAPE),
        (FRAME_CHECK, RTU | ASCII) if !known => Ok(UNKNOWN_CHECK),
        _ if body[1] == 22 => Ok(FUNCTION_22),
        _ if body[1] == 23 => Ok(FUNCTION_23),
        (FRAME_BROKEN, RTU) if frame.len() > 256 => Ok(LONG_RTU),
        (FRAME_BROKEN, ASCII) if frame[0] != b':' => Ok(NO_COLON),
        (FRAME_BROKEN, ASCII) if !ends_at_cr_lf(frame) => Ok(NO_CR_LF),
        (FRAME_BROKEN, TCP) if word(frame, 4) != frame.len() - 6 => Ok(LENGTH_FIELD),
        (FRAME_CHECK, RTU | ASCII) if long => Ok(AFTER_CHECK),
        (WRONG_LENGTH, _) if long => Ok(AFTER_REQUEST),
        (WRONG_LENGTH, TCP) if !long && body[1] > 6 => Ok(NO_DATA),
        (EXCEPTION | BROADCAST_IGNORED, _) if code == 3 => value(call, &body).map_or_else(none, Ok),
        _ => none(),
    }
}

/// The lengths of a TCP body that the driver takes and the crate does not.
fn beyond(call: &Call, outcome: u8) -> Option<&'static str> {
    match call.frame.len() {
        8..=11 if call.transport == TCP && outcome != FRAME_BROKEN => Some(SHORT_TCP),
        257..=260 if call.transport == TCP && outcome != FRAME_BROKEN => Some(LONG_TCP),
        _ => None,
    }
}

pub fn ends_at_cr_lf(text: &[u8]) -> bool {
    let end = text.iter().position(|c| matches!(c, b'\r' | b'\n' | 0));
    end.is_some_and(|end| text[end..] == *b"\r\n")
}

/// The way in which a request of a wrong value is taken.
fn value(call: &Call, body: &[u8]) -> Option<&'static str> {
    let (function, start, count) = (body[1], word(body, 2), word(body, 4));
    let bytes = if function > 6 { usize::from(body[6]) } else { 0 };
    let wanted = match function {
        15 => count.div_ceil(8),
        16 => 2 * count,
        _ => 0,
    };
    let named = if function == 16 { bytes / 2 } else { count };
    let outside = start + named > call.tables[table_of(function)].cells;
    match function {
        1..=4 | 15 | 16 if count == 0 && bytes == 0 && outside => Some(OUTSIDE_0),
        1..=4 if count == 0 => Some(READ_0),
        15 | 16 if count == 0 && bytes == 0 => Some(WRITE_0),
        15 | 16 if bytes != wanted && outside => Some(OUTSIDE_BYTES),
        15 if bytes > wanted => Some(MANY_COILS),
        15 if bytes < wanted => Some(FEW_COILS),
        16 if bytes % 2 == 1 => Some(ODD_BYTES),
        16 if bytes != wanted => Some(OTHER_COUNT),
        _ => None,
    }
}
