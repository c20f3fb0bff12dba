//! The asking side: document 02's words (2026-02) beside the crate's own client, which builds with `generate_*` and reads
//! with `parse_*`; ASCII text by its two functions for that. Functions 22 and 23 (2026-05) are not among these calls: the
//! crate has no builder for them, and its `ModbusFunction` no name, so that there is nothing to compare with.
mod model;
mod random;
mod record;
mod theirs;

pub use random::{edges, random};
pub use record::{Answer, Call};

use crate::drive::model::{ANSWERED, EXCEPTION, FRAME_BROKEN};
use crate::drive::wire::word;
use crate::record::{ASCII, RTU, STRICT, TCP};
use record::{Ask, BAD_REQUEST};
use theirs::Said;

const READ_0: &str = "a read of 0 cells is built";
const READ_MANY: &str = "a read of more cells than a reply holds is built";
const WRITE_0: &str = "a write of no values is built";
const WRITE_MANY: &str = "a write of 124 or 125 registers, or 1969 to 2040 coils, is built";
const BEYOND: &str = "a range beyond cell 65,535 is built";
const COIL_VALUE: &str = "a coil's value above 1 is built, as 1";
const MANY_COILS: &str = "2049 to 4000 coils: a panic";
const BYTE_COUNT: &str = "another byte count is shown as values";
const BYTES: &str = "more or fewer bytes than the byte count are shown as values";
const NO_DATA: &str = "a read's reply without data: a panic";
const ECHO: &str = "another echo counts as one";
const OTHER_FUNCTION: &str = "a reply of another function is told as an exception";
const LONG_EXCEPTION: &str = "an exception with more bytes is told";
const CODE_0: &str = "exception 0 is told";
const UNKNOWN_CODE: &str = "an exception code has no name or another";
const LENGTH_FIELD: &str = "the TCP length field is not looked at";
const LONG_TCP: &str = "a TCP reply above 260 bytes is taken";
const LONG_RTU: &str = "an RTU reply of 257 bytes is taken";
const LINE: &str = "an ASCII line without its colon, or that does not end at its CR LF, is taken";
const NO_REPLY: &str = "no bytes of ASCII: a panic";

/// Every way in which the crate differs, each to come up in a stream.
#[rustfmt::skip]
pub const WAYS: [&str; 20] = [
    READ_0, READ_MANY, WRITE_0, WRITE_MANY, BEYOND, COIL_VALUE, MANY_COILS, BYTE_COUNT, BYTES, NO_DATA, ECHO,
    OTHER_FUNCTION, LONG_EXCEPTION, CODE_0, UNKNOWN_CODE, LENGTH_FIELD, LONG_TCP, LONG_RTU, LINE, NO_REPLY,
];

/// Document 02's answer. The crate's must be the same, or differ in one of WAYS: it never refuses what is built or shown
/// here, and shows nothing else as these values.
pub fn answer(call: &Call) -> Result<Answer, String> {
    let mut answer = model::answer(call);
    let said = theirs::answer(call);
    answer.difference = match (&call.reply, answer.kind, &said) {
        (None, 0, Said::Built(frame)) if *frame == answer.frame => None,
        (None, BAD_REQUEST, Said::Refused) => None,
        (None, BAD_REQUEST, _) => Some(unbuilt(call, &said).ok_or("the crate builds it")?),
        (Some(_), ANSWERED, Said::Values(values)) if *values == answer.values => None,
        (Some(_), EXCEPTION, Said::Exception(code)) if *code == answer.code => None,
        (Some(_), EXCEPTION, Said::Exception(_)) => Some(UNKNOWN_CODE),
        (Some(_), kind, Said::Refused) if kind > EXCEPTION => None,
        (Some(reply), kind, _) if kind > EXCEPTION => {
            Some(unread(call, reply, kind, &said).ok_or("the crate takes it")?)
        }
        _ => return Err(format!("the crate says {said}, document 02 {}, {}", answer.kind, answer.code)),
    }
    .map(|way| (way, said.to_string()));
    Ok(answer)
}

/// Why document 02 does not build it.
fn unbuilt(call: &Call, said: &Said) -> Option<&'static str> {
    let Ask { func, reg, .. } = call.ask;
    let (cells, bits) = (call.ask.cells(), matches!(func, 5 | 15));
    let most = model::most(func);
    match said {
        Said::Panicked => (func == 15 && (2049..=4000).contains(&cells)).then_some(MANY_COILS),
        _ if bits && call.ask.values.iter().any(|v| *v > 1) => Some(COIL_VALUE),
        _ if cells == 0 => Some(if func <= 4 { READ_0 } else { WRITE_0 }),
        _ if cells > most => Some(if func <= 4 { READ_MANY } else { WRITE_MANY }),
        _ => (usize::from(reg) + cells > 65536).then_some(BEYOND),
    }
}

/// What document 02 has against this reply.
fn unread(call: &Call, reply: &[u8], kind: u8, said: &Said) -> Option<&'static str> {
    let func = call.ask.func;
    if kind == FRAME_BROKEN {
        return match call.to.proto {
            RTU => (reply.len() == 257).then_some(LONG_RTU),
            ASCII if reply.is_empty() => Some(NO_REPLY),
            ASCII => (reply[0] != b':' || !crate::drive::answer::ends_at_cr_lf(reply)).then_some(LINE),
            TCP if word(reply, 4) != reply.len() - 6 => Some(LENGTH_FIELD),
            _ => (reply.len() > 260).then_some(LONG_TCP),
        };
    }
    let body = crate::drive::model::unwrap(call.to.proto, STRICT, reply).ok()?;
    match said {
        Said::Panicked => (func <= 4 && body.len() == 3).then_some(NO_DATA),
        Said::Exception(_) if body[1] != func | 128 => Some(OTHER_FUNCTION),
        Said::Exception(_) if body.len() > 3 => Some(LONG_EXCEPTION),
        Said::Exception(_) => (body[2] == 0).then_some(CODE_0),
        _ if func > 4 => Some(ECHO),
        _ if usize::from(body[2]) != model::octets(func, call.ask.cells()) => Some(BYTE_COUNT),
        _ => Some(BYTES),
    }
}
