//! What the crate is known to answer, to leave and to panic at: document 01's driver without the tests that the crate
//! does not make. The crate must do exactly this on every frame, so that nothing it does is unknown.
use super::model::*;
use super::record::*;
use super::wire::*;
use crate::record::{ASCII, RTU};

/// The crate's functions.
pub fn knows(function: u8) -> bool {
    matches!(function, 1..=6 | 15 | 16)
}

/// Why there is no reply.
pub enum Silence {
    Refused, // or nothing to say: a foreign frame, a broadcast read
    Panic(&'static str),
}
use Silence::*;

/// Reply and tables as the crate leaves them, and the stage in which it panics.
pub fn left(call: &Call) -> (Left, Option<&'static str>) {
    let mut left = call.untouched();
    match seen(call).and_then(|body| answer(call, &body, &mut left)) {
        Ok(reply) if !call.list.contains(&reply[0]) => {
            left.reply = wrap(call.transport, transaction(call.transport, &call.frame), &reply);
            (left, None)
        }
        Ok(_) | Err(Refused) => (left, None),
        Err(Panic(stage)) => (left, Some(stage)),
    }
}

/// The bytes from the unit on as the crate comes to them, check and whatever follows included.
pub fn seen(call: &Call) -> Result<Vec<u8>, Silence> {
    let bytes = match call.transport {
        RTU => call.frame.clone(),
        ASCII if call.frame.is_empty() => return Err(Panic("parse_ascii_frame")),
        ASCII => pairs(&call.frame).ok_or(Refused)?,
        _ => {
            let header = call.frame.get(..6).ok_or(Refused)?;
            if word(header, 2) != 0 || !(6..=250).contains(&word(header, 4)) {
                return Err(Refused);
            }
            call.frame[6..].to_vec() // the length field says how much it is, but nobody looks
        }
    };
    if bytes.len() < 2 {
        Err(Refused)
    } else {
        Ok(bytes)
    }
}

/// Pairs of digits up to CR, LF, NUL or the end, with or without a colon; after 255 of them only the end will do.
fn pairs(text: &[u8]) -> Option<Vec<u8>> {
    let mut bytes = Vec::new();
    for pair in text.strip_prefix(b":").unwrap_or(text).chunks(2) {
        if bytes.len() == 255 {
            return None;
        }
        if matches!(pair[0], b'\r' | b'\n' | 0) {
            break;
        }
        let digit = |c: &u8| b"0123456789ABCDEF".iter().position(|d| d == c);
        bytes.push((16 * digit(&pair[0])? + digit(pair.get(1)?)?) as u8);
    }
    Some(bytes)
}

fn answer(call: &Call, seen: &[u8], left: &mut Left) -> Result<Vec<u8>, Silence> {
    let (unit, function) = (seen[0], seen[1]);
    let broadcast = call.list.contains(&unit);
    if !broadcast && unit != call.unit {
        return Err(Refused);
    }
    if function >= 128 {
        return Err(if broadcast { Refused } else { Panic("finalize_response") });
        // function + 128
    }
    let fault = |code| Ok(vec![unit, function + 128, code]);
    if !knows(function) {
        return fault(1); // whatever the check and the length
    }
    if broadcast && function <= 4 || seen.len() < if function <= 6 { 6 } else { 7 } {
        return Err(Refused);
    }
    let extent = extent(seen);
    let (body, rest) = seen.split_at(extent.min(seen.len())); // of the rest only the check is looked at
    let missing = body.len() < extent;
    let checked = match call.transport {
        RTU | ASCII if extent > 255 => return Err(Panic("parse")), // 7 + the byte count in 8 bits
        RTU => !missing && rest.starts_with(&crc(body).to_le_bytes()),
        ASCII => !missing && rest.starts_with(&[lrc(body)]),
        _ => true,
    };
    if !checked {
        return Err(Refused);
    }
    let (start, count) = (word(body, 2), word(body, 4));
    let value_right = match function {
        1 | 2 => count <= 2000, // 0 passes
        3 | 4 => count <= 125,
        5 => count == 0xFF00 || count == 0,
        15 => count <= 1968 && body[6] <= 246, // the byte count is not compared with the count
        16 => count <= 123 && body[6] <= 246,
        _ => true,
    };
    if !value_right {
        return fault(3); // on TCP also where data is missing
    }
    if missing {
        return Err(Panic("process_write"));
    }
    let named = if function == 16 { usize::from(body[6]) / 2 } else { cells_asked(body) }; // 16 goes by its byte count
    if start + named > call.tables[table_of(function)].cells {
        return fault(2);
    }
    let mut whole = true; // else what there is is stored, and then refused
    match function {
        1..=4 => return Ok(read(call, body)),
        5 => put_bit(&mut left.coils, start, count != 0),
        6 => left.holdings[2 * start..][..2].copy_from_slice(&body[4..6]),
        15 => {
            let bits = 8 * (extent - 7);
            (0..count.min(bits)).for_each(|i| put_bit(&mut left.coils, start + i, bit(&body[7..], i)));
            whole = bits >= count;
        }
        _ => {
            left.holdings[2 * start..][..2 * named].copy_from_slice(&body[7..][..2 * named]);
            whole = body[6] % 2 == 0;
        }
    }
    if whole {
        Ok(body[..6].to_vec())
    } else {
        fault(2)
    }
}
