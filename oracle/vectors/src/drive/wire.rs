//! Header and check around a request or reply, written from document 01 and not taken from the crate.
use crate::record::{ASCII, RTU};

pub fn crc(bytes: &[u8]) -> u16 {
    bytes.iter().fold(0xFFFF, |crc, byte| {
        (0..8).fold(crc ^ u16::from(*byte), |crc, _| if crc & 1 == 1 { crc >> 1 ^ 0xA001 } else { crc >> 1 })
    })
}

pub fn lrc(bytes: &[u8]) -> u8 {
    bytes.iter().fold(0, |lrc: u8, byte| lrc.wrapping_sub(*byte))
}

/// A colon, the pairs, CR, LF.
pub fn line(bytes: &[u8]) -> Vec<u8> {
    let digits = b"0123456789ABCDEF";
    let pairs = bytes.iter().flat_map(|b| [digits[usize::from(b >> 4)], digits[usize::from(b & 15)]]);
    [b':'].into_iter().chain(pairs).chain(*b"\r\n").collect()
}

/// These bytes, from the unit on, as a frame; the transaction number is of use on TCP alone.
pub fn wrap(transport: u8, transaction: [u8; 2], body: &[u8]) -> Vec<u8> {
    match transport {
        RTU => [body, &crc(body).to_le_bytes()].concat(),
        ASCII => line(&[body, &[lrc(body)]].concat()),
        _ => [&transaction, &[0, 0], &(body.len() as u16).to_be_bytes()[..], body].concat(),
    }
}

/// The transaction number of a frame that has one.
pub fn transaction(transport: u8, frame: &[u8]) -> [u8; 2] {
    match (transport, frame) {
        (RTU | ASCII, _) | (_, [] | [_]) => [0, 0],
        (_, [high, low, ..]) => [*high, *low],
    }
}

pub fn word(body: &[u8], at: usize) -> usize {
    usize::from(body[at]) << 8 | usize::from(body[at + 1])
}
