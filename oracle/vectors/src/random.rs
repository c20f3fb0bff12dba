//! Random calls: good frames and lines, then damaged, at lengths around each boundary.
use crate::chance::Chance;
use crate::frames::{as_sent, pairs, request as good_request, response as good_response, PROTOS};
use crate::record::*;

pub fn random(chance: &mut Chance) -> Call {
    match chance.below(20) {
        0 => check(chance, crc),
        1 | 2 => check(chance, lrc),
        3..=8 => parsed(chance),
        9 | 10 => generated(chance),
        11..=15 => guess(chance, request, good_request, 6),
        _ => guess(chance, response, good_response, 2),
    }
}

/// Under either switch, its text in either case; now and then under one that is none.
pub fn switched(chance: &mut Chance, mut call: Call) -> Call {
    if !matches!(call.which, PARSE_ASCII_FRAME | GUESS_REQUEST_FRAME_LEN | GUESS_RESPONSE_FRAME_LEN) {
        return call;
    }
    call.hex = if chance.percent(2) { chance.pick(&[2, 3, 128, 255]) } else { chance.pick(&[STRICT, LENIENT]) };
    if call.reads_text() && chance.percent(if call.hex == STRICT { 10 } else { 60 }) {
        in_small(chance, &mut call.input);
    }
    call
}

/// All, half or some of the letters in lower case.
pub fn in_small(chance: &mut Chance, text: &mut [u8]) {
    let some = chance.pick(&[100, 50, 5]);
    for c in text.iter_mut().filter(|c| matches!(c, b'A'..=b'F')) {
        if chance.percent(some) {
            c.make_ascii_lowercase();
        }
    }
}

fn check(chance: &mut Chance, ask: fn(&[u8], u8) -> Call) -> Call {
    let n = length(chance);
    let data_length = if chance.percent(60) { chance.near(n, 3) as u8 } else { chance.byte() };
    let content = match chance.below(4) {
        0 => vec![chance.pick(&[0, 1, 127, 128, 255]); n],
        _ => chance.bytes(n),
    };
    ask(&content, data_length)
}

/// Short, around 255, or anything up to 300.
fn length(chance: &mut Chance) -> usize {
    match chance.below(10) {
        0..=4 => chance.below(12),
        5 | 6 => chance.near(255, 4),
        _ => chance.below(301),
    }
}

fn parsed(chance: &mut Chance) -> Call {
    let n = length(chance);
    let frame_pos = match chance.below(8) {
        0..=3 => 0,
        4 => 255 - chance.near(n, 2).min(255),
        5 => chance.near(253, 2),
        _ => chance.below(256),
    };
    let text = text(chance, n);
    let data_len = match chance.below(10) {
        0..=4 => text.len(),
        5 | 6 => chance.near(text.len(), 3),
        7 => chance.below(text.len() + 1),
        8 => text.len() + chance.below(600),
        _ => usize::from(ENDLESS),
    };
    let room = match chance.below(9) {
        0..=2 => 256,
        3..=5 => chance.near(frame_pos + n, 3),
        _ => chance.below(301),
    };
    parse(&text, data_len as u16, room as u16, frame_pos as u8)
}

/// So many pairs, with or without a colon, ended in one of many ways and sometimes damaged.
fn text(chance: &mut Chance, n: usize) -> Vec<u8> {
    let colon = if chance.percent(70) { ":" } else { "" };
    let end = chance.pick(&["", "", "\r\n", "\r\n", "\r", "\n", "\0", "0", "F\r", "G", ":", "\r\n:0103", "a"]);
    let mut text = [colon.as_bytes(), &pairs(&chance.bytes(n)), end.as_bytes()].concat();
    if chance.percent(40) {
        damage(chance, &mut text, b"\r\n\0:abfgG/@`0F ");
    }
    text
}

fn generated(chance: &mut Chance) -> Call {
    let n = length(chance);
    let room = if chance.percent(70) { chance.near(2 * n + 2, 3) } else { chance.below(301) };
    generate(&chance.bytes(n), room as u16)
}

/// `count_at` is where the byte count stands in a frame without a header.
fn guess(
    chance: &mut Chance,
    ask: fn(&[u8], u8) -> Call,
    good: fn(u8, &mut Chance) -> Vec<u8>,
    count_at: usize,
) -> Call {
    let proto = chance.pick(&PROTOS);
    let mut frame = if chance.percent(85) {
        good(proto, chance)
    } else {
        let n = length(chance);
        chance.bytes(n)
    };
    if proto != TCP && chance.percent(40) && frame.len() > count_at {
        frame[count_at] = chance.pick(&[0, 1, 117, 118, 119, 121, 122, 123, 245, 246, 247, 249, 250, 251, 254, 255]);
    }
    if proto != TCP && chance.percent(30) && frame.len() > 1 {
        frame[1] = chance.pick(&[0, 1, 2, 3, 4, 5, 6, 7, 14, 15, 16, 17, 43, 126, 127, 128, 129, 131, 144, 255]);
    }
    if proto == TCP && chance.percent(40) && frame.len() > 5 {
        frame[5] = chance.near(249, 3) as u8;
    }
    if chance.percent(40) {
        damage(chance, &mut frame, &[0, 1, 3, 15, 16, 128, 255]);
    }
    let mut sent = as_sent(proto, frame);
    if proto == ASCII && chance.percent(40) {
        damage(chance, &mut sent, b"\r\n\0:abfgG/@`0F ");
    }
    let proto = if chance.percent(1) { chance.near(6, 3) as u8 } else { proto };
    ask(&sent, proto)
}

/// Cut, lengthened, a bit turned, or a byte replaced, taken out or put in.
fn damage(chance: &mut Chance, frame: &mut Vec<u8>, odd: &[u8]) {
    let near_the_head = frame.len().min(18);
    let at = chance.pick(&[frame.len(), near_the_head]);
    let at = chance.below(at + 1);
    match chance.below(6) {
        0 => frame.truncate(at),
        1 => frame.extend(chance.bytes_up_to(4)),
        2 => frame.insert(at, chance.pick(odd)),
        _ if at == frame.len() => {}
        3 => frame[at] ^= 1 << chance.below(8),
        4 => frame[at] = chance.pick(odd),
        _ => {
            frame.remove(at);
        }
    }
}
