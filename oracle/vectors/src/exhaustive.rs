//! Whole families of short calls, each without a gap.
use crate::chance::Chance;
use crate::frames::{head, line, tcp_header};
use crate::record::*;

pub fn exhaustive(seed: u64, put: &mut dyn FnMut(Call)) {
    let mut chance = Chance(seed);
    checks(&(0..260).map(|i| (i % 256) as u8).collect::<Vec<_>>(), put);
    checks(&chance.bytes(260), put);
    pairs(put);
    positions(put);
    lines(&chance.bytes(130), put);
    guesses(put);
    cut_heads(put);
    headers(put);
}

/// Every data_length on every slice of 0 to 260 bytes.
fn checks(content: &[u8], put: &mut dyn FnMut(Call)) {
    for n in 0..=content.len() {
        for data_length in 0..=255 {
            put(crc(&content[..n], data_length));
            put(lrc(&content[..n], data_length));
        }
    }
}

/// Every pair of characters, strict and lenient.
fn pairs(put: &mut dyn FnMut(Call)) {
    for first in 0..=255 {
        for second in 0..=255 {
            put(parse(&[first, second], 2, 2, 0));
            put(parse(&[first, second], 2, 2, 0).under(LENIENT));
        }
    }
}

/// Every position, with room up to one below it, to it and to one above it.
fn positions(put: &mut dyn FnMut(Call)) {
    for frame_pos in 0..=255 {
        for room in 0..4 {
            for text in ["A5", ":A5\r\n", "A5A5"] {
                let room = (u16::from(frame_pos) + room).saturating_sub(1);
                put(parse(text.as_bytes(), text.len() as u16, room, frame_pos));
            }
        }
    }
}

/// Lines of 0 to 130 bytes with room from four short to one over.
fn lines(content: &[u8], put: &mut dyn FnMut(Call)) {
    for n in 0..=content.len() {
        for room in (2 * n).saturating_sub(1)..=2 * n + 4 {
            put(generate(&content[..n], room as u16));
        }
    }
}

/// Every two bytes on RTU; every function and byte count on RTU and as text.
fn guesses(put: &mut dyn FnMut(Call)) {
    for first in 0..=255 {
        for second in 0..=255 {
            put(request(&[first, second], RTU));
            put(response(&[first, second], RTU));
            let (head, text) = (head(first, second), line(&head(first, second)));
            put(request(&head, RTU));
            put(response(&head, RTU));
            put(request(&text, ASCII));
            put(response(&text, ASCII));
        }
    }
}

/// Every function with each number of bytes of its head, on RTU and as text.
fn cut_heads(put: &mut dyn FnMut(Call)) {
    for function in 0..=255 {
        for n in 0..=7 {
            let cut = &head(function, 4)[..n];
            put(request(cut, RTU));
            put(response(cut, RTU));
            put(request(&line(cut), ASCII));
            put(response(&line(cut), ASCII));
        }
    }
}

/// TCP headers by protocol and length.
fn headers(put: &mut dyn FnMut(Call)) {
    for protocol in [[0, 0], [0, 1], [1, 0], [1, 1]] {
        for length in (0..=300).chain([506, 512, 65535]) {
            put(request(&tcp_header(protocol, length), TCP));
            put(response(&tcp_header(protocol, length), TCP));
        }
    }
}
