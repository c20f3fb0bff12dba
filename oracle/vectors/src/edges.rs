//! Both sides of every number in document 01's modules 1 to 3, and every kind of answer of each call. The fixed list
//! begins with these, and so does every stream.
use crate::frames::{head, line, pairs, tcp_header, PROTOS};
use crate::record::*;

pub fn edges(put: &mut dyn FnMut(Call)) {
    digits(put);
    checks(put);
    short_texts(put);
    late_positions(put);
    long_texts(put);
    lines(put);
    heads(put);
    tcp(put);
    ascii(put);
}

/// Document 02's switch (2026-06): every character by its kind, lines in lower and mixed case strict and lenient, and
/// switches that are none, before all else. Not in the fixed list, which is of strict calls.
pub fn switches(put: &mut dyn FnMut(Call)) {
    (0..=255).for_each(|c| put(chr_to_hex(c).under(LENIENT)));
    let mut calls = Vec::new();
    let mut keep = |call: Call| calls.push(call);
    for text in ["", ":", "0a", "a0", ":0103fa\r\n", "aAbBcCdDeEfF", "0a0B", "0g", "`0", "0a\r", "0ab", "0ab\n", "f"] {
        for room in 0..=text.len() as u16 / 2 + 1 {
            keep(parse(text.as_bytes(), text.len() as u16, room, 0));
        }
        keep(parse(text.as_bytes(), ENDLESS, 3, 1));
        keep(parse(text.as_bytes(), text.len() as u16, 256, 254));
        keep(parse(text.as_bytes(), text.len() as u16, 256, 255));
    }
    for n in [254, 255, 256] {
        let text = [&b":"[..], &b"aF".repeat(n), b"\r"].concat();
        keep(parse(&text, text.len() as u16, 256, 0));
    }
    for function in 0..=255 {
        for count in [4, 118, 119, 122, 123] {
            let text = line(&head(function, count));
            for every in 1..=2 {
                both(&mut keep, &in_small(&text, every), ASCII);
            }
        }
    }
    for proto in (0..=4).chain([127, 128, 255]) {
        for frame in [&b""[..], b"aa\0\0\0a", b"a\x10bcdef", b"aaa", b":0fabcd", b":0g", b"G"] {
            both(&mut keep, frame, proto); // a byte of RTU or TCP is no letter
        }
    }
    for call in calls {
        for hex in [STRICT, LENIENT, 2, 3, 128, 255] {
            put(call.clone().under(hex));
        }
    }
}

/// From the first letter on every letter, or every other, in lower case.
fn in_small(text: &[u8], every: usize) -> Vec<u8> {
    let mut letters = 0;
    let spelt = |c: &u8| {
        letters += usize::from(c.is_ascii_uppercase());
        if letters % every == 1 % every {
            c.to_ascii_lowercase()
        } else {
            *c
        }
    };
    text.iter().map(spelt).collect()
}

fn both(put: &mut dyn FnMut(Call), frame: &[u8], proto: u8) {
    put(request(frame, proto));
    put(response(frame, proto));
}

fn counting(n: usize) -> Vec<u8> {
    (0..n).map(|i| (i % 256) as u8).collect()
}

fn digits(put: &mut dyn FnMut(Call)) {
    for c in 0..=255 {
        put(chr_to_hex(c));
        put(hex_to_chr(c));
    }
}

/// data_length below, at and above the slice's length; sums of 0, 255 and 256; the CRC of every single byte.
fn checks(put: &mut dyn FnMut(Call)) {
    let mut ask = |frame: &[u8], data_length: u8| {
        put(crc(frame, data_length));
        put(lrc(frame, data_length));
    };
    for n in 0..=5 {
        for data_length in 0..=6 {
            ask(&[0x80, 0x7F, 0x01, 0x00, 0xFF][..n], data_length);
        }
    }
    for c in [0, 1, 127, 128, 254, 255] {
        ask(&[c], 1);
    }
    for n in [254, 255, 256, 260] {
        for data_length in [0, 127, 128, 254, 255] {
            ask(&counting(n), data_length);
        }
    }
    ask(&[255; 255], 255);
    ask(&[0; 255], 255);
    for c in 0..=255 {
        put(crc(&[c], 1));
    }
}

/// Each text with data_len below, at and beyond it, and with room one short at every byte.
fn short_texts(put: &mut dyn FnMut(Call)) {
    let texts = "|:|0|:0|\r|\n|\0|01|:01|0:|::|:\r|0\r|0\n|0\0|01\r|:9A\r\n|0F\0F0|A5\nx|0G|G0|/0|0/|@0|:;0|0a|f0|01A|\
                 01A\r|:0103FF|0103:|01g2|012g";
    for text in texts.split('|') {
        let n = text.len() as u16;
        for data_len in (0..=n + 1).chain([ENDLESS]) {
            for room in 0..=n / 2 + 1 {
                put(parse(text.as_bytes(), data_len, room, 0));
            }
            put(parse(text.as_bytes(), data_len, 3, 1));
        }
    }
}

/// Positions around 255, where it is tested before the stop bytes and the room.
fn late_positions(put: &mut dyn FnMut(Call)) {
    for text in ["01", "0102", "01\r", ":\r", "G1", "0"] {
        for frame_pos in [253, 254, 255] {
            for room in [254, 255, 256] {
                put(parse(text.as_bytes(), text.len() as u16, room, frame_pos));
            }
        }
    }
    for data_len in [0, 1, 2, ENDLESS] {
        put(parse(b":", data_len, 256, 255));
        put(parse(b":0", data_len, 0, 255));
    }
}

/// 254 to 256 pairs, and what follows them: nothing, each stop byte, a digit alone, a bad character.
fn long_texts(put: &mut dyn FnMut(Call)) {
    for n in [254, 255, 256] {
        for colon in ["", ":"] {
            for end in ["", "\r", "\n", "\0", "0", "G"] {
                let text = [colon.as_bytes(), &pairs(&counting(n)), end.as_bytes()].concat();
                put(parse(&text, text.len() as u16, 256, 0));
                if n == 255 {
                    both(put, &text, ASCII);
                }
            }
        }
    }
    let text = line(&counting(255));
    for (data_len, room) in [(511, 254), (511, 255), (510, 255), (512, 255), (ENDLESS, 255)] {
        put(parse(&text, data_len, room, 0));
    }
    put(parse(&text[..511], ENDLESS, 255, 0)); // the last pair ends the slice and the room, but not data_len
    put(parse(&text[..509], ENDLESS, 255, 0));
}

fn lines(put: &mut dyn FnMut(Call)) {
    for n in 0..=6 {
        for room in 0..=2 * n + 5 {
            put(generate(&[0x9A, 0x0F, 0xF0, 0x5A, 0x00, 0xFF][..n], room as u16));
        }
    }
    for n in [254, 255, 256] {
        for room in [2 * n + 1, 2 * n + 2, 2 * n + 3, 2 * n + 4] {
            put(generate(&counting(n), room as u16));
        }
    }
}

/// RTU: every function at the lengths that decide, and byte counts around 246, 250 and those of the ASCII text.
fn heads(put: &mut dyn FnMut(Call)) {
    for function in 0..=255 {
        both(put, &head(function, 4)[..2], RTU);
        put(request(&head(function, 4), RTU));
        put(response(&head(function, 4)[..3], RTU));
    }
    for function in [1, 2, 3, 4, 15, 16] {
        for count in [0, 245, 246, 247, 249, 250, 251, 255] {
            both(put, &head(function, count), RTU);
        }
        for n in 0..=7 {
            both(put, &head(function, 251)[..n], RTU);
        }
    }
    for proto in (0..=4).chain([127, 128, 255]) {
        for frame in [&b""[..], &head(3, 2), &tcp_header([0, 0], 6), b":0103", b"G"] {
            both(put, frame, proto);
        }
    }
}

fn tcp(put: &mut dyn FnMut(Call)) {
    for protocol in [[0, 0], [0, 1], [1, 0], [255, 255]] {
        for length in [0, 5, 6, 248, 249, 250, 255, 256, 505, 506, 65535] {
            both(put, &tcp_header(protocol, length), TCP);
        }
        for n in 0..=6 {
            both(put, &tcp_header(protocol, 249)[..n], TCP);
        }
        both(put, &[&tcp_header(protocol, 249)[..], &[1, 3]].concat(), TCP);
    }
}

/// The same heads as text, cut at every character, and byte counts around 118 and 122.
fn ascii(put: &mut dyn FnMut(Call)) {
    for function in [0, 1, 2, 3, 4, 5, 6, 7, 14, 15, 16, 17, 127, 128, 255] {
        for count in [0, 117, 118, 119, 121, 122, 123, 255] {
            both(put, &line(&head(function, count)), ASCII);
        }
    }
    for function in [3, 16, 43, 131] {
        let text = line(&head(function, 4));
        for n in 0..=text.len() {
            both(put, &text[..n], ASCII);
        }
        for n in 0..8 {
            both(put, &line(&head(function, 119)[..n.min(7)])[1..], ASCII); // no colon
        }
    }
    for text in [":01\r03", ":01\0", ":01103", ":0103\r", ":010a", ":01 03", ":0103:", "::0103", ":0183g", ":01830"] {
        both(put, text.as_bytes(), ASCII);
    }
    // a line beyond the frame buffer, on every transport
    for proto in PROTOS {
        both(put, &line(&counting(300)), proto);
    }
}
