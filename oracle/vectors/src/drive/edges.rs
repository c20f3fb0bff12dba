//! The edges: the smallest input of each way in which the crate differs, document 01's cases, and every function with
//! starts, counts and byte counts on both sides of their limits, on every transport.
use super::chain::SHAPES;
use super::random::lent;
use super::record::*;
use super::wire::wrap;
use crate::chance::Chance;
use crate::record::{ASCII, LENIENT, RTU, STRICT, TCP};

/// Frames as sent, to unit 1 with the list [0] and 16 coils and 4 holdings.
const RTU_FRAMES: [&str; 7] = [
    "",
    "01",
    "0107",                // unknown function, shape wrong
    "01070000",            // unknown function, check wrong
    "010100000001FDCA 01", // bytes after the check
    "010100000001FDCA 00", // bytes after the request: after a right CRC a zero is right again
    "01030000000184 0A",
];
const LINES: [&str; 13] = [
    "",
    ":",
    ":0107",
    "0107",
    ":0107\r\n",
    ":010700\r\n",
    ":010300000002FA\r\n", // cases j and k
    ":010300000002FB\r\n",
    "010300000002FA\r\n", // without its colon
    ":010300000002FA",    // does not end at CR LF
    ":010300000002FA\n",
    ":010300000002FA\r\n\r\n",
    ":010300000002FA00\r\n",
];
/// Document 02's lines in lower and mixed case, and both sides of each kind of digit.
const SPELT: [&str; 18] = [
    ":010300000002fa\r\n",
    ":010300000002Fa\r\n",
    ":010300000002fb\r\n",
    ":01060002abCD7f\r\n",
    ":01060002abcd7F\r\n",
    ":01060002abgd7F\r\n",
    ":01060002000/F7\r\n",
    ":010600020000F7\r\n",
    ":010600020009EE\r\n",
    ":01060002000:F7\r\n",
    ":01060002000@F7\r\n",
    ":01060002000AED\r\n",
    ":01060002000FE8\r\n",
    ":01060002000GF7\r\n",
    ":01060002000`F7\r\n",
    ":01060002000aED\r\n",
    ":01060002000fE8\r\n",
    ":01060002000gF7\r\n",
];
const TCP_FRAMES: [&str; 18] = [
    "00000000",
    "000000000002 0107",           // length 2
    "000000000006 0107",           // unknown function, shape wrong
    "000000000007 010100000001",   // length field that is not the frame's
    "000000000007 01010000000100", // bytes after the request
    "000000000007 010F00000001F7", // value fault of a write without its data
    "000000000007 010F0000000101", // a panic in process_write
    "000000010006 010300000002",
    "000700000006 010300000002", // cases a to i
    "000800000006 010300030002",
    "000900000006 010300000000",
    "000A00000006 01050009FF00",
    "000B00000006 010500090001",
    "000C00000009 010F0003000A02CD01",
    "000D0000000A 01100000000203000100",
    "000E00000006 000600021234",
    "000F00000006 012B0E010000",
    "001000000006 0103FFFF0001",
];
/// Requests, to be sent on every transport with a right check.
const BODIES: [&str; 17] = [
    "010100000000",            // read of 0 cells
    "010F0000000000",          // write of 0 cells
    "010100110000",            // 0 cells outside the table
    "010F0000000001 00",       // function 15, too many bytes
    "010F0000000102 0100",     // the same, with storing
    "010F0000000100",          // too few
    "010F0000000901 FF",       // too few, with storing
    "01100000000100",          // function 16, byte count even but not twice the count
    "01100000000104 12345678", // the same, with storing
    "01100000000101 12",       // odd
    "01100000000103 123456",   // odd, with storing
    "010F0010000102 0000",     // byte count wrong, and outside the table
    "000F0000000901 FF",       // a broadcast, stored and refused
    "010F00000001F9",          // a panic in parse
    "018000000000",            // a panic in finalize_response
    // functions 22 and 23, unknown to it
    "0116000000F20025",
    "0117000000010000000102 1234",
];

fn bytes(text: &str) -> Vec<u8> {
    let digits: Vec<u8> = text.bytes().filter(|c| *c != b' ').collect();
    let pair = |p: &[u8]| u8::from_str_radix(std::str::from_utf8(p).expect("digits"), 16).expect("digits");
    digits.chunks(2).map(pair).collect()
}

pub fn edges(seed: u64, put: &mut dyn FnMut(Call)) {
    let mut chance = Chance(seed ^ 0xED6E);
    let mut send_under = |hex: u8, shape: usize, transport: u8, frame: Vec<u8>| {
        let call = lent(&mut chance, shape);
        let room = if transport == ASCII { 511 } else { 260 };
        put(Call { transport, unit: 1, hex, list: vec![0], room, frame, ..call });
    };
    for hex in [STRICT, LENIENT] {
        SPELT.iter().for_each(|f| send_under(hex, 0, ASCII, f.as_bytes().to_vec()));
        LINES.iter().for_each(|f| send_under(hex, 0, ASCII, f.to_ascii_lowercase().into_bytes()));
        for body in BODIES {
            send_under(hex, 0, ASCII, wrap(ASCII, [0, 0], &bytes(body)).to_ascii_lowercase());
        }
        send_under(hex, 0, RTU, wrap(RTU, [0, 0], &bytes("010600026162"))); // bytes of RTU and TCP are no letters
        send_under(hex, 0, TCP, wrap(TCP, [0x61, 0x66], &bytes("010600026162")));
    }
    let mut send = |shape: usize, transport: u8, frame: Vec<u8>| send_under(STRICT, shape, transport, frame);
    RTU_FRAMES.iter().for_each(|f| send(0, RTU, bytes(f)));
    LINES.iter().for_each(|f| send(0, ASCII, f.as_bytes().to_vec()));
    TCP_FRAMES.iter().for_each(|f| send(0, TCP, bytes(f)));
    send(0, RTU, [wrap(RTU, [0, 0], &bytes(BODIES[0])), vec![0; 249]].concat()); // above 256 bytes
    send(0, TCP, [bytes("0000000000FB 0107"), vec![0; 249]].concat()); // length 251
    for transport in [RTU, ASCII, TCP] {
        BODIES.iter().for_each(|body| send(0, transport, wrap(transport, [0, 0], &bytes(body))));
    }
    for transport in [RTU, ASCII, TCP] {
        for (shape, cells) in SHAPES.iter().enumerate().take(SHAPES.len() - 2) {
            let mut put = |body: &[u8]| send(shape, transport, wrap(transport, [0xAB, 0xCD], body));
            grid(cells, &mut put);
            masks(cells[HOLDINGS] as u16, &mut put);
            exchanges(cells[HOLDINGS] as u16, &mut put);
        }
    }
}

/// Every function over starts and counts at the limits of the table and of the function.
fn grid(cells: &[usize; 4], put: &mut dyn FnMut(&[u8])) {
    for (unit, function) in
        [0, 1, 2].into_iter().flat_map(|u| [0, 1, 2, 3, 4, 5, 6, 7, 15, 16, 127, 128].map(|f| (u, f)))
    {
        let served = super::model::served(function);
        let cells = if served { cells[super::model::table_of(function)] as u16 } else { 1 };
        for start in [0, 1, 7, cells.wrapping_sub(1), cells, cells + 1, 65535] {
            for count in [0, 1, 2, 8, 9, cells, cells + 1, 123, 124, 125, 126, 1968, 1969, 2000, 2001, 0xFF00, 65535] {
                let mut body = vec![unit, function];
                body.extend(start.to_be_bytes());
                body.extend(count.to_be_bytes());
                if !matches!(function, 15 | 16) || unit == 2 {
                    put(&body);
                    continue;
                }
                let right = if function == 15 { count.div_ceil(8).into() } else { 2 * usize::from(count) };
                for n in [right, right + 1, right.saturating_sub(1), 246, 247, 248, 249] {
                    if let Ok(byte) = u8::try_from(n) {
                        let data: Vec<u8> = (0..byte).map(|i| i.wrapping_mul(37).wrapping_add(11)).collect();
                        put(&[&body[..], &[byte], &data[..]].concat());
                    }
                }
            }
        }
    }
}

/// Function 22 at the limits of its table, a byte short and a byte long.
fn masks(cells: u16, put: &mut dyn FnMut(&[u8])) {
    for (unit, start) in [0, 1, 2].into_iter().flat_map(|u| [0, cells.wrapping_sub(1), cells, 65535].map(|s| (u, s))) {
        for (and, or) in [(0xF2, 0x25), (0, 0xBEEF), (65535, 65535), (0xF0F0, 0x1234)] {
            let words = [start, and, or].map(u16::to_be_bytes).concat();
            let body = [&[unit, 22], &words[..], &[0]].concat();
            (7..=9).for_each(|len| put(&body[..len]));
        }
    }
}

/// Function 23 with both ranges and its byte count at their limits, apart and one over the other.
fn exchanges(cells: u16, put: &mut dyn FnMut(&[u8])) {
    let last = cells.wrapping_sub(1);
    for (read, count) in [(0, 0), (0, 1), (0, cells), (1, cells), (last, 1), (cells, 1), (0, 125), (0, 126), (65535, 1)]
    {
        for (write, written) in [(0, 0u16), (0, 1), (1, 2), (last, 1), (cells, 1), (0, 121), (0, 122), (65535, 1)] {
            for bytes in [2 * written, 2 * written + 1, (2 * written).saturating_sub(1)] {
                let data: Vec<u8> = (0..bytes).map(|i| (i as u8).wrapping_mul(41).wrapping_add(7)).collect();
                let words = [read, count, write, written].map(u16::to_be_bytes).concat();
                let body = |unit: u8| [&[unit, 23], &words[..], &[bytes as u8], &data[..]].concat();
                (0..=2).for_each(|unit| put(&body(unit)));
                put(&body(1)[..10]);
                put(&body(1)[..10 + usize::from(bytes)]);
            }
        }
    }
}
