//! The numbers of a call that tell a port from one that is wrong at a bound: for each of them the fixed list has a
//! record, however long.
use super::record::*;
use crate::record::TCP;

/// What is told of a call: each kind of mark with its numbers.
pub fn marks(call: &Call, left: &Left) -> Vec<(&'static str, Vec<usize>)> {
    let s = &call.state;
    let told = [usize::from(call.which), usize::from(left.kind), usize::from(left.state.error != s.error)];
    let mut marks = Vec::new();
    let mut mark = |name, numbers: &[usize]| marks.push((name, [&told[..], numbers].concat()));
    match call.which {
        PARSE => parsed(call, left, &mut mark),
        PROCESS_READ | GET_EXTERNAL_READ => {
            let added = left.state.response_len.saturating_sub(s.response_len);
            if s.func < 5 && COUNTS.contains(&s.count) && s.frame_start < 7 {
                mark("count", &[(s.func > 2).into(), s.count.into(), (s.proto == TCP).into(), (added > 0).into()]);
            }
            if left.kind == 0 && added >= 240 {
                mark("many read", &[s.func.into()]);
            }
        }
        PROCESS_WRITE => {
            if s.func > 4 && s.error.is_some() {
                mark("an error before", &[s.func.into()]);
            }
            if call.changed(left) > 200 {
                mark("many written", &[s.func.into()]);
            }
        }
        FINALIZE_RESPONSE if (250..258).contains(&s.response_len) => {
            mark("held", &[s.response_len, s.proto.into()]);
        }
        GET_EXTERNAL_WRITE => mark("place", &[s.func.into(), (s.frame_start > 0).into()]),
        PROCESS_EXTERNAL_READ | PROCESS_EXTERNAL_WRITE | SET_MODBUS_ERROR_IF_UNSET => {
            mark("reported", &[call.reported.into(), (s.proto == TCP).into()]);
        }
        _ => {}
    }
    marks
}

const COUNTS: [u16; 13] = [0, 125, 126, 127, 128, 2000, 2040, 2041, 32766, 32767, 32768, 32769, 65535];

fn parsed(call: &Call, left: &Left, mark: &mut dyn FnMut(&'static str, &[usize])) {
    let (s, buf) = (&call.state, &call.buf);
    let word = |at: usize| usize::from(buf[at]) * 256 + usize::from(buf[at + 1]);
    if s.proto == TCP && buf.len() > 12 && [5, 6, 250, 251].contains(&word(4)) {
        mark("TCP length", &[word(4), usize::from(s.frame_start == 6)]);
    }
    let start = left.state.frame_start;
    if start > 6 || buf.len() < start + 8 || buf[start] != s.unit_id {
        return;
    }
    let (function, count, bytes) = (usize::from(buf[start + 1]), word(start + 4), usize::from(buf[start + 6]));
    let most = match function {
        1 | 2 => 2000,
        3 | 4 => 125,
        15 => 1968,
        _ => 123,
    };
    if count == most || count == most + 1 {
        mark("count", &[function, count, (bytes <= 246).into()]);
    }
    if matches!(function, 15 | 16) && (246..250).contains(&bytes) {
        mark("byte count", &[bytes, s.proto.into(), (buf.len() >= start + 7 + bytes).into()]);
    }
}
