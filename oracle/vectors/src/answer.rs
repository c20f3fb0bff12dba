//! The answer expected of a call: the crate's own, and document 01's exactly where the crate panics.
use crate::bounded::Bounded;
use crate::record::*;
use crate::window;
use rmodbus::{ErrorKind, ModbusProto, VectorTrait};
use std::panic::{catch_unwind, AssertUnwindSafe};
use std::sync::atomic::{AtomicBool, Ordering::Relaxed};

const BAD_SETUP: u8 = 10;
pub const OOB: u8 = 21;
pub const OOB_CONTEXT: u8 = 22;
pub const FRAME_BROKEN: u8 = 23;

static IN_THE_CRATE: AtomicBool = AtomicBool::new(false);

/// Panics of the crate are expected and say nothing; our own still do.
pub fn hush_the_crate() {
    let speak = std::panic::take_hook();
    std::panic::set_hook(Box::new(move |info| {
        if !IN_THE_CRATE.load(Relaxed) {
            speak(info);
        }
    }));
}

/// What the crate answers, or None where it panics.
pub fn in_the_crate<T>(ask: impl FnOnce() -> T) -> Option<T> {
    IN_THE_CRATE.store(true, Relaxed);
    let got = catch_unwind(AssertUnwindSafe(ask));
    IN_THE_CRATE.store(false, Relaxed);
    got.ok()
}

/// The answer, or why the crate and document 01 do not agree on where it panics. Under the lenient switch it is the
/// crate's to the same text in capitals; a switch that is none is refused before all else (document 02, 2026-06).
pub fn answer(call: &Call) -> Result<Answer, String> {
    match (call.which, call.hex) {
        (_, STRICT) => strictly(call),
        (CHR_TO_HEX, _) => Ok(kind_told(call.small)?),
        (_, LENIENT) => strictly(&call.in_capitals()),
        _ => Ok(Answer { kind: OOB, value: 0, buffer: call.lent() }),
    }
}

/// What a character stands for and which kind of digit it is, 16 x kind + digit: 0 number, 1 capital, 2 small letter.
fn kind_told(c: u8) -> Result<Answer, String> {
    let kind = match c {
        b'a'..=b'f' => 2,
        b'A'..=b'F' => 1,
        _ => 0,
    };
    let answer = strictly(&chr_to_hex(raised(c)))?;
    let value = if answer.kind == 0 { 16 * kind + answer.value } else { 0 };
    Ok(Answer { value, ..answer })
}

fn strictly(call: &Call) -> Result<Answer, String> {
    let mut buffer = call.lent();
    if matches!(call.which, GUESS_REQUEST_FRAME_LEN | GUESS_RESPONSE_FRAME_LEN) && call.small > TCP {
        // the crate has no such proto; document 01 refuses it before all else
        return Ok(Answer { kind: BAD_SETUP, value: 0, buffer });
    }
    let got = in_the_crate(|| ask(call, &mut buffer));
    let (kind, value) = match (got, panics(call)) {
        (None, Some(kind)) => (kind, 0),
        (None, None) => return Err("the crate panics where document 01 foresees none".into()),
        (Some(_), Some(_)) => return Err("document 01 foresees a panic and the crate answers".into()),
        (Some(Ok(value)), None) => (0, u16::try_from(value).map_err(|_| "a value above 65535")?),
        (Some(Err(kind)), None) => (number(kind)?, 0),
    };
    if call.which == GENERATE_ASCII_FRAME {
        same_in_a_vec(call, kind, usize::from(value), &buffer)?;
    }
    Ok(Answer { kind, value, buffer })
}

fn ask(call: &Call, buffer: &mut [u8]) -> Result<usize, ErrorKind> {
    let (input, small) = (&call.input[..], call.small);
    match call.which {
        CALC_CRC16 => Ok(window::calc_crc16(input, small).into()),
        CALC_LRC => Ok(window::calc_lrc(input, small).into()),
        CHR_TO_HEX => window::chr_to_hex(small).map(usize::from),
        HEX_TO_CHR => Ok(window::hex_to_chr(small).into()),
        PARSE_ASCII_FRAME => rmodbus::parse_ascii_frame(input, call.data_len(), buffer, small).map(usize::from),
        GENERATE_ASCII_FRAME => {
            let mut line = Bounded::over(buffer);
            rmodbus::generate_ascii_frame(input, &mut line)?;
            Ok(line.len())
        }
        GUESS_REQUEST_FRAME_LEN => rmodbus::guess_request_frame_len(input, proto(small)).map(usize::from),
        GUESS_RESPONSE_FRAME_LEN => rmodbus::guess_response_frame_len(input, proto(small)).map(usize::from),
        _ => unreachable!("no such call"),
    }
}

pub fn proto(number: u8) -> ModbusProto {
    match number {
        RTU => ModbusProto::Rtu,
        ASCII => ModbusProto::Ascii,
        _ => ModbusProto::TcpUdp,
    }
}

/// Document 01's number of a refusal.
fn number(kind: ErrorKind) -> Result<u8, String> {
    match kind {
        ErrorKind::OOB => Ok(OOB),
        ErrorKind::FrameBroken => Ok(FRAME_BROKEN),
        other => Err(format!("modules 1 to 3 do not know the answer {other:?}")),
    }
}

/// A Vec never lacks room: it must hold the same line, or one longer than the lent buffer where that was refused.
fn same_in_a_vec(call: &Call, kind: u8, len: usize, buffer: &[u8]) -> Result<(), String> {
    let mut line = Vec::new();
    rmodbus::generate_ascii_frame(&call.input, &mut line).map_err(|e| format!("a Vec is refused: {e:?}"))?;
    let same = if kind == 0 { line == buffer[..len] } else { line.len() > buffer.len() };
    if same {
        Ok(())
    } else {
        Err("a Vec holds another line than the bounded response".into())
    }
}

/// Document 01's answer where it says that the crate panics; None where it says that the crate answers.
fn panics(call: &Call) -> Option<u8> {
    match call.which {
        CALC_LRC if usize::from(call.small) > call.input.len() => Some(FRAME_BROKEN),
        HEX_TO_CHR if call.small >= 201 => Some(OOB),
        PARSE_ASCII_FRAME if parse_leaves_a_slice(call) => Some(OOB),
        _ => None,
    }
}

/// Empty data, reading past the data, or writing past the frame buffer, before any other end of the call.
fn parse_leaves_a_slice(call: &Call) -> bool {
    let (text, end, room) = (&call.input, call.data_len(), usize::from(call.room));
    let Some(&first) = text.first() else { return true };
    let mut at = usize::from(first == b':');
    for position in usize::from(call.small)..255 {
        if at >= end {
            return false;
        }
        match text.get(at) {
            None => return true,
            Some(c) if !is_digit(*c) => return false, // a stop byte or a refusal
            Some(_) if at + 1 >= end => return false, // a digit alone
            Some(_) => {}
        }
        match text.get(at + 1) {
            None => return true,
            Some(c) if !is_digit(*c) => return false,
            Some(_) if position >= room => return true,
            Some(_) => at += 2,
        }
    }
    false // position 255: the data ends, or OOB without a look at it
}

fn is_digit(c: u8) -> bool {
    b"0123456789ABCDEF".contains(&c)
}
