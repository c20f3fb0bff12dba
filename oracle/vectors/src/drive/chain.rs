//! The crate's chain, as its own example drives it: over its own storage of the sizes compared, filled from the lent
//! tables and packed into them again. ASCII text is decoded before and encoded after by the crate's own two functions.
use super::record::*;
use crate::answer::in_the_crate;
use crate::record::{ASCII, RTU};
use crate::tables::storage::{give_bits, give_registers, take_bits, take_registers};
use rmodbus::server::storage::ModbusStorage;
use rmodbus::server::{Changes, ModbusFrame};
use rmodbus::{ErrorKind, ModbusProto};

macro_rules! shapes {
    ($($c:literal $d:literal $h:literal $i:literal,)*) => {
        /// Cells of coils, discretes, holdings and inputs: four small, two middling, two large.
        pub const SHAPES: &[[usize; 4]] = &[$([$c, $d, $h, $i]),*];

        /// What the crate answers and leaves, the stage in which it panicked, and what its `changes` names in the end.
        pub fn ask(call: &Call) -> (Left, Option<&'static str>, Cells) {
            match call.tables.each_ref().map(|t| t.cells) {
                $([$c, $d, $h, $i] => ask_of::<$c, $d, $i, $h>(call),)*
                cells => unreachable!("no storage of {cells:?} cells"),
            }
        }
    };
}

shapes!(
    16 0 4 0,
    37 21 130 9,
    9 33 3 2,
    0 0 0 0,
    1969 2001 126 125,
    2007 2000 125 127,
    65536 9 65535 3,
    65535 65536 65536 1,
);

/// Our argument order is the record's; the crate's is coils, discretes, inputs, holdings.
#[inline(never)] // else one stack frame holds all the storages
fn ask_of<const C: usize, const D: usize, const I: usize, const H: usize>(
    call: &Call,
) -> (Left, Option<&'static str>, Cells) {
    let mut storage = Box::new(ModbusStorage::<C, D, I, H>::new());
    take_bits(&mut storage.coils, &call.tables[COILS].bytes);
    take_bits(&mut storage.discretes, &call.tables[DISCRETES].bytes);
    take_registers(&mut storage.holdings, &call.tables[HOLDINGS].bytes);
    take_registers(&mut storage.inputs, &call.tables[INPUTS].bytes);
    let (mut stage, mut named) = ("parse_ascii_frame", NO_CELLS);
    let answer = in_the_crate(|| chain(call, &mut storage, &mut stage, &mut named));
    let panicked = answer.is_none().then_some(stage);
    let mut left = call.untouched();
    left.reply = answer.and_then(Result::ok).unwrap_or_default(); // a refusal or a panic sends nothing
    give_bits(&storage.coils, &mut left.coils);
    give_registers(&storage.holdings, &mut left.holdings);
    (left, panicked, named)
}

fn chain<const C: usize, const D: usize, const I: usize, const H: usize>(
    call: &Call,
    storage: &mut ModbusStorage<C, D, I, H>,
    stage: &mut &'static str,
    named: &mut Cells,
) -> Result<Vec<u8>, ErrorKind> {
    let mut decoded = [0; 256];
    let (proto, bytes) = match call.transport {
        RTU => (ModbusProto::Rtu, &call.frame[..]),
        ASCII => {
            let n = rmodbus::parse_ascii_frame(&call.frame, call.frame.len(), &mut decoded, 0)?;
            (ModbusProto::Ascii, &decoded[..n.into()])
        }
        _ => (ModbusProto::TcpUdp, &call.frame[..]),
    };
    let mut response = Vec::new();
    let mut frame = ModbusFrame::new(call.unit, bytes, proto, &mut response).with_broadcast_units(&call.list);
    let answered = answer(&mut frame, storage, stage);
    *named = match frame.changes() {
        Some(Changes::Coils { reg, count }) => (1, reg, count),
        Some(Changes::Holdings { reg, count }) => (3, reg, count),
        None => NO_CELLS,
    };
    if !answered? {
        return Ok(Vec::new());
    }
    if call.transport != ASCII {
        return Ok(response);
    }
    let mut line = Vec::new();
    *stage = "generate_ascii_frame";
    rmodbus::generate_ascii_frame(&response, &mut line)?;
    Ok(line)
}

/// From parse to finalize; whether a response is to be sent.
fn answer<const C: usize, const D: usize, const I: usize, const H: usize>(
    frame: &mut ModbusFrame<'_, Vec<u8>>,
    storage: &mut ModbusStorage<C, D, I, H>,
    stage: &mut &'static str,
) -> Result<bool, ErrorKind> {
    *stage = "parse";
    frame.parse()?;
    if frame.processing_required && frame.readonly {
        *stage = "process_read";
        frame.process_read(storage)?;
    } else if frame.processing_required {
        *stage = "process_write";
        frame.process_write(storage)?;
    }
    if frame.response_required {
        *stage = "finalize_response";
        frame.finalize_response()?;
    }
    Ok(frame.response_required)
}
