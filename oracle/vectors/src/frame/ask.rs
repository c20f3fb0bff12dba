//! One call of the crate on any state, over any vector and any tables of its own traits.
use super::record::*;
use crate::answer::proto;
use crate::record::{ASCII, RTU, TCP};
use rmodbus::consts::{ModbusErrorCode, ModbusFunction};
use rmodbus::server::context::ModbusContext;
use rmodbus::server::{Changes, ModbusFrame, Read, Write};
use rmodbus::{ErrorKind, ModbusProto, VectorTrait};

/// Document 01's numbers of the kinds it knows.
const KINDS: [(ErrorKind, u8); 9] = [
    (ErrorKind::IllegalFunction, 1),
    (ErrorKind::IllegalDataAddress, 2),
    (ErrorKind::OOB, 21),
    (ErrorKind::OOBContext, 22),
    (ErrorKind::FrameBroken, 23),
    (ErrorKind::FrameCRCError, 24),
    (ErrorKind::IllegalDataValue, 25),
    (ErrorKind::ReadCallOnWriteFrame, 26),
    (ErrorKind::WriteCallOnReadFrame, 27),
];

pub fn number(kind: ErrorKind) -> Option<u8> {
    KINDS.iter().find(|k| k.0 == kind).map(|k| k.1)
}

/// Every error that a state can hold.
#[rustfmt::skip]
const ERRORS: [ModbusErrorCode; 12] = [
    ModbusErrorCode::NoError, ModbusErrorCode::IllegalFunction, ModbusErrorCode::IllegalDataAddress,
    ModbusErrorCode::IllegalDataValue, ModbusErrorCode::SlaveDeviceFailure, ModbusErrorCode::Acknowledge,
    ModbusErrorCode::SlaveDeviceBusy, ModbusErrorCode::NegativeAcknowledge, ModbusErrorCode::MemoryParityError,
    ModbusErrorCode::GatewayPathUnavailable, ModbusErrorCode::GatewayTargetFailed, ModbusErrorCode::InvalidCrc,
];

pub fn error_codes() -> Vec<u8> {
    ERRORS.iter().map(ModbusErrorCode::byte).collect()
}

/// The answer, with its values, and the state afterwards. The response holds the bytes before the call.
pub fn ask<V: VectorTrait<u8>, C: ModbusContext>(
    call: &Call,
    response: &mut V,
    tables: &mut C,
) -> (Result<Vec<usize>, ErrorKind>, State) {
    let before = response.as_slice().to_vec();
    let mut frame = ModbusFrame::new(call.state.unit_id, &call.buf, proto(call.state.proto), response)
        .with_broadcast_units(&call.list);
    if call.which == NEW {
        return (Ok(Vec::new()), state_of(&frame));
    }
    frame.response.extend(&before).expect("it held them before");
    set(&mut frame, &call.state);
    let got = answer(&mut frame, call, tables);
    (got, state_of(&frame))
}

fn set<V: VectorTrait<u8>>(frame: &mut ModbusFrame<'_, V>, s: &State) {
    frame.processing_required = s.processing_required;
    frame.response_required = s.response_required;
    frame.responding_to_fn = s.responding_to_fn;
    frame.readonly = s.readonly;
    frame.frame_start = s.frame_start;
    frame.func = ModbusFunction::try_from(s.func).expect("a function that is served");
    frame.reg = s.reg;
    frame.count = s.count;
    frame.error = s.error.map(|code| *ERRORS.iter().find(|e| e.byte() == code).expect("a code of the crate"));
}

fn state_of<V: VectorTrait<u8>>(frame: &ModbusFrame<'_, V>) -> State {
    State {
        unit_id: frame.unit_id,
        proto: match frame.proto {
            ModbusProto::Rtu => RTU,
            ModbusProto::Ascii => ASCII,
            ModbusProto::TcpUdp => TCP,
        },
        processing_required: frame.processing_required,
        response_required: frame.response_required,
        responding_to_fn: frame.responding_to_fn,
        readonly: frame.readonly,
        frame_start: frame.frame_start,
        func: frame.func.byte(),
        reg: frame.reg,
        count: frame.count,
        error: frame.error.map(|e| e.byte()),
        response_len: frame.response.len(),
    }
}

fn answer<V: VectorTrait<u8>, C: ModbusContext>(
    frame: &mut ModbusFrame<'_, V>,
    call: &Call,
    tables: &mut C,
) -> Result<Vec<usize>, ErrorKind> {
    let kind = KINDS.iter().find(|k| k.1 == call.reported).map(|k| k.0);
    let reported = kind.map_or(Ok(()), Err);
    match call.which {
        PARSE => frame.parse()?,
        PROCESS_READ => frame.process_read(tables)?,
        PROCESS_WRITE => frame.process_write(tables)?,
        FINALIZE_RESPONSE => frame.finalize_response()?,
        GET_EXTERNAL_READ => return read(frame),
        GET_EXTERNAL_WRITE => return frame.get_external_write().map(|w| write(&w, &call.buf)),
        PROCESS_EXTERNAL_READ => frame.process_external_read(reported)?,
        PROCESS_EXTERNAL_WRITE => frame.process_external_write(reported)?,
        SET_MODBUS_ERROR_IF_UNSET => frame.set_modbus_error_if_unset(&kind.expect("an error to set"))?,
        CHANGES => return Ok(frame.changes().map_or(Vec::new(), changed)),
        _ => unreachable!("no such call"),
    }
    Ok(Vec::new())
}

/// 0 for bits and 1 for words, address, count, and where in the response the data are to go.
fn read<V: VectorTrait<u8>>(frame: &mut ModbusFrame<'_, V>) -> Result<Vec<usize>, ErrorKind> {
    let (of, address, count, room) = match frame.get_external_read()? {
        Read::Bits(r) => (0, r.address, r.count, r.buf),
        Read::Words(r) => (1, r.address, r.count, r.buf),
    };
    let (from, len) = (room.as_ptr() as usize, room.len());
    let at = from - frame.response.as_slice().as_ptr() as usize;
    Ok(vec![of, address.into(), count.into(), at, len])
}

/// 0 for bits and 1 for words, address, count, and the data: 0 and the value, or 1 and where in the frame they stand.
fn write(write: &Write<'_>, buf: &[u8]) -> Vec<usize> {
    let (of, address, count, data) = match write {
        Write::Bits(w) => (0, w.address, w.count, w.data),
        Write::Words(w) => (1, w.address, w.count, w.data),
    };
    let (from, frame) = (data.as_ptr(), buf.as_ptr_range());
    let what = [of, address.into(), count.into()];
    if frame.contains(&from) || from == frame.end {
        [&what[..], &[1, from as usize - frame.start as usize, data.len()]].concat()
    } else {
        [&what[..], &[0, data[0].into()]].concat() // one of the crate's two constants
    }
}

fn changed(changes: Changes) -> Vec<usize> {
    match changes {
        Changes::Coils { reg, count } => vec![0, reg.into(), count.into()],
        Changes::Holdings { reg, count } => vec![1, reg.into(), count.into()],
    }
}
