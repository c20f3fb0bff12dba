//! What the crate's client says of a call.
use super::record::*;
use crate::answer::in_the_crate;
use crate::record::{ASCII, RTU};
use rmodbus::client::ModbusRequest;
use rmodbus::{generate_ascii_frame, parse_ascii_frame, ErrorKind, ModbusProto};
use std::fmt;

pub enum Said {
    Built(Vec<u8>),
    Values(Vec<u16>),
    /// With the code that the crate's name for it stands for in the Modbus document, 0 where it has none.
    Exception(u8),
    Refused,
    Panicked,
}

impl fmt::Display for Said {
    fn fmt(&self, f: &mut fmt::Formatter<'_>) -> fmt::Result {
        match self {
            Said::Built(frame) => write!(f, "built, {} bytes", frame.len()),
            Said::Values(values) => write!(f, "{} values", values.len()),
            Said::Exception(code) => write!(f, "exception {code}"),
            Said::Refused => write!(f, "refused"),
            Said::Panicked => write!(f, "panic"),
        }
    }
}

pub fn answer(call: &Call) -> Said {
    let proto = match call.to.proto {
        RTU => ModbusProto::Rtu,
        ASCII => ModbusProto::Ascii,
        _ => ModbusProto::TcpUdp,
    };
    let mut client = ModbusRequest::new(call.to.unit, proto);
    client.tr_id = call.to.tr_id;
    let said = in_the_crate(|| {
        let frame = built(&mut client, call)?;
        match &call.reply {
            None => Ok(Said::Built(frame)),
            Some(reply) => read(&client, call, reply).map(Said::Values),
        }
    });
    match said {
        None => Said::Panicked,
        Some(Ok(said)) => said,
        Some(Err(kind)) => told(kind),
    }
}

fn told(kind: ErrorKind) -> Said {
    match kind {
        ErrorKind::IllegalFunction => Said::Exception(1),
        ErrorKind::IllegalDataAddress => Said::Exception(2),
        ErrorKind::IllegalDataValue => Said::Exception(3),
        ErrorKind::SlaveDeviceFailure => Said::Exception(4),
        ErrorKind::Acknowledge => Said::Exception(5),
        ErrorKind::SlaveDeviceBusy => Said::Exception(6),
        ErrorKind::NegativeAcknowledge => Said::Exception(7),
        ErrorKind::MemoryParityError => Said::Exception(8),
        ErrorKind::GatewayPathUnavailable => Said::Exception(10),
        ErrorKind::GatewayTargetFailed => Said::Exception(11),
        ErrorKind::UnknownError => Said::Exception(0),
        _ => Said::Refused,
    }
}

fn built(client: &mut ModbusRequest, call: &Call) -> Result<Vec<u8>, ErrorKind> {
    let Ask { func, reg, count, values } = &call.ask;
    let mut frame = Vec::new();
    let coils: Vec<u8> = values.iter().map(|v| *v as u8).collect();
    match func {
        1 => client.generate_get_coils(*reg, *count, &mut frame),
        2 => client.generate_get_discretes(*reg, *count, &mut frame),
        3 => client.generate_get_holdings(*reg, *count, &mut frame),
        4 => client.generate_get_inputs(*reg, *count, &mut frame),
        5 => client.generate_set_coil(*reg, coils[0], &mut frame),
        6 => client.generate_set_holding(*reg, values[0], &mut frame),
        15 => client.generate_set_coils_bulk(*reg, &coils, &mut frame),
        _ => client.generate_set_holdings_bulk(*reg, values, &mut frame),
    }?;
    if call.to.proto != ASCII {
        return Ok(frame);
    }
    let mut text = Vec::new();
    generate_ascii_frame(&frame, &mut text)?;
    Ok(text)
}

fn read(client: &ModbusRequest, call: &Call, reply: &[u8]) -> Result<Vec<u16>, ErrorKind> {
    let mut decoded = [0; 256];
    let bytes = if call.to.proto == ASCII {
        let n = parse_ascii_frame(reply, reply.len(), &mut decoded, 0)?;
        &decoded[..n.into()]
    } else {
        reply
    };
    let (mut bits, mut words) = (Vec::<u8>::new(), Vec::<u16>::new());
    match call.ask.func {
        1 | 2 => client.parse_bool_u8(bytes, &mut bits)?,
        3 | 4 => client.parse_u16(bytes, &mut words)?,
        _ => client.parse_ok(bytes)?,
    }
    words.extend(bits.iter().map(|bit| u16::from(*bit)));
    Ok(words)
}
