//! The crate's own chain, as its example drives it, and its client, behind C functions. Its storage and its vectors are
//! made once and used again, so that no allocation is counted against it.
use rmodbus::client::ModbusRequest;
use rmodbus::server::{storage::ModbusStorageFull, ModbusFrame};
use rmodbus::{generate_ascii_frame, parse_ascii_frame, ErrorKind, ModbusProto};

pub struct Crate {
    storage: ModbusStorageFull,
    decoded: [u8; 256],
    response: Vec<u8>,
    line: Vec<u8>,
    text: bool, // the last reply is `line`
    client: ModbusRequest,
    values: Vec<u16>,
}

impl Crate {
    fn serve(&mut self, transport: i32, frame: &[u8]) -> Result<usize, ErrorKind> {
        self.text = transport == 1;
        let (proto, bytes) = match transport {
            0 => (ModbusProto::Rtu, frame),
            1 => {
                let n = parse_ascii_frame(frame, frame.len(), &mut self.decoded, 0)?;
                (ModbusProto::Ascii, &self.decoded[..n.into()])
            }
            _ => (ModbusProto::TcpUdp, frame),
        };
        self.response.clear();
        let mut state = ModbusFrame::new(1, bytes, proto, &mut self.response);
        state.parse()?;
        if state.processing_required && state.readonly {
            state.process_read(&self.storage)?;
        } else if state.processing_required {
            state.process_write(&mut self.storage)?;
        }
        if !state.response_required {
            return Ok(0);
        }
        state.finalize_response()?;
        if !self.text {
            return Ok(self.response.len());
        }
        self.line.clear();
        generate_ascii_frame(&self.response, &mut self.line)?;
        Ok(self.line.len())
    }
}

impl Crate {
    /// The request is left in `response`, on ASCII as text in `line`.
    fn build(&mut self, transport: i32, values: &[u16], func: usize, reg: u16) -> Result<usize, ErrorKind> {
        self.client.proto = match transport {
            0 => ModbusProto::Rtu,
            1 => ModbusProto::Ascii,
            _ => ModbusProto::TcpUdp,
        };
        self.response.clear();
        match func {
            3 => self.client.generate_get_holdings(reg, values.len() as u16, &mut self.response)?,
            _ => self.client.generate_set_holdings_bulk(reg, values, &mut self.response)?,
        }
        if transport != 1 {
            return Ok(self.response.len());
        }
        self.line.clear();
        generate_ascii_frame(&self.response, &mut self.line)?;
        Ok(self.line.len())
    }

    fn hear(&mut self, transport: i32, frame: &[u8]) -> Result<usize, ErrorKind> {
        let bytes = if transport == 1 {
            let n = parse_ascii_frame(frame, frame.len(), &mut self.decoded, 0)?;
            &self.decoded[..n.into()]
        } else {
            frame
        };
        self.values.clear();
        self.client.parse_u16(bytes, &mut self.values)?;
        Ok(self.values.len())
    }
}

/// # Safety
/// `server` comes from crate_new, `values` holds `n` values
#[no_mangle]
pub unsafe extern "C" fn crate_build(
    server: *mut Crate, transport: i32, values: *const u16, function: usize, start: usize, n: usize,
) -> usize {
    let values = unsafe { std::slice::from_raw_parts(values, n) };
    unsafe { &mut *server }.build(transport, values, function, start as u16).unwrap_or(0)
}

/// # Safety
/// `server` comes from crate_new, `frame` holds `len` bytes
#[no_mangle]
pub unsafe extern "C" fn crate_hear(server: *mut Crate, transport: i32, frame: *const u8, len: usize) -> usize {
    let frame = unsafe { std::slice::from_raw_parts(frame, len) };
    unsafe { &mut *server }.hear(transport, frame).unwrap_or(0)
}

/// # Safety
/// `server` comes from crate_new
#[no_mangle]
pub unsafe extern "C" fn crate_built(server: *const Crate, transport: i32) -> *const u8 {
    let server = unsafe { &*server };
    if transport == 1 { server.line.as_ptr() } else { server.response.as_ptr() }
}

/// # Safety
/// `server` comes from crate_new
#[no_mangle]
pub unsafe extern "C" fn crate_heard(server: *const Crate) -> *const u16 {
    unsafe { &*server }.values.as_ptr()
}

#[no_mangle]
pub extern "C" fn crate_new() -> *mut Crate {
    Box::into_raw(Box::new(Crate {
        storage: ModbusStorageFull::new(),
        decoded: [0; 256],
        response: Vec::with_capacity(600),
        line: Vec::with_capacity(600),
        text: false,
        client: ModbusRequest::new_tcp_udp(1, 7),
        values: Vec::with_capacity(2000),
    }))
}

/// # Safety
/// `server` comes from crate_new, `frame` holds `len` bytes
#[no_mangle]
pub unsafe extern "C" fn crate_serve(server: *mut Crate, transport: i32, frame: *const u8, len: usize) -> usize {
    let frame = unsafe { std::slice::from_raw_parts(frame, len) };
    unsafe { &mut *server }.serve(transport, frame).unwrap_or(0)
}

/// # Safety
/// `server` comes from crate_new
#[no_mangle]
pub unsafe extern "C" fn crate_reply(server: *const Crate) -> *const u8 {
    let server = unsafe { &*server };
    if server.text { server.line.as_ptr() } else { server.response.as_ptr() }
}

extern "Rust" {
    fn window_calc_crc16(frame: &[u8], data_length: u8) -> u16; // oracle/rmodbus/tests.rs
}

/// # Safety
/// `bytes` holds `n` bytes, at most 255
#[no_mangle]
pub unsafe extern "C" fn crate_crc(bytes: *const u8, n: usize) -> u16 {
    unsafe { window_calc_crc16(std::slice::from_raw_parts(bytes, n), n as u8) }
}
