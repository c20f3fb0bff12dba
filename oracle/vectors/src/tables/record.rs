//! A call of module 4, the answer expected, and the record that holds both. Numbers stand high byte first:
//!
//!     byte 0       call: 9 push, 10 extend, 11 resize, 12 cut_end, 13 clear, 14 get_coil, 15 set_coil,
//!                  16 get_coils_as_u8, 17 get_discretes_as_u8, 18 set_coils_from_u8, 19 get_holding, 20 set_holding,
//!                  21 get_holdings_as_u8, 22 get_inputs_as_u8, 23 set_holdings_from_u8
//!     bytes 1-2    reg (14 to 23; else 0)
//!     bytes 3-4    the value (9, 11, 15, 20) or the count (16 to 18, 21, 22); else 0
//!     bytes 5-12   new_len (11), n (12), cells (14 to 23); else 0
//!     bytes 13-20  the response's len (9 to 13, 16, 17, 21, 22; else 0)
//!     bytes 21-24  n, the length of the input slice (10, 18, 23; else 0)
//!     bytes 25-28  m, the length of the lent response
//!     bytes 29-32  t, the length of the lent table
//!     byte 33      the kind expected: 0 where a value is expected, else document 01's number of the refusal
//!     bytes 34-37  the value expected (0 for a refusal)
//!     then n bytes of input, the t bytes of the table before the call, the m bytes of the response as expected after
//!     it and, for the calls that write a table (15, 18, 20, 23), the t bytes of the table as expected after it.
//!     Before the call byte i of the lent response is (0x5A + i) % 256.

pub const PUSH: u8 = 9;
pub const EXTEND: u8 = 10;
pub const RESIZE: u8 = 11;
pub const CUT_END: u8 = 12;
pub const CLEAR: u8 = 13;
pub const GET_COIL: u8 = 14;
pub const SET_COIL: u8 = 15;
pub const GET_COILS_AS_U8: u8 = 16;
pub const GET_DISCRETES_AS_U8: u8 = 17;
pub const SET_COILS_FROM_U8: u8 = 18;
pub const GET_HOLDING: u8 = 19;
pub const SET_HOLDING: u8 = 20;
pub const GET_HOLDINGS_AS_U8: u8 = 21;
pub const GET_INPUTS_AS_U8: u8 = 22;
pub const SET_HOLDINGS_FROM_U8: u8 = 23;

pub const BIT_READS: [u8; 2] = [GET_COILS_AS_U8, GET_DISCRETES_AS_U8];
pub const REGISTER_READS: [u8; 2] = [GET_HOLDINGS_AS_U8, GET_INPUTS_AS_U8];

/// The most cells that a table has.
pub const MOST: usize = 65536;

#[derive(Clone)]
pub struct Call {
    pub which: u8,
    pub reg: u16,
    pub small: u16,  // the value or the count
    pub size: usize, // new_len, n or cells
    pub response: Response,
    pub input: Vec<u8>,
    pub table: Vec<u8>,
}

pub struct Answer {
    pub kind: u8,
    pub value: usize,
    pub response: Vec<u8>,
    pub table: Vec<u8>,
    /// How the crate left the call, where that is not the answer.
    pub difference: Option<&'static str>,
}

/// So many bytes lent, so many of them said to be held.
#[derive(Clone, Copy)]
pub struct Response {
    pub room: usize,
    pub len: usize,
}

const NONE: Response = Response { room: 0, len: 0 };

/// A table as lent: its bytes, and the cells it is said to have.
#[derive(Clone)]
pub struct Table {
    pub bytes: Vec<u8>,
    pub cells: usize,
}

fn of_response(which: u8, response: Response, size: usize, value: u8, other: &[u8]) -> Call {
    Call { which, reg: 0, small: value.into(), size, response, input: other.to_vec(), table: Vec::new() }
}

pub fn push(response: Response, value: u8) -> Call {
    of_response(PUSH, response, 0, value, &[])
}

pub fn extend(response: Response, other: &[u8]) -> Call {
    of_response(EXTEND, response, 0, 0, other)
}

pub fn resize(response: Response, new_len: usize, value: u8) -> Call {
    of_response(RESIZE, response, new_len, value, &[])
}

pub fn cut_end(response: Response, n: usize) -> Call {
    of_response(CUT_END, response, n, 0, &[])
}

pub fn clear(response: Response) -> Call {
    of_response(CLEAR, response, 0, 0, &[])
}

fn of_table(which: u8, table: &Table, reg: u16, small: u16, response: Response, values: &[u8]) -> Call {
    let Table { bytes, cells } = table.clone();
    Call { which, reg, small, size: cells, response, input: values.to_vec(), table: bytes }
}

pub fn get_coil(table: &Table, reg: u16) -> Call {
    of_table(GET_COIL, table, reg, 0, NONE, &[])
}

pub fn set_coil(table: &Table, reg: u16, value: bool) -> Call {
    of_table(SET_COIL, table, reg, value.into(), NONE, &[])
}

pub fn set_coils(table: &Table, reg: u16, count: u16, values: &[u8]) -> Call {
    of_table(SET_COILS_FROM_U8, table, reg, count, NONE, values)
}

pub fn get_holding(table: &Table, reg: u16) -> Call {
    of_table(GET_HOLDING, table, reg, 0, NONE, &[])
}

pub fn set_holding(table: &Table, reg: u16, value: u16) -> Call {
    of_table(SET_HOLDING, table, reg, value, NONE, &[])
}

pub fn set_holdings(table: &Table, reg: u16, values: &[u8]) -> Call {
    of_table(SET_HOLDINGS_FROM_U8, table, reg, 0, NONE, values)
}

/// One of the four calls get_*_as_u8.
pub fn read(which: u8, table: &Table, reg: u16, count: u16, response: Response) -> Call {
    of_table(which, table, reg, count, response, &[])
}

/// Coils and discretes are bits.
pub fn is_of_bits(which: u8) -> bool {
    (GET_COIL..=SET_COILS_FROM_U8).contains(&which)
}

/// The bytes that so many cells take.
pub fn bytes_of(cells: usize, bits: bool) -> usize {
    if bits {
        cells.div_ceil(8)
    } else {
        2 * cells
    }
}

/// Which of the four tables are of bits: coils and discretes, not holdings and inputs.
pub const BITS_TABLES: [bool; 4] = [true, true, false, false];

/// The cells that count of a table lent as so many bytes; none where document 01 calls the setup bad.
pub fn cells_there(cells: usize, len: usize, bits: bool) -> usize {
    if cells > MOST || len < bytes_of(cells, bits) {
        0
    } else {
        cells
    }
}

impl Call {
    /// The lent response before the call.
    pub fn lent(&self) -> Vec<u8> {
        (0..self.response.room).map(|i| ((0x5A + i) % 256) as u8).collect()
    }

    pub fn of_bits(&self) -> bool {
        is_of_bits(self.which)
    }

    /// Whether it is one of the four calls get_*_as_u8.
    pub fn reads(&self) -> bool {
        BIT_READS.contains(&self.which) || REGISTER_READS.contains(&self.which)
    }

    fn writes(&self) -> bool {
        matches!(self.which, SET_COIL | SET_COILS_FROM_U8 | SET_HOLDING | SET_HOLDINGS_FROM_U8)
    }

    pub fn record(&self, answer: &Answer) -> Vec<u8> {
        let short = |number: usize| u32::try_from(number).expect("a number too large for a record").to_be_bytes();
        let mut r = vec![self.which];
        r.extend(self.reg.to_be_bytes());
        r.extend(self.small.to_be_bytes());
        r.extend((self.size as u64).to_be_bytes());
        r.extend((self.response.len as u64).to_be_bytes());
        for number in [self.input.len(), self.response.room, self.table.len()] {
            r.extend(short(number));
        }
        r.push(answer.kind);
        r.extend(short(answer.value));
        r.extend(&self.input);
        r.extend(&self.table);
        r.extend(&answer.response);
        if self.writes() {
            r.extend(&answer.table);
        }
        r
    }
}

impl std::fmt::Display for Call {
    fn fmt(&self, f: &mut std::fmt::Formatter<'_>) -> std::fmt::Result {
        let Response { room, len } = self.response;
        write!(f, "reg {} value or count {} new_len, n or cells {} ", self.reg, self.small, self.size)?;
        write!(f, "room {room} len {len} input {:02X?} table {:02X?}", self.input, self.table)
    }
}
