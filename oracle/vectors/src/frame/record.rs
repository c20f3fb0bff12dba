//! A call of modules 5 to 7, what it leaves, and the record that holds both (the format is in FORMAT).
use crate::tables::record::{cells_there, BITS_TABLES};

pub const PARSE: u8 = 31;
pub const PROCESS_READ: u8 = 32;
pub const PROCESS_WRITE: u8 = 33;
pub const FINALIZE_RESPONSE: u8 = 34;
pub const GET_EXTERNAL_READ: u8 = 35;
pub const GET_EXTERNAL_WRITE: u8 = 36;
pub const PROCESS_EXTERNAL_READ: u8 = 37;
pub const PROCESS_EXTERNAL_WRITE: u8 = 38;
pub const SET_MODBUS_ERROR_IF_UNSET: u8 = 39;
pub const CHANGES: u8 = 40;
pub const NEW: u8 = 41;

/// Short names from call 31 on, as the counts are printed.
#[rustfmt::skip]
pub const NAMES: [&str; 11] = [
    "parse", "process_read", "process_write", "finalize", "get_read", "get_write", "external_read", "external_write",
    "set_error", "changes", "new",
];

pub const FORMAT: &str = "\
# A record of modules 5 to 7, numbers high byte first:
#   byte 0       call: 31 parse, 32 process_read, 33 process_write, 34 finalize_response, 35 get_external_read,
#                36 get_external_write, 37 process_external_read, 38 process_external_write,
#                39 set_modbus_error_if_unset, 40 changes, 41 new
#   byte 1       what is reported (37 to 39): 0 done, 1 IllegalFunction, 2 IllegalDataAddress, 21 to 27 the kinds
#   bytes 2-28   the state before the call: unit_id, proto, flags (1 processing_required, 2 response_required,
#                4 readonly), responding_to_fn, frame_start (8), func, reg (2), count (2), whether an error is set, its
#                code, response_len (8)
#   byte 29      the kind expected: 0 or document 01's number of the refusal
#   bytes 30-56  the state expected
#   byte 57      the table expected to change: 0 coils, 2 holdings, 255 none
#   bytes 58-61  the byte from which on it changes
#   bytes 62-83  the lengths (2 each) of the eleven parts that follow: buf; the list; the front of the lent response
#                before the call; the lent response expected; the values expected (2 bytes each, as the specs of
#                the crate frame list them); the changed bytes of the table; for calls 32 and 33 the four tables,
#                coils, discretes, holdings and inputs: of each length (4), cells (8) and the byte that fills it
#                behind its front; the front of each
#   Before the call byte i of the lent response behind its front is (0x5A + i) % 256.
";

pub const COILS: usize = 0;
pub const DISCRETES: usize = 1;
pub const HOLDINGS: usize = 2;
pub const INPUTS: usize = 3;

/// The public fields of a frame, and how many bytes its response has.
#[derive(Clone, Debug, PartialEq)]
pub struct State {
    pub unit_id: u8,
    pub proto: u8,
    pub processing_required: bool,
    pub response_required: bool,
    pub responding_to_fn: u8,
    pub readonly: bool,
    pub frame_start: usize,
    pub func: u8,
    pub reg: u16,
    pub count: u16,
    pub error: Option<u8>,
    pub response_len: usize,
}

/// As `new` makes it.
pub fn fresh(unit_id: u8, proto: u8) -> State {
    State {
        unit_id,
        proto,
        processing_required: false,
        response_required: false,
        responding_to_fn: 0,
        readonly: true,
        frame_start: 0,
        func: 1,
        reg: 0,
        count: 1,
        error: None,
        response_len: 0,
    }
}

impl State {
    pub fn bytes(&self) -> Vec<u8> {
        let flags = [self.processing_required, self.response_required, self.readonly];
        let flags = flags.iter().rev().fold(0, |sum, flag| 2 * sum + u8::from(*flag));
        let mut r = vec![self.unit_id, self.proto, flags, self.responding_to_fn];
        r.extend((self.frame_start as u64).to_be_bytes());
        r.push(self.func);
        r.extend(self.reg.to_be_bytes());
        r.extend(self.count.to_be_bytes());
        r.extend([u8::from(self.error.is_some()), self.error.unwrap_or(0)]);
        r.extend((self.response_len as u64).to_be_bytes());
        r
    }
}

/// A lent table: `front`, then `filler` up to its length, and the cells it is said to have.
#[derive(Clone, Debug, Default)]
pub struct Lent {
    pub front: Vec<u8>,
    pub filler: u8,
    pub len: usize,
    pub cells: usize,
}

impl Lent {
    pub fn bytes(&self) -> Vec<u8> {
        let mut bytes = self.front.clone();
        bytes.resize(self.len, self.filler);
        bytes
    }

    /// The cells that count.
    pub fn cells_there(&self, which: usize) -> usize {
        cells_there(self.cells, self.len, BITS_TABLES[which])
    }
}

#[derive(Clone, Debug)]
pub struct Call {
    pub which: u8,
    pub reported: u8,
    pub state: State,
    pub buf: Vec<u8>,
    pub list: Vec<u8>,
    pub room: usize,
    /// The front of the lent response.
    pub given: Vec<u8>,
    pub tables: [Lent; 4],
}

/// What a call answers and leaves.
#[derive(Clone, Debug, PartialEq)]
pub struct Left {
    pub kind: u8,
    pub state: State,
    pub values: Vec<usize>,
    /// The whole lent slice.
    pub response: Vec<u8>,
    pub tables: [Vec<u8>; 4],
}

/// Byte i of a lent response, where nothing else is said.
pub fn plain(i: usize) -> u8 {
    ((0x5A + i) % 256) as u8
}

impl Call {
    /// Whether the tables are lent to it.
    pub fn serves(&self) -> bool {
        matches!(self.which, PROCESS_READ | PROCESS_WRITE)
    }

    /// The lent response before the call.
    pub fn lent(&self) -> Vec<u8> {
        (0..self.room).map(|i| self.given.get(i).copied().unwrap_or(plain(i))).collect()
    }

    pub fn table_bytes(&self) -> [Vec<u8>; 4] {
        self.tables.each_ref().map(Lent::bytes)
    }

    /// How many bytes of the tables it changed.
    pub fn changed(&self, left: &Left) -> usize {
        let differ = |(old, new): (&Vec<u8>, &Vec<u8>)| old.iter().zip(new).filter(|(a, b)| a != b).count();
        self.table_bytes().iter().zip(&left.tables).map(differ).sum()
    }

    /// All as given.
    pub fn refused(&self, kind: u8) -> Left {
        let (state, response, tables) = (self.state.clone(), self.lent(), self.table_bytes());
        Left { kind, state, values: Vec::new(), response, tables }
    }

    /// What stands from the first to the last byte that a table call changed: table, place, bytes.
    fn change(&self, left: &Left) -> (u8, usize, Vec<u8>) {
        let before = self.table_bytes();
        for which in [COILS, HOLDINGS] {
            let (old, new) = (&before[which], &left.tables[which]);
            let differs = |i: &usize| old[*i] != new[*i];
            if let Some(from) = (0..old.len()).find(differs) {
                let to = (0..old.len()).rfind(differs).unwrap_or(from);
                return (which as u8, from, new[from..=to].to_vec());
            }
        }
        (255, 0, Vec::new())
    }

    pub fn record(&self, left: &Left) -> Vec<u8> {
        let (table, at, changed) = if self.serves() { self.change(left) } else { (255, 0, Vec::new()) };
        let values: Vec<u8> = left.values.iter().flat_map(|v| (*v as u16).to_be_bytes()).collect();
        let mut told = Vec::new();
        let mut parts = vec![&self.buf, &self.list, &self.given, &left.response, &values, &changed];
        if self.serves() {
            for table in &self.tables {
                told.extend((table.len as u32).to_be_bytes());
                told.extend((table.cells as u64).to_be_bytes());
                told.push(table.filler);
            }
        }
        parts.push(&told);
        let none = Vec::new();
        parts.extend(self.tables.iter().map(|t| if self.serves() { &t.front } else { &none }));
        let mut r = vec![self.which, self.reported];
        r.extend(self.state.bytes());
        r.push(left.kind);
        r.extend(left.state.bytes());
        r.push(table);
        r.extend((at as u32).to_be_bytes());
        for part in &parts {
            r.extend(u16::try_from(part.len()).expect("a part too long for a record").to_be_bytes());
        }
        parts.iter().for_each(|part| r.extend(part.iter()));
        r
    }
}
