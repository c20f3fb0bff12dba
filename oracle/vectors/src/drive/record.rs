//! A call of the driver, the answer expected, and the record that holds both: the driven of tests/record.h, whose lists
//! have its numbers by name, in this order, high byte first. Under the switch 1 the crate was given the text in capitals.
//! Before the call byte i of the lent reply buffer is (0x5A + i) % 256.
use crate::record::{raised, ASCII, LENIENT, STRICT};
use crate::tables::record::Table;

pub const COILS: usize = 0;
pub const DISCRETES: usize = 1;
pub const HOLDINGS: usize = 2;
pub const INPUTS: usize = 3;

#[derive(Clone)]
pub struct Call {
    pub transport: u8,
    pub unit: u8,
    pub hex: u8,
    pub list: Vec<u8>,
    pub tables: [Table; 4],
    pub room: usize,
    pub frame: Vec<u8>,
}

/// The cells that a result names: the table by the function that reads it, the first, how many. None is all zeros.
pub type Cells = (u8, u16, u16);

pub const NO_CELLS: Cells = (0, 0, 0);

/// What a call answers and leaves. Discretes and inputs are never written.
#[derive(Clone, PartialEq)]
pub struct Left {
    pub reply: Vec<u8>,
    pub coils: Vec<u8>,
    pub holdings: Vec<u8>,
}

pub struct Answer {
    pub outcome: u8,
    pub code: u8,
    pub named: Cells,
    pub left: Left,
    /// The way in which the crate differs, if it does, and what it leaves.
    pub difference: Option<(&'static str, Left)>,
    /// The way in which its `changes` differs, if it does, and what that names.
    pub renamed: Option<(&'static str, Cells)>,
}

impl Call {
    /// Tables as lent and no reply.
    pub fn untouched(&self) -> Left {
        let bytes = |table: usize| self.tables[table].bytes.clone();
        Left { reply: Vec::new(), coils: bytes(COILS), holdings: bytes(HOLDINGS) }
    }

    /// What the crate, which is strict, is given in place of a lenient call.
    pub fn in_capitals(&self) -> Call {
        let mut call = Call { hex: STRICT, ..self.clone() };
        if (self.transport, self.hex) == (ASCII, LENIENT) {
            call.frame.iter_mut().for_each(|c| *c = raised(*c));
        }
        call
    }

    pub fn record(&self, answer: &Answer) -> Vec<u8> {
        let two = |n: usize| u16::try_from(n).expect("a length too large for a record").to_be_bytes();
        let (left, lent) = (&answer.left, &self.tables);
        let coils = left.coils != lent[COILS].bytes;
        let holdings = left.holdings != lent[HOLDINGS].bytes;
        let mut r = vec![self.transport, self.unit, self.hex];
        let (table, first, count) = answer.named;
        r.extend([answer.outcome, answer.code, table]);
        r.extend([first, count].map(u16::to_be_bytes).concat());
        let changing = u8::from(coils) + 2 * u8::from(holdings);
        r.extend([u8::from(answer.difference.is_some()), changing, self.list.len() as u8]);
        r.extend([self.frame.len(), self.room, left.reply.len()].map(two).concat());
        for table in lent {
            r.extend((table.cells as u32).to_be_bytes());
            r.extend((table.bytes.len() as u32).to_be_bytes());
        }
        r.extend(&self.list);
        r.extend(&self.frame);
        for table in lent {
            r.extend(&table.bytes);
        }
        r.extend(&left.reply);
        if coils {
            r.extend(&left.coils);
        }
        if holdings {
            r.extend(&left.holdings);
        }
        r
    }
}

impl std::fmt::Display for Call {
    fn fmt(&self, f: &mut std::fmt::Formatter<'_>) -> std::fmt::Result {
        let cells = self.tables.clone().map(|t| t.cells);
        write!(f, "transport {} unit {} switch {} ", self.transport, self.unit, self.hex)?;
        write!(f, "list {:?} cells {cells:?} ", self.list)?;
        write!(f, "room {} frame {:02X?}", self.room, self.frame)
    }
}
