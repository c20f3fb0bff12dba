//! A call of the asking side, the answer expected, and the record that holds both. Numbers stand high byte first:
//!
//!     byte 0       0: a read is built, 1: a write is built, 2: a reply is read
//!     byte 1       transport
//!     bytes 2-3    transaction
//!     bytes 4-5    unit, function
//!     bytes 6-7    the first cell
//!     bytes 8-9    cells of a read, values of a write, room for the values of a reply
//!     byte 10      0: the answer is the crate's, 1: it is document 02's, and the crate's differs
//!     bytes 11-12  kind or outcome, and code expected
//!     bytes 13-14  the length of the frame, or the number of values, expected
//!     bytes 15-16  the length of the lent request buffer, or of the request that was sent
//!     bytes 17-18  the length of the reply
//!     then the values to be written (two bytes each), the frame expected or that was sent, the reply, and the values
//!     expected (two bytes each).
//!     Before the call byte i of the lent request buffer is (0x5A + i) % 256, and value i (0x5A5A + i) % 65536.
use std::fmt;

pub const BAD_REQUEST: u8 = 11;
pub const NOT_MY_REPLY: u8 = 12;

#[derive(Clone, Copy)]
pub struct To {
    pub tr_id: u16,
    pub unit: u8,
    pub proto: u8,
}

/// Functions 1 to 4 have a count, the others values.
#[derive(Clone)]
pub struct Ask {
    pub func: u8,
    pub reg: u16,
    pub count: u16,
    pub values: Vec<u16>,
}

impl Ask {
    pub fn cells(&self) -> usize {
        if self.func <= 4 {
            self.count.into()
        } else {
            self.values.len()
        }
    }
}

/// With a reply it is read, into room for all values and `more`; without, the request is built, into `more` bytes more than
/// it needs.
#[derive(Clone)]
pub struct Call {
    pub to: To,
    pub ask: Ask,
    pub reply: Option<Vec<u8>>,
    pub more: usize,
}

#[derive(Default)]
pub struct Answer {
    pub kind: u8,
    pub code: u8,
    pub frame: Vec<u8>,
    pub values: Vec<u16>,
    /// The way in which the crate differs, and what it says.
    pub difference: Option<(&'static str, String)>,
}

impl Call {
    pub fn record(&self, answer: &Answer) -> Vec<u8> {
        let two = |n: usize| u16::try_from(n).expect("a length too large for a record").to_be_bytes();
        let words = |values: &[u16]| values.iter().flat_map(|v| v.to_be_bytes()).collect::<Vec<u8>>();
        let Call { to, ask, reply, more } = self;
        let reads = ask.func <= 4;
        let shown = if reply.is_some() && reads { ask.cells() } else { 0 };
        let mut r = vec![if reply.is_some() { 2 } else { u8::from(!reads) }, to.proto];
        r.extend(to.tr_id.to_be_bytes());
        r.extend([to.unit, ask.func]);
        r.extend(ask.reg.to_be_bytes());
        r.extend(two(if reply.is_some() { shown + more } else { ask.cells() }));
        r.extend([u8::from(answer.difference.is_some()), answer.kind, answer.code]);
        r.extend(two(if reply.is_some() { answer.values.len() } else { answer.frame.len() }));
        r.extend(two(answer.frame.len() + if reply.is_some() { 0 } else { *more }));
        r.extend(two(reply.as_ref().map_or(0, Vec::len)));
        r.extend(if reply.is_some() { Vec::new() } else { words(&ask.values) });
        r.extend(&answer.frame);
        r.extend(reply.iter().flatten());
        r.extend(words(&answer.values));
        r
    }
}

impl fmt::Display for Call {
    fn fmt(&self, f: &mut fmt::Formatter<'_>) -> fmt::Result {
        let Ask { func, reg, .. } = self.ask;
        write!(f, "transport {}, function {func}, first {reg}, {} cells", self.to.proto, self.ask.cells())?;
        if func > 4 && self.ask.values.len() <= 2 {
            write!(f, " {:X?}", self.ask.values)?;
        }
        match &self.reply {
            Some(reply) if self.to.proto == 1 => write!(f, ", reply {}", reply.escape_ascii()),
            Some(reply) => {
                write!(f, ", reply {}", reply.iter().take(24).map(|b| format!("{b:02X}")).collect::<String>())
            }
            None => Ok(()),
        }
    }
}
