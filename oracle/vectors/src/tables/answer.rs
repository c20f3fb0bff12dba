//! The answer expected of a call: the crate's own wherever document 01 refuses nothing, else document 01's refusal.
//! What the crate does there must be the same, or one of the differences that follow from document 01.
use super::record::*;
use super::storage;
use crate::answer::{in_the_crate, OOB, OOB_CONTEXT};
use crate::bounded::Bounded;
use rmodbus::{ErrorKind, VectorTrait};

pub const PART_READ: &str = "part of a read pushed";
pub const ODD_BYTES: &str = "odd number of bytes";
pub const FEW_BYTES: &str = "too few coil bytes";
pub const MANY_BYTES: &str = "too many coil bytes";

/// Every difference, each to come up in a stream.
pub const DIFFERENCES: [&str; 4] = [PART_READ, ODD_BYTES, FEW_BYTES, MANY_BYTES];

const NOT_ALIKE: &str = "the crate's answer is neither document 01's nor a known difference";

/// What the crate answers and leaves.
struct Left {
    got: Result<usize, ErrorKind>,
    table: Vec<u8>,
    response: Vec<u8>,
}

pub fn answer(call: &Call) -> Result<Answer, String> {
    if call.response.len > call.response.room {
        return Ok(refused(call, OOB, None)); // no state of the crate
    }
    if call.which <= CLEAR {
        of_response(call)
    } else {
        of_table(call)
    }
}

fn refused(call: &Call, kind: u8, difference: Option<&'static str>) -> Answer {
    Answer { kind, value: 0, response: call.lent(), table: call.table.clone(), difference }
}

/// A Vec's answer where that has room; our bounded response must give the same, and OOB where it has none.
fn of_response(call: &Call) -> Result<Answer, String> {
    let Response { room, len } = call.response;
    let new_len = match call.which {
        PUSH => len + 1,
        EXTEND => len + call.input.len(),
        RESIZE => call.size,
        _ => 0, // never more than before
    };
    let mut response = call.lent();
    let bounded = act(call, &mut Bounded::holding(&mut response, len));
    if new_len > room {
        if bounded != Err(ErrorKind::OOB) || response != call.lent() {
            return Err("the bounded response takes what has no room".into());
        }
        return Ok(refused(call, OOB, None));
    }
    let mut vec = call.lent()[..len].to_vec();
    let value = in_the_crate(|| act(call, &mut vec)).ok_or("a Vec panics")?.map_err(|e| format!("a Vec says {e:?}"))?;
    let mut expected = call.lent();
    expected[..value].copy_from_slice(&vec);
    if bounded != Ok(value) || response != expected {
        return Err("a Vec holds something else than the bounded response".into());
    }
    Ok(Answer { kind: 0, value, response: expected, table: Vec::new(), difference: None })
}

fn act<V: VectorTrait<u8>>(call: &Call, response: &mut V) -> Result<usize, ErrorKind> {
    let value = call.small as u8;
    match call.which {
        PUSH => response.push(value)?,
        EXTEND => response.extend(&call.input)?,
        RESIZE => response.resize(call.size, value)?,
        CUT_END => response.cut_end(call.size, value),
        _ => response.clear(),
    }
    Ok(response.len())
}

fn of_table(call: &Call) -> Result<Answer, String> {
    let left = ask(call, call.response.room)?;
    match (refusal(call), left.got) {
        (None, Ok(value)) => {
            Ok(Answer { kind: 0, value, response: left.response, table: left.table, difference: None })
        }
        (None, Err(kind)) => Err(format!("the crate says {kind:?} where document 01 refuses nothing")),
        (Some(kind), got) => {
            let number = match got {
                Err(ErrorKind::OOB) => OOB,
                Err(ErrorKind::OOBContext) => OOB_CONTEXT,
                _ => 0,
            };
            let same = number == kind && left.table == call.table && left.response == call.lent();
            let difference = if same { None } else { Some(difference(call, &left)?) };
            Ok(refused(call, kind, difference))
        }
    }
}

fn ask(call: &Call, room: usize) -> Result<Left, String> {
    let call = Call { response: Response { room, ..call.response }, ..call.clone() };
    let (mut table, mut response) = (call.table.clone(), call.lent());
    let got = in_the_crate(|| storage::ask(cells(&call), &call, &mut table, &mut response));
    Ok(Left { got: got.ok_or("the crate panics where document 01 foresees none")?, table, response })
}

fn cells(call: &Call) -> usize {
    cells_there(call.size, call.table.len(), call.of_bits())
}

/// How many cells the call names, and how many bytes carry them.
fn extent(call: &Call) -> (usize, usize) {
    let cells = match call.which {
        GET_COIL | SET_COIL | GET_HOLDING | SET_HOLDING => 1,
        SET_HOLDINGS_FROM_U8 => call.input.len() / 2,
        _ => call.small.into(),
    };
    (cells, bytes_of(cells, call.of_bits()))
}

fn inside(call: &Call) -> bool {
    usize::from(call.reg) + extent(call).0 <= cells(call)
}

/// Document 01's refusal, in its order: the range or data that does not match, then the room.
fn refusal(call: &Call) -> Option<u8> {
    let bytes = extent(call).1;
    let matches = !matches!(call.which, SET_COILS_FROM_U8 | SET_HOLDINGS_FROM_U8) || call.input.len() == bytes;
    if !inside(call) || !matches {
        Some(OOB_CONTEXT)
    } else if call.reads() && call.response.len + bytes > call.response.room {
        Some(OOB)
    } else {
        None
    }
}

/// Which of document 01's differences it is that the crate did not leave all as given, and that it is no other.
fn difference(call: &Call, left: &Left) -> Result<&'static str, String> {
    let (_, bytes) = extent(call);
    let given = call.input.len();
    // what the crate does with only so many bytes of the data
    let with = |bytes: usize, count: u16| {
        ask(&Call { small: count, input: call.input[..bytes].to_vec(), ..call.clone() }, call.response.room)
    };
    let (name, got, done) = match call.which {
        _ if !inside(call) => return Err(NOT_ALIKE.into()),
        SET_HOLDINGS_FROM_U8 => (ODD_BYTES, Err(ErrorKind::OOB), with(given - 1, 0)?),
        SET_COILS_FROM_U8 if given < bytes => (FEW_BYTES, Err(ErrorKind::OOB), with(given, 8 * given as u16)?),
        SET_COILS_FROM_U8 => (MANY_BYTES, Ok(0), with(bytes, call.small)?),
        _ => {
            let mut whole = ask(call, call.response.len + bytes)?; // what fits of the whole read
            whole.response.truncate(call.response.room);
            (PART_READ, Err(ErrorKind::OOB), whole)
        }
    };
    if done.got.is_ok() && left.got == got && left.table == done.table && left.response == done.response {
        Ok(name)
    } else {
        Err(NOT_ALIKE.into())
    }
}
