//! Module 6 over the crate's own storage: what is left is what it leaves over document 01's tables, but in four known
//! ways, none of them inside the domain (counts of 1 or more, byte counts that match, room for all).
use super::ask::{ask, number};
use super::foreseen::Site;
use super::record::*;
use super::shape::table_of;
use crate::answer::in_the_crate;
use crate::bounded::Bounded;
use crate::tables::record::{bytes_of, BITS_TABLES};
use crate::tables::storage::{give_bits, give_registers, take_bits, take_registers};
use rmodbus::server::storage::ModbusStorage;
use rmodbus::ErrorKind;

pub const WAYS: [&str; 4] = [
    "process_write of function 15, too many bytes",
    "process_write of function 15, too few bytes",
    "process_write of function 16, an odd byte count",
    "process_read without room for its data",
];

type Got = Option<(Result<Vec<usize>, ErrorKind>, State)>;

macro_rules! sizes {
    ($($cells:literal)*) => {
        /// The crate's answer over a storage of so many cells, if that is one of the sizes compared.
        fn over(cells: usize, call: &Call, table: &mut [u8], response: &mut Bounded<'_>) -> Option<Got> {
            match cells {
                $($cells => Some(over_of::<$cells>(call, table, response)),)*
                _ => None,
            }
        }
    };
}

sizes!(0 1 2 3 4 5 6 7 8 9 10 15 16 17 24 25 40 128 2048 65535 65536);

#[inline(never)] // else one stack frame holds all the storages
fn over_of<const N: usize>(call: &Call, table: &mut [u8], response: &mut Bounded<'_>) -> Got {
    let mut storage = Box::new(ModbusStorage::<N, N, N, N>::new());
    let which = table_of(call.state.func);
    match which {
        COILS => take_bits(&mut storage.coils, table),
        DISCRETES => take_bits(&mut storage.discretes, table),
        HOLDINGS => take_registers(&mut storage.holdings, table),
        _ => take_registers(&mut storage.inputs, table),
    }
    let got = in_the_crate(|| ask(call, response, &mut *storage));
    match which {
        COILS => give_bits(&storage.coils, table),
        DISCRETES => give_bits(&storage.discretes, table),
        HOLDINGS => give_registers(&storage.holdings, table),
        _ => give_registers(&storage.inputs, table),
    }
    got
}

/// Whether the call was compared, and the known way in which the crate's storage leaves something else than `left`.
pub fn compare(call: &Call, left: &Left, site: Option<Site>) -> Result<(bool, Option<&'static str>), String> {
    let held = call.state.response_len;
    if !call.serves() || held > call.room {
        return Ok((false, None));
    }
    let which = table_of(call.state.func);
    let (cells, mut table) = (call.tables[which].cells_there(which), call.tables[which].bytes());
    let mut lent = call.lent();
    let mut bounded = Bounded::holding(&mut lent, held);
    let Some(got) = over(cells, call, &mut table, &mut bounded) else { return Ok((false, None)) };
    let lacked = bounded.lacked;
    let same = match (&got, site) {
        (None, Some(_)) => true,
        (Some((got, state)), None) => {
            let kind = got.as_ref().map_or_else(|kind| number(*kind).unwrap_or(255), |_| 0);
            kind == left.kind && *state == left.state && lent == left.response && table == left.tables[which]
        }
        _ => false,
    };
    match (same, way(call, lacked)) {
        (true, _) => Ok((true, None)),
        (false, Some(way)) => Ok((true, Some(way))),
        (false, None) => Err("over its own storage the crate leaves something else".into()),
    }
}

/// The way in which it may differ.
fn way(call: &Call, lacked: bool) -> Option<&'static str> {
    let s = &call.state;
    if call.which == PROCESS_READ {
        return lacked.then_some(WAYS[3]);
    }
    let there = usize::from(*s.frame_start.checked_add(6).and_then(|at| call.buf.get(at))?);
    let right = bytes_of(s.count.into(), BITS_TABLES[COILS]);
    match s.func {
        15 if there > right => Some(WAYS[0]),
        15 if there < right => Some(WAYS[1]),
        16 if there % 2 == 1 => Some(WAYS[2]),
        _ => None,
    }
}
