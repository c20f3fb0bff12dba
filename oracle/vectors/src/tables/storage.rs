//! The crate's storage of the sizes compared, filled from a lent table, asked, and packed into the table again.
use super::record::*;
use crate::bounded::Bounded;
use rmodbus::server::context::ModbusContext;
use rmodbus::server::storage::ModbusStorage;
use rmodbus::{ErrorKind, VectorTrait};

macro_rules! sizes {
    ($($cells:literal)*) => {
        /// The sizes of the tables compared.
        pub const SIZES: &[usize] = &[$($cells),*];

        /// The crate's answer over so many cells; table and response are left as the crate leaves them.
        pub fn ask(cells: usize, call: &Call, table: &mut [u8], response: &mut [u8]) -> Result<usize, ErrorKind> {
            match cells {
                $($cells => ask_of::<$cells>(call, table, response),)*
                _ => unreachable!("no storage of {cells} cells"),
            }
        }
    };
}

sizes!(0 1 2 3 7 8 9 15 16 17 24 25 31 32 33 47 48 49 64 100 125 1000 1999 2000 2001 2008 65535 65536);

#[inline(never)] // else one stack frame holds all the storages
fn ask_of<const N: usize>(call: &Call, table: &mut [u8], response: &mut [u8]) -> Result<usize, ErrorKind> {
    let mut storage = Box::new(ModbusStorage::<N, N, N, N>::new());
    match call.which {
        GET_DISCRETES_AS_U8 => take_bits(&mut storage.discretes, table),
        GET_INPUTS_AS_U8 => take_registers(&mut storage.inputs, table),
        _ if call.of_bits() => take_bits(&mut storage.coils, table),
        _ => take_registers(&mut storage.holdings, table),
    }
    let (reg, small, mut read) = (call.reg, call.small, Bounded::holding(response, call.response.len));
    let got = match call.which {
        GET_COIL => storage.get_coil(reg).map(usize::from),
        SET_COIL => storage.set_coil(reg, small != 0).map(|()| 0),
        GET_COILS_AS_U8 => storage.get_coils_as_u8(reg, small, &mut read).map(|()| read.len()),
        GET_DISCRETES_AS_U8 => storage.get_discretes_as_u8(reg, small, &mut read).map(|()| read.len()),
        SET_COILS_FROM_U8 => storage.set_coils_from_u8(reg, small, &call.input).map(|()| 0),
        GET_HOLDING => storage.get_holding(reg).map(usize::from),
        SET_HOLDING => storage.set_holding(reg, small).map(|()| 0),
        GET_HOLDINGS_AS_U8 => storage.get_holdings_as_u8(reg, small, &mut read).map(|()| read.len()),
        GET_INPUTS_AS_U8 => storage.get_inputs_as_u8(reg, small, &mut read).map(|()| read.len()),
        SET_HOLDINGS_FROM_U8 => storage.set_holdings_from_u8(reg, &call.input).map(|()| 0),
        _ => unreachable!("no such call"),
    };
    match call.which {
        GET_DISCRETES_AS_U8 => give_bits(&storage.discretes, table),
        GET_INPUTS_AS_U8 => give_registers(&storage.inputs, table),
        _ if call.of_bits() => give_bits(&storage.coils, table),
        _ => give_registers(&storage.holdings, table),
    }
    got
}

pub fn take_bits(cells: &mut [bool], table: &[u8]) {
    for (n, cell) in cells.iter_mut().enumerate() {
        *cell = table[n / 8] >> (n % 8) & 1 == 1;
    }
}

pub fn give_bits(cells: &[bool], table: &mut [u8]) {
    for (n, cell) in cells.iter().enumerate() {
        let bit = 1 << (n % 8);
        if *cell {
            table[n / 8] |= bit;
        } else {
            table[n / 8] &= !bit;
        }
    }
}

pub fn take_registers(cells: &mut [u16], table: &[u8]) {
    for (cell, bytes) in cells.iter_mut().zip(table.chunks_exact(2)) {
        *cell = u16::from_be_bytes([bytes[0], bytes[1]]);
    }
}

pub fn give_registers(cells: &[u16], table: &mut [u8]) {
    for (cell, bytes) in cells.iter().zip(table.chunks_exact_mut(2)) {
        bytes.copy_from_slice(&cell.to_be_bytes());
    }
}
