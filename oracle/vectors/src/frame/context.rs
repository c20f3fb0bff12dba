//! The four lent tables behind the crate's own trait, by document 01's rules: what is outside a table, or data that
//! does not match its count, is OOBContext and changes nothing; a read adds its data as one extend.
use super::record::*;
use crate::drive::model::{bit, put_bit};
use crate::tables::record::{bytes_of, BITS_TABLES};
use rmodbus::server::context::ModbusContext;
use rmodbus::{ErrorKind, VectorTrait};

pub struct Tables {
    pub bytes: [Vec<u8>; 4],
    cells: [usize; 4],
}

impl Tables {
    pub fn of(call: &Call) -> Self {
        let cells = [COILS, DISCRETES, HOLDINGS, INPUTS].map(|t| call.tables[t].cells_there(t));
        Tables { bytes: call.table_bytes(), cells }
    }

    fn inside(&self, which: usize, reg: u16, count: usize) -> Result<usize, ErrorKind> {
        let reg = usize::from(reg);
        if reg + count > self.cells[which] {
            return Err(ErrorKind::OOBContext);
        }
        Ok(reg)
    }

    fn read<V: VectorTrait<u8>>(&self, which: usize, reg: u16, count: u16, out: &mut V) -> Result<(), ErrorKind> {
        let count = usize::from(count);
        let (reg, table) = (self.inside(which, reg, count)?, &self.bytes[which]);
        let mut data = vec![0; bytes_of(count, BITS_TABLES[which])];
        if BITS_TABLES[which] {
            (0..count).for_each(|i| put_bit(&mut data, i, bit(table, reg + i)));
        } else {
            data.copy_from_slice(&table[2 * reg..][..2 * count]);
        }
        out.extend(&data)
    }

    fn write(&mut self, which: usize, reg: u16, count: usize, values: &[u8]) -> Result<(), ErrorKind> {
        let reg = self.inside(which, reg, count)?;
        if values.len() != bytes_of(count, BITS_TABLES[which]) {
            return Err(ErrorKind::OOBContext);
        }
        let table = &mut self.bytes[which];
        if BITS_TABLES[which] {
            (0..count).for_each(|i| put_bit(table, reg + i, bit(values, i)));
        } else {
            table[2 * reg..][..2 * count].copy_from_slice(values);
        }
        Ok(())
    }
}

/// The trait's methods that a frame never calls.
macro_rules! never {
    ($($name:ident $(<$v:ident: $of:ty>)? ($($arg:ty),*) -> $out:ty;)*) => {
        $(fn $name $(<$v: VectorTrait<$of>>)? (&self, $(_: $arg),*) -> Result<$out, ErrorKind> {
            unreachable!("a frame calls no {}", stringify!($name))
        })*
    };
}
macro_rules! never_mut {
    ($($name:ident($($arg:ty),*);)*) => {
        $(fn $name(&mut self, $(_: $arg),*) -> Result<(), ErrorKind> {
            unreachable!("a frame calls no {}", stringify!($name))
        })*
    };
}

impl ModbusContext for Tables {
    fn get_coils_as_u8<V: VectorTrait<u8>>(&self, reg: u16, count: u16, out: &mut V) -> Result<(), ErrorKind> {
        self.read(COILS, reg, count, out)
    }
    fn get_discretes_as_u8<V: VectorTrait<u8>>(&self, reg: u16, count: u16, out: &mut V) -> Result<(), ErrorKind> {
        self.read(DISCRETES, reg, count, out)
    }
    fn get_holdings_as_u8<V: VectorTrait<u8>>(&self, reg: u16, count: u16, out: &mut V) -> Result<(), ErrorKind> {
        self.read(HOLDINGS, reg, count, out)
    }
    fn get_inputs_as_u8<V: VectorTrait<u8>>(&self, reg: u16, count: u16, out: &mut V) -> Result<(), ErrorKind> {
        self.read(INPUTS, reg, count, out)
    }
    fn set_coil(&mut self, reg: u16, value: bool) -> Result<(), ErrorKind> {
        self.write(COILS, reg, 1, &[value.into()])
    }
    fn set_holding(&mut self, reg: u16, value: u16) -> Result<(), ErrorKind> {
        self.write(HOLDINGS, reg, 1, &value.to_be_bytes())
    }
    fn set_coils_from_u8(&mut self, reg: u16, count: u16, values: &[u8]) -> Result<(), ErrorKind> {
        self.write(COILS, reg, count.into(), values)
    }
    fn set_holdings_from_u8(&mut self, reg: u16, values: &[u8]) -> Result<(), ErrorKind> {
        self.write(HOLDINGS, reg, values.len() / 2, values)
    }

    never! {
        get_coils_as_u8_bytes<V: u8>(u16, u16, &mut V) -> ();
        get_discretes_as_u8_bytes<V: u8>(u16, u16, &mut V) -> ();
        get_coils_bulk<V: bool>(u16, u16, &mut V) -> ();
        get_discretes_bulk<V: bool>(u16, u16, &mut V) -> ();
        get_inputs_bulk<V: u16>(u16, u16, &mut V) -> ();
        get_holdings_bulk<V: u16>(u16, u16, &mut V) -> ();
        get_coil(u16) -> bool;
        get_discrete(u16) -> bool;
        get_input(u16) -> u16;
        get_holding(u16) -> u16;
        get_inputs_as_u32(u16) -> u32;
        get_holdings_as_u32(u16) -> u32;
        get_inputs_as_u64(u16) -> u64;
        get_holdings_as_u64(u16) -> u64;
        get_inputs_as_f32(u16) -> f32;
        get_holdings_as_f32(u16) -> f32;
    }
    never_mut! {
        set_inputs_from_u8(u16, &[u8]);
        set_discretes_from_u8(u16, u16, &[u8]);
        set_coils_from_u8_bytes(u16, &[u8]);
        set_discretes_from_u8_bytes(u16, &[u8]);
        set_coils_bulk(u16, &[bool]);
        set_discretes_bulk(u16, &[bool]);
        set_inputs_bulk(u16, &[u16]);
        set_holdings_bulk(u16, &[u16]);
        set_discrete(u16, bool);
        set_input(u16, u16);
        set_inputs_from_u32(u16, u32);
        set_holdings_from_u32(u16, u32);
        set_inputs_from_u64(u16, u64);
        set_holdings_from_u64(u16, u64);
        set_inputs_from_f32(u16, f32);
        set_holdings_from_f32(u16, f32);
    }
}
