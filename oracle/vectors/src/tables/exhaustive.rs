//! Whole families of short calls, each without a gap.
use super::edges::{even, table};
use super::record::*;
use crate::chance::Chance;

pub fn exhaustive(seed: u64, put: &mut dyn FnMut(Call)) {
    let chance = &mut Chance(seed);
    responses(chance, put);
    start_bits(chance, put);
    small_tables(chance, put);
    values(put);
}

/// Every room and len up to 10, with every argument up to 12.
fn responses(chance: &mut Chance, put: &mut dyn FnMut(Call)) {
    for room in 0..=10 {
        for len in 0..=room + 2 {
            let response = Response { room, len };
            put(clear(response));
            put(push(response, chance.byte()));
            for n in 0..=12 {
                put(extend(response, &chance.bytes(n)));
                put(resize(response, n, chance.byte()));
                put(cut_end(response, n));
            }
        }
    }
}

/// Every start bit of the first, second and last byte with 0 to 40 coils, among ones, zeros and anything, where what is
/// written is ones, zeros and anything; the reads with just the room and with one more.
fn start_bits(chance: &mut Chance, put: &mut dyn FnMut(Call)) {
    for start in (0..16).chain(60..68) {
        for count in 0..=40 {
            let bytes = bytes_of(count.into(), true);
            let mut tables = vec![even(100, true, 1, 0xFF), even(100, true, 1, 0)];
            tables.extend((0..4).map(|_| table(100, true, 1, chance)));
            for table in &tables {
                for values in [vec![0xFF; bytes], vec![0; bytes], chance.bytes(bytes), chance.bytes(bytes)] {
                    put(set_coils(table, start, count, &values));
                }
                for which in BIT_READS {
                    put(read(which, table, start, count, Response { room: bytes, len: 0 }));
                    put(read(which, table, start, count, Response { room: bytes + 3, len: 2 }));
                }
            }
        }
    }
}

/// Every register and count in and around small tables, with every number of spare bytes up to 2.
fn small_tables(chance: &mut Chance, put: &mut dyn FnMut(Call)) {
    for cells in [0, 1, 2, 3, 7, 8, 9, 15, 16, 17] {
        for more in 0..=2 {
            let (bits, registers) = (table(cells, true, more, chance), table(cells, false, more, chance));
            for reg in 0..=cells as u16 + 2 {
                put(get_coil(&bits, reg));
                put(set_coil(&bits, reg, true));
                put(set_coil(&bits, reg, false));
                put(get_holding(&registers, reg));
                put(set_holding(&registers, reg, chance.word()));
                for count in 0..=cells as u16 + 2 {
                    for which in BIT_READS {
                        put(read(which, &bits, reg, count, Response { room: 8, len: 5 }));
                    }
                    for which in REGISTER_READS {
                        put(read(which, &registers, reg, count, Response { room: 24, len: 4 }));
                    }
                    for n in 0..=bytes_of(count.into(), true) + 1 {
                        put(set_coils(&bits, reg, count, &chance.bytes(n)));
                    }
                    put(set_holdings(&registers, reg, &chance.bytes(2 * usize::from(count))));
                    put(set_holdings(&registers, reg, &chance.bytes(2 * usize::from(count) + 1)));
                }
            }
        }
    }
}

/// Every byte that a table and a call can hold, at every bit.
fn values(put: &mut dyn FnMut(Call)) {
    for byte in 0..=255 {
        let (bits, registers) = (even(24, true, 0, byte), even(3, false, 0, byte));
        for reg in 8..16 {
            put(get_coil(&bits, reg));
            put(set_coil(&bits, reg, false));
            put(set_coil(&bits, reg, true));
        }
        for value in [byte.into(), u16::from(byte) << 8, 0xFF00 | u16::from(byte), u16::from(byte) << 8 | 0xFF] {
            let [high, low] = u16::to_be_bytes(value);
            let table = Table { bytes: vec![0x11, 0x22, high, low, 0x33, 0x44], cells: 3 };
            put(get_holding(&table, 1));
            put(set_holding(&registers, 1, value));
            put(set_holdings(&registers, 1, &[high, low]));
            put(read(GET_HOLDINGS_AS_U8, &table, 1, 1, Response { room: 3, len: 1 }));
            put(read(GET_INPUTS_AS_U8, &table, 1, 1, Response { room: 3, len: 1 }));
        }
        for reg in [0, 5, 8, 13] {
            put(set_coils(&even(24, true, 0, 0xFF), reg, 8, &[byte]));
            put(set_coils(&even(24, true, 0, 0), reg, 5, &[byte]));
            put(read(GET_COILS_AS_U8, &bits, reg, 7, Response { room: 1, len: 0 }));
        }
    }
}
