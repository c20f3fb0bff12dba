//! Both sides of every number in document 01's module 4, and every kind of answer of each call. Every stream begins
//! with these; the largest tables stand last.
use super::record::*;
use crate::chance::Chance;

const ENOUGH: Response = Response { room: 300, len: 3 };

/// Counts around eights and document 01's largest.
const COUNTS: [u16; 18] = [0, 1, 2, 7, 8, 9, 15, 16, 17, 99, 100, 101, 123, 125, 1968, 1999, 2000, 2001];

pub fn edges(put: &mut dyn FnMut(Call)) {
    let chance = &mut Chance(4);
    responses(chance, put);
    case_f(put);
    for cells in [0, 1, 2, 7, 8, 9, 16, 17, 100, 2000, 2001] {
        single_cells(cells, chance, put);
        ranges(cells, &COUNTS, chance, put);
    }
    bad_setups(chance, put);
    rooms(chance, put);
    byte_counts(chance, put);
    for cells in [MOST - 1, MOST] {
        single_cells(cells, chance, put);
        ranges(cells, &[0, 1, 8, 2001, 65528, 65529, 65535], chance, put);
    }
    whole_tables(chance, put);
}

/// A table of random content, with so many bytes more than its cells take.
pub fn table(cells: usize, bits: bool, more: usize, chance: &mut Chance) -> Table {
    Table { bytes: chance.bytes(bytes_of(cells, bits) + more), cells }
}

/// A table whose every byte is the same.
pub fn even(cells: usize, bits: bool, more: usize, byte: u8) -> Table {
    Table { bytes: vec![byte; bytes_of(cells, bits) + more], cells }
}

/// One below, the number itself and one above, where there is one.
fn around(number: usize) -> impl Iterator<Item = usize> {
    [number.checked_sub(1), Some(number), number.checked_add(1)].into_iter().flatten()
}

/// len around the room and up to the largest usize, and each argument around both.
fn responses(chance: &mut Chance, put: &mut dyn FnMut(Call)) {
    let far = [65535, 65536, 1 << 32, 1 << 63, usize::MAX - 1, usize::MAX];
    for room in [0, 1, 2, 8, 255, 256, 260] {
        for len in around(room).chain([0, room / 2]).chain(far) {
            let response = Response { room, len };
            put(clear(response));
            for value in [0, 1, 255] {
                put(push(response, value));
            }
            let left = room.saturating_sub(len);
            for n in around(left).chain([0, 1]).chain(wraps(len, room)) {
                put(extend(response, &chance.bytes(n)));
            }
            for n in around(room).chain(around(len)).chain([0, 1]).chain(far) {
                put(resize(response, n, chance.byte()));
                put(cut_end(response, n));
            }
        }
    }
}

/// What brings a len close to the largest usize around to 0, 1 and the room.
fn wraps(len: usize, room: usize) -> Vec<usize> {
    match len.wrapping_neg() {
        to_zero @ 1..=2 => vec![to_zero, to_zero + 1, to_zero + room],
        _ => Vec::new(),
    }
}

/// Document 01's case f, written and read again, beside all ones and all zeros.
fn case_f(put: &mut dyn FnMut(Call)) {
    for bytes in [[0x00, 0x00], [0xFF, 0xFF], [0x68, 0x0E], [0x6F, 0xEE]] {
        let table = Table { bytes: bytes.to_vec(), cells: 16 };
        put(set_coils(&table, 3, 10, &[0xCD, 0x01]));
        put(set_coils(&table, 3, 10, &[0xCD, 0xFD])); // pad bits may be anything
        for which in BIT_READS {
            put(read(which, &table, 3, 10, ENOUGH));
        }
    }
}

/// One cell around each end of the table and of its bytes, among ones, zeros and anything.
fn single_cells(cells: usize, chance: &mut Chance, put: &mut dyn FnMut(Call)) {
    for more in [0, 2] {
        let bits = [even(cells, true, more, 0xFF), even(cells, true, more, 0), table(cells, true, more, chance)];
        let registers = [even(cells, false, more, 0xFF), table(cells, false, more, chance)];
        for reg in around(cells).chain([0, 1, 2, 7, 8, 9, 65535]) {
            let Ok(reg) = u16::try_from(reg) else { continue };
            for table in &bits {
                put(get_coil(table, reg));
                put(set_coil(table, reg, false));
                put(set_coil(table, reg, true));
            }
            for table in &registers {
                put(get_holding(table, reg));
                put(set_holding(table, reg, 0x1234));
            }
        }
    }
}

/// Ranges that end one before, at and one after the end of the table, and beyond 65,535.
fn ranges(cells: usize, counts: &[u16], chance: &mut Chance, put: &mut dyn FnMut(Call)) {
    let own = around(cells).filter_map(|n| u16::try_from(n).ok());
    let (bits, registers) = (table(cells, true, 2, chance), table(cells, false, 2, chance));
    for count in own.chain(counts.iter().copied()) {
        let ends = around(cells).filter_map(|end| end.checked_sub(count.into()));
        for reg in ends.chain([0, 65535]) {
            let Ok(reg) = u16::try_from(reg) else { continue };
            let response = |bits| Response { room: 5 + bytes_of(count.into(), bits), len: 4 };
            for which in BIT_READS {
                put(read(which, &bits, reg, count, response(true)));
            }
            put(set_coils(&bits, reg, count, &chance.bytes(bytes_of(count.into(), true))));
            for which in REGISTER_READS {
                put(read(which, &registers, reg, count, response(false)));
            }
            put(set_holdings(&registers, reg, &chance.bytes(bytes_of(count.into(), false))));
        }
    }
}

/// A byte too few, or cells above 65,536 up to the largest usize: a table of 0 cells, with only nothing at 0 inside.
fn bad_setups(chance: &mut Chance, put: &mut dyn FnMut(Call)) {
    for cells in [1, 7, 8, 9, 16, 100, 2000] {
        for bits in [true, false] {
            let mut table = table(cells, bits, 0, chance);
            table.bytes.pop();
            every_call(&table, bits, chance, put);
            table.bytes.clear();
            every_call(&table, bits, chance, put);
        }
    }
    // the first have all their bytes; in 16 bits, or doubled or rounded in 64, the others would be few
    for cells in [MOST + 1, MOST + 8, 2 * MOST, 2 * MOST + 1] {
        every_call(&table(cells, true, 0, chance), true, chance, put);
    }
    every_call(&table(MOST + 1, false, 0, chance), false, chance, put);
    let far = [1 << 32, (1 << 32) + 8, 1 << 63, (1 << 63) + 1, usize::MAX - 7, usize::MAX - 6, usize::MAX];
    for cells in far {
        for bits in [true, false] {
            let table = Table { bytes: chance.bytes(20), cells };
            every_call(&table, bits, chance, put);
        }
    }
}

/// Each call at 0 with nothing, one cell and eight, and nothing at 1.
fn every_call(table: &Table, bits: bool, chance: &mut Chance, put: &mut dyn FnMut(Call)) {
    for (reg, count) in [(0, 0), (0, 1), (0, 8), (1, 0), (1, 1)] {
        let values = chance.bytes(bytes_of(count.into(), bits));
        if bits {
            put(set_coils(table, reg, count, &values));
        } else {
            put(set_holdings(table, reg, &values));
        }
        for which in if bits { BIT_READS } else { REGISTER_READS } {
            put(read(which, table, reg, count, ENOUGH));
        }
    }
    if bits {
        put(get_coil(table, 0));
        put(set_coil(table, 0, table.bytes.first().is_some_and(|b| b % 2 == 0)));
    } else {
        put(get_holding(table, 0));
        put(set_holding(table, 0, chance.word()));
    }
}

/// Room one short, exact and one over, and a len above the room, each with the range inside and outside the table.
fn rooms(chance: &mut Chance, put: &mut dyn FnMut(Call)) {
    for (cells, counts) in [(16, &[0, 1, 7, 8, 9, 16][..]), (2001, &[125, 2000])] {
        for &count in counts {
            for which in BIT_READS.into_iter().chain(REGISTER_READS) {
                let table = table(cells, is_of_bits(which), 1, chance);
                let bytes = bytes_of(count.into(), is_of_bits(which));
                for reg in [0, cells as u16 - count, cells as u16 - count + 1, 65535] {
                    for len in [0, 1, 9] {
                        for room in around(len + bytes).chain([len]) {
                            put(read(which, &table, reg, count, Response { room, len }));
                        }
                    }
                    let wraps = [1, bytes, bytes + 1].map(usize::wrapping_neg);
                    for len in [9, 10, 65536 + 8, 1 << 32].into_iter().chain(wraps).filter(|len| *len > 8) {
                        put(read(which, &table, reg, count, Response { room: 8, len }));
                    }
                }
            }
        }
    }
}

/// Data one byte short of its count, exact and one over, inside the table and outside; registers by odd numbers.
fn byte_counts(chance: &mut Chance, put: &mut dyn FnMut(Call)) {
    for (cells, counts) in [(17, &[0, 1, 7, 8, 9, 15, 16, 17][..]), (2001, &[1967, 1968, 1969, 2000, 2001])] {
        for &count in counts {
            for table in [table(cells, true, 1, chance), even(cells, true, 1, 0xFF), even(cells, true, 1, 0)] {
                for reg in [0, cells as u16 - count, cells as u16 - count + 1] {
                    for n in around(bytes_of(count.into(), true)).chain([0]) {
                        put(set_coils(&table, reg, count, &chance.bytes(n)));
                    }
                }
            }
        }
    }
    for (cells, counts) in [(3, &[0, 1, 2, 3, 4, 5, 6, 7, 8][..]), (125, &[245, 246, 247, 249, 250, 251])] {
        for &n in counts {
            let table = table(cells, false, 3, chance);
            for reg in around(cells - (n / 2).min(cells)).chain(around(cells)).chain([0, 65535]) {
                put(set_holdings(&table, reg as u16, &chance.bytes(n)));
            }
        }
    }
}

/// As many cells as a table can have in one call, one more and, in bytes, one short.
fn whole_tables(chance: &mut Chance, put: &mut dyn FnMut(Call)) {
    for cells in [MOST - 1, MOST] {
        let (bits, registers) = (table(cells, true, 0, chance), table(cells, false, 0, chance));
        for (reg, n) in [(0, 131070), (0, 131071), (0, 131072), (0, 131074), (1, 131070), (1, 131072)] {
            put(set_holdings(&registers, reg, &chance.bytes(n)));
        }
        for n in [0, 8191, 8192, 8193] {
            put(set_coils(&bits, 0, 65535, &chance.bytes(n)));
        }
        for (which, bytes) in [(GET_COILS_AS_U8, 8192), (GET_INPUTS_AS_U8, 131070)] {
            for room in around(bytes + 1) {
                let table = if which == GET_COILS_AS_U8 { &bits } else { &registers };
                put(read(which, table, 0, 65535, Response { room, len: 1 }));
            }
        }
    }
    for bits in [true, false] {
        let mut short = table(MOST, bits, 0, chance);
        short.bytes.pop();
        every_call(&short, bits, chance, put);
    }
}
