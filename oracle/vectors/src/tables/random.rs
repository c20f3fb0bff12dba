//! Random calls: tables of each size, now and then a bad one, with ranges, data and room around each boundary.
use super::edges::{even, table};
use super::record::*;
use super::storage::SIZES;
use crate::chance::Chance;

pub fn random(chance: &mut Chance) -> Call {
    match chance.below(40) {
        0 => push(response(chance, 1), chance.byte()),
        1 | 2 => extended(chance),
        3 | 4 => resized(chance),
        5 => cut(chance),
        6 => clear(response(chance, 0)),
        7 | 8 => {
            let table = lent(chance, true);
            get_coil(&table, register(chance, &table, 1))
        }
        9..=11 => {
            let table = lent(chance, true);
            set_coil(&table, register(chance, &table, 1), chance.percent(50))
        }
        12 | 13 => {
            let table = lent(chance, false);
            get_holding(&table, register(chance, &table, 1))
        }
        14 | 15 => {
            let table = lent(chance, false);
            set_holding(&table, register(chance, &table, 1), chance.word())
        }
        16..=20 => read_of(GET_COILS_AS_U8, chance),
        21..=23 => read_of(GET_DISCRETES_AS_U8, chance),
        24..=26 => read_of(GET_HOLDINGS_AS_U8, chance),
        27..=29 => read_of(GET_INPUTS_AS_U8, chance),
        30..=36 => coils_set(chance),
        _ => holdings_set(chance),
    }
}

/// Room and len such that so many bytes just fit, do not, or len is above the room.
fn response(chance: &mut Chance, bytes: usize) -> Response {
    let len = if chance.percent(50) { chance.below(12) } else { chance.below(261) };
    match chance.below(20) {
        0..=7 => Response { room: chance.near(len + bytes, 1).max(len), len },
        8 => Response { room: len, len },
        9 => Response { room: chance.below(len + 1), len },
        10 => Response { room: chance.below(20), len: usize::MAX - chance.below(bytes + 20) },
        11 => Response { room: chance.below(261), len: 1 << chance.below(64) },
        _ => Response { room: len + bytes + chance.below(20), len },
    }
}

fn extended(chance: &mut Chance) -> Call {
    let other = if chance.percent(60) { chance.bytes_up_to(12) } else { chance.bytes_up_to(260) };
    extend(response(chance, other.len()), &other)
}

fn resized(chance: &mut Chance) -> Call {
    let more = chance.below(30);
    let response = response(chance, more);
    let new_len = match chance.below(8) {
        0 => chance.below(300),
        1 => 1 << chance.below(64),
        2 | 3 => chance.near(response.room, 1),
        4 => chance.below(response.room + 1),
        _ => response.len.saturating_add(more),
    };
    resize(response, new_len, chance.byte())
}

fn cut(chance: &mut Chance) -> Call {
    let response = response(chance, 0);
    let n = match chance.below(5) {
        0 => usize::MAX - chance.below(3),
        1 => 1 << chance.below(64),
        2 => chance.below(300),
        _ => chance.near(response.len.min(300), 2),
    };
    cut_end(response, n)
}

/// A table; the largest are rare, and bad ones come about once in thirty.
fn lent(chance: &mut Chance, bits: bool) -> Table {
    let largest = chance.below(if bits { 100 } else { 1500 }) == 0;
    let cells = match chance.below(10) {
        _ if largest => chance.pick(&[MOST - 1, MOST]),
        0 => chance.pick(&[1000, 1999, 2000, 2001, 2008]),
        1..=4 => chance.pick(&[47, 48, 49, 64, 100, 125]),
        _ => chance.pick(&SIZES[..SIZES.len() - 2]).min(125),
    };
    let more = chance.pick(&[0, 0, 1, 2, 9]);
    let mut table = match chance.below(8) {
        0 => even(cells, bits, more, 0xFF),
        1 => even(cells, bits, more, 0),
        _ => table(cells, bits, more, chance),
    };
    match chance.below(60) {
        0 if cells > 0 => table.bytes.truncate(bytes_of(cells, bits) - 1),
        1 => table.cells = MOST + 1 + chance.below(200),
        2 => table.cells = (1 << (17 + chance.below(47))) + chance.below(9),
        _ => {}
    }
    table
}

/// A count up to a little more than the table has, rather few and around eights.
fn number(chance: &mut Chance, table: &Table) -> u16 {
    let cells = if table.cells > MOST { 100 } else { table.cells };
    let n = match chance.below(16) {
        0 => chance.near(cells, 1),
        1 => chance.below(cells + 2),
        2 => {
            let eights = chance.below(cells.min(2000) / 8 + 1);
            chance.near(8 * eights, 1)
        }
        3 if cells > 2000 => chance.near(2000, 1),
        _ => chance.below(cells.min(50) + 2),
    };
    n.min(65535) as u16
}

/// A register such that so many cells are mostly inside the table, often up to its very end.
fn register(chance: &mut Chance, table: &Table, count: u16) -> u16 {
    let last = table.cells.min(MOST).saturating_sub(count.into());
    let reg = match chance.below(20) {
        0 => chance.below(65536),
        1 => chance.near(65534, 1),
        2..=6 => chance.near(last, 1),
        7..=9 => chance.below(last.min(16) + 1),
        _ => chance.below(last + 1),
    };
    reg.min(65535) as u16
}

fn read_of(which: u8, chance: &mut Chance) -> Call {
    let bits = is_of_bits(which);
    let table = lent(chance, bits);
    let count = number(chance, &table);
    let reg = register(chance, &table, count);
    read(which, &table, reg, count, response(chance, bytes_of(count.into(), bits)))
}

fn coils_set(chance: &mut Chance) -> Call {
    let table = lent(chance, true);
    let count = number(chance, &table);
    let reg = register(chance, &table, count);
    let bytes = bytes_of(count.into(), true);
    let n = if chance.percent(90) { bytes } else { chance.near(bytes, 2) };
    let values = if chance.percent(20) { vec![chance.pick(&[0, 255]); n] } else { chance.bytes(n) };
    set_coils(&table, reg, count, &values)
}

fn holdings_set(chance: &mut Chance) -> Call {
    let table = lent(chance, false);
    let count = number(chance, &table);
    let reg = register(chance, &table, count);
    let bytes = bytes_of(count.into(), false);
    let n = if chance.percent(85) { bytes } else { chance.near(bytes, 1) };
    set_holdings(&table, reg, &chance.bytes(n))
}
