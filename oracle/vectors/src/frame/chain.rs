//! Whole chains, each call of a chain a record of its own: `new`, `parse`, then `process_*` or the two external calls,
//! `finalize_response`, and now and then a call out of order.
use super::random::{list, REPORTS};
use super::record::*;
use super::shape::*;
use crate::chance::Chance;
use crate::record::TCP;

type Put<'a> = &'a mut dyn FnMut(Call) -> Left;

/// The calls so far leave their state, response and tables in `call`.
struct Chain<'a, 'b> {
    call: Call,
    put: Put<'a>,
    chance: &'b mut Chance,
}

pub fn chain(chance: &mut Chance, put: Put<'_>) {
    let (unit, proto) = (chance.pick(&[1, 1, 1, 17, 255]), chance.below(3) as u8);
    let (list, wide) = (list(chance, unit), wide(chance));
    let tables = tables(chance, wide);
    let body = body(chance, unit, &list, &tables, wide);
    let mut buf = framed(chance, proto, if proto == TCP { 6 } else { 0 }, &body);
    if chance.percent(8) {
        damage(chance, &mut buf);
    }
    let room = match wide {
        _ if chance.percent(20) => chance.below(20),
        Some(_) => 260 + chance.below(8),
        None => 30 + chance.below(8),
    };
    let state = fresh(unit, proto);
    let call = Call { which: NEW, reported: 0, state, buf, list, room, given: Vec::new(), tables };
    let mut chain = Chain { call, put, chance };
    if chain.chance.percent(10) {
        chain.ask(NEW, 0);
    }
    chain.serve();
    if chain.chance.percent(4) {
        chain.serve(); // once more with the same frame: what was set is not reset
    }
}

impl Chain<'_, '_> {
    /// Whether it went well.
    fn ask(&mut self, which: u8, reported: u8) -> bool {
        self.call.which = which;
        self.call.reported = reported;
        let left = (self.put)(self.call.clone());
        self.call.state = left.state;
        let same = left.response.iter().enumerate().rev().take_while(|(i, byte)| **byte == plain(*i)).count();
        self.call.given = left.response[..left.response.len() - same].to_vec();
        for (table, bytes) in self.call.tables.iter_mut().zip(left.tables) {
            if table.len <= 300 {
                table.front = bytes;
            }
        }
        left.kind == 0
    }

    fn serve(&mut self) {
        let parsed = self.ask(PARSE, 0);
        if self.chance.percent(10) {
            self.ask(CHANGES, 0);
        }
        if !parsed && self.chance.percent(80) {
            return;
        }
        let external = self.chance.percent(40);
        let s = &self.call.state;
        let done = match (s.processing_required, s.readonly) {
            (false, _) => true,
            (true, true) if external => self.read_outside(),
            (true, true) => self.ask(PROCESS_READ, 0),
            (true, false) if external => self.write_outside(),
            (true, false) => self.ask(PROCESS_WRITE, 0),
        };
        if (done && self.call.state.response_required) || self.chance.percent(4) {
            self.ask(FINALIZE_RESPONSE, 0);
        }
    }

    fn reported(&mut self) -> u8 {
        if self.chance.percent(70) {
            0
        } else {
            self.chance.pick(&REPORTS)
        }
    }

    /// The firmware reads: it fills the room that it is given.
    fn read_outside(&mut self) -> bool {
        let before = self.call.state.response_len;
        if !self.ask(GET_EXTERNAL_READ, 0) {
            return false;
        }
        let end = self.call.state.response_len;
        let data = self.chance.bytes(end - before);
        let from = self.call.given.len().min(end);
        self.call.given.truncate(end);
        self.call.given.extend((from..end).map(plain));
        let header = if self.call.state.proto == TCP { 5 } else { 3 };
        let data = &data[header..];
        self.call.given[end - data.len()..end].copy_from_slice(data);
        let reported = self.reported();
        self.ask(PROCESS_EXTERNAL_READ, reported)
    }

    fn write_outside(&mut self) -> bool {
        let asked = self.ask(GET_EXTERNAL_WRITE, 0);
        let reported = if asked { self.reported() } else { 25 };
        if self.chance.percent(10) {
            return self.ask(SET_MODBUS_ERROR_IF_UNSET, if reported == 0 { 2 } else { reported });
        }
        self.ask(PROCESS_EXTERNAL_WRITE, reported)
    }
}
