//! What is expected of a call: what the crate leaves over a bounded response, and document 01's answer exactly where
//! the crate panics. A Vec, which never lacks room, must be left the same where the bounded response never lacked any.
use super::ask::{ask, number};
use super::context::Tables;
use super::foreseen::{panics, Site};
use super::record::*;
use crate::answer::{in_the_crate, OOB};
use crate::bounded::Bounded;

/// What is left, and where the crate panicked.
pub type Expected = (Left, Option<Site>);

pub fn answer(call: &Call) -> Result<Expected, String> {
    let held = call.state.response_len;
    if held > call.room {
        return Ok((no_state(call), None));
    }
    let mut lent = call.lent();
    let mut bounded = Bounded::holding(&mut lent, held);
    let mut tables = Tables::of(call);
    let got = in_the_crate(|| ask(call, &mut bounded, &mut tables));
    let lacked = bounded.lacked;
    let site = panics(call, call.room - held);
    let left = match (got, site) {
        (None, Some((_, kind))) => call.refused(kind),
        (None, None) => return Err("the crate panics where document 01 foresees none".into()),
        (Some(_), Some(_)) => return Err("document 01 foresees a panic and the crate answers".into()),
        (Some((got, state)), None) => {
            let (kind, values) = match got {
                Ok(values) => (0, values),
                Err(kind) => (number(kind).ok_or("an answer that document 01 leaves out")?, Vec::new()),
            };
            Left { kind, state, values, response: lent, tables: tables.bytes }
        }
    };
    if lacked && left.kind != OOB {
        return Err("without room the answer is not OOB".into());
    }
    if !lacked && in_a_vec(call)? != without_spare(&left, site) {
        return Err("a Vec holds something else than the bounded response".into());
    }
    Ok((left, site))
}

/// A response length above the lent slice, which the crate's vectors cannot have: refused first. Two calls look at no
/// response.
fn no_state(call: &Call) -> Left {
    match call.which {
        NEW => Left { state: fresh(call.state.unit_id, call.state.proto), ..call.refused(0) },
        CHANGES => {
            let state = State { response_len: 0, ..call.state.clone() };
            let (got, _) = ask(&Call { state, ..call.clone() }, &mut Vec::new(), &mut Tables::of(call));
            Left { values: got.unwrap_or_default(), ..call.refused(0) }
        }
        _ => call.refused(OOB),
    }
}

/// The same call over a Vec: what is left, of the response only what it holds.
fn in_a_vec(call: &Call) -> Result<Option<Left>, String> {
    let mut response = call.lent()[..call.state.response_len].to_vec();
    let mut tables = Tables::of(call);
    let got = in_the_crate(|| ask(call, &mut response, &mut tables));
    if got.is_none() != panics(call, usize::MAX).is_some() {
        return Err("over a Vec the crate panics elsewhere than foreseen".into());
    }
    let Some((got, state)) = got else { return Ok(None) };
    let kind = got.as_ref().map_or_else(|kind| number(*kind).unwrap_or(255), |_| 0);
    Ok(Some(Left { kind, state, values: got.unwrap_or_default(), response, tables: tables.bytes }))
}

fn without_spare(left: &Left, panicked: Option<Site>) -> Option<Left> {
    if panicked.is_some() {
        return None;
    }
    let response = left.response[..left.state.response_len].to_vec();
    Some(Left { response, ..left.clone() })
}
