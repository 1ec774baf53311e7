//! What is asked of the ledger's own state after a call.

use crate::ledger::answers::{Item, Received, Word};
use crate::ledger::calls::{Call, Outcome};
use crate::ledger::request::{Request, State};
use crate::ledger::trace::{Clause, Trace};
use crate::ledger::Ledger;
use crate::message::SYN;

pub fn after(before: &Ledger, call: &Call, outcome: &Outcome, ledger: &Ledger, trace: &Trace) -> Clause {
    let wanted = |holds: bool, words: &str| match holds {
        true => Ok(()),
        false => Err(format!("{words}: {ledger:?}")),
    };
    // "A call that the table below refuses .. gets its number there, and the ledger stays."
    let refused = outcome.refusal().is_some();
    wanted(!refused || before == ledger, "a refused call has changed it")?;
    // "An accepted call sets the clock."
    wanted(refused || ledger.clock == call.clock(), "not the clock of the call")?;
    wanted(!ledger.malformed(), "malformed")?;
    wanted(ledger.line.held.len() <= 265, "more than 265 held")?;
    let flying = ledger.live.iter().filter(|request| request.is_in_flight()).count();
    wanted(flying <= 1, "two in flight")?;
    wanted(ids_are_within(ledger), "an ID outside R + 1 to 65535")?;
    wanted(in_order(ledger), "not waiting, in flight, queued in this order")?;
    let ids = ledger.live.iter().map(|request| request.id);
    wanted(ids.eq(trace.live_ids()), "live are not those accepted and not ended")?;
    let (Call::Receive { new, .. }, Outcome::Receive { answer, data, .. }) = (call, outcome) else {
        return Ok(());
    };
    let Ok(received) = answer else {
        return Ok(());
    };
    let bytes = [&before.line.held, &new[..received.taken]].concat();
    wanted(
        follows(&bytes, received, data, &ledger.line.held),
        "the bytes held or the data",
    )
}

fn ids_are_within(ledger: &Ledger) -> bool {
    let above = |id: u16| u64::from(id) > ledger.r;
    let live = |request: &Request| above(request.id.0);
    above(ledger.next_id.0) && ledger.live.iter().all(live)
}

/// Frames go out in order of acceptance, one at a time. So first come those that wait, whose times do not fall, then
/// the one in flight, which was sent no earlier and has the SEQ before the next, then those that are queued.
fn in_order(ledger: &Ledger) -> bool {
    let key = |request: &Request| match request.state {
        State::Waiting { since } => (0, since),
        State::InFlight(flight) => (1, flight.last_sent),
        State::Queued => (2, 0),
    };
    let keys: Vec<_> = ledger.live.iter().map(key).collect();
    let sent = keys.iter().filter(|(kind, _)| *kind < 2).map(|(_, time)| time);
    let flight = ledger.live.iter().find_map(Request::flight);
    keys.is_sorted() && sent.is_sorted() && flight.is_none_or(|flight| flight.seq.next() == ledger.next_seq)
}

/// Of held and taken bytes: "Drop bytes until AA 55 stands in front; a lone AA at the end is kept." Then what the item
/// removes; "What follows is held as it is", and a command's data is the data answered.
fn follows(bytes: &[u8], received: &Received, data: &[u8], left: &[u8]) -> bool {
    let stands = |at: &usize| bytes[*at..].starts_with(&SYN) || bytes[*at..] == SYN[..1];
    let start = (0..bytes.len()).find(stands).unwrap_or(bytes.len());
    let removed = match received.item {
        Item::More => 0,
        Item::DamagedHeader | Item::Forbidden | Item::DamagedPayload => 2,
        Item::Message { len, .. } => 10 + len,
    };
    if bytes.get(start + removed..) != Some(left) {
        return false;
    }
    match received.word {
        Some(Word::Event(incoming) | Word::Response(incoming)) => {
            // SYN, four fields and their checksum, eight bytes of command; behind the data its checksum
            bytes[start + 16..start + removed - 2] == data[..incoming.data_length]
        }
        _ => true,
    }
}
