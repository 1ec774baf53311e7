//! What is printed for a call: one line, its parts separated by one space.

use super::FILL;
use crate::command::Fields;
use crate::ledger::answers::{Cause, Ending, Incoming, Item, Polled, Received, Word};
use crate::ledger::calls::Outcome;

pub fn opened(opened: Result<(), u8>) -> String {
    match opened {
        Ok(()) => String::from("opened"),
        Err(number) => format!("open refused {number}"),
    }
}

pub fn line(outcome: &Outcome) -> String {
    match outcome {
        Outcome::Submit(Ok(id)) => format!("submitted {}", id.0),
        Outcome::Submit(Err(number)) => format!("submit refused {number}"),
        Outcome::Receive { answer, reply, data } => match answer {
            Ok(found) => received(found, reply, data),
            Err(number) => {
                untouched(&[reply, data].map(|buffer| &buffer[..]));
                format!("receive refused {number}")
            }
        },
        Outcome::Poll { answer, output } => match answer {
            Ok(found) => polled(found, output),
            Err(number) => {
                untouched(&[output]);
                format!("poll refused {number}")
            }
        },
    }
}

fn received(found: &Received, reply: &[u8], data: &[u8]) -> String {
    let ending = match found.ending {
        Some(ending) => ended(ending),
        None => String::from("no-ending"),
    };
    format!(
        "received {} {} taken {} reply {} data {} {ending}",
        item(found.item),
        word(found.word),
        found.taken,
        front(reply, found.reply_length),
        front(data, data_length(found.word)),
    )
}

fn polled(found: &Polled, output: &[u8]) -> String {
    if let Polled::Sent(length) = found {
        return format!("sent {}", front(output, *length));
    }
    untouched(&[output]);
    match found {
        Polled::Ended(ending) => ended(*ending),
        Polled::Quiet(Some(time)) => format!("quiet {time}"),
        Polled::Quiet(None) | Polled::Sent(_) => String::from("no-deadline"),
    }
}

fn item(item: Item) -> String {
    match item {
        Item::More => String::from("more"),
        Item::DamagedHeader => String::from("damaged-header"),
        Item::Forbidden => String::from("forbidden"),
        Item::DamagedPayload => String::from("damaged-payload"),
        Item::Message { kind, seq, len } => format!("message {kind} {} {len}", seq.0),
    }
}

fn word(word: Option<Word>) -> String {
    match word {
        None => String::from("none"),
        Some(Word::Stray) => String::from("stray"),
        Some(Word::Repeat) => String::from("repeat"),
        Some(Word::NotACommand) => String::from("not-a-command"),
        Some(Word::Event(incoming)) => format!("event {}", command(incoming)),
        Some(Word::Response(incoming)) => format!("response {}", command(incoming)),
        Some(Word::Unmatched(incoming)) => format!("unmatched {}", command(incoming)),
    }
}

fn command(incoming: Incoming) -> String {
    let Fields { tc, tid, sid, iid, cid } = incoming.fields;
    let (id, length) = (incoming.request_id.0, incoming.data_length);
    format!("{tc} {tid} {sid} {iid} {cid} {id} {length}")
}

/// "Events and responses put their data at the front of the lent data buffer; no other item touches it."
fn data_length(word: Option<Word>) -> usize {
    match word {
        Some(Word::Event(incoming) | Word::Response(incoming)) => incoming.data_length,
        _ => 0,
    }
}

fn ended(ending: Ending) -> String {
    let cause = match ending.cause {
        Cause::Acknowledged => "acknowledged",
        Cause::Response => "response",
        Cause::NoResponse => "no-response",
        Cause::NoAcknowledgement => "no-acknowledgement",
    };
    format!("ended {} {cause}", ending.request_id.0)
}

/// So many bytes of a lent buffer; behind them it is as it was.
fn front(buffer: &[u8], length: usize) -> String {
    let (printed, rest) = buffer.split_at(length);
    untouched(&[rest]);
    format!("{length} {}", hexadecimal(printed))
}

/// The independent ledger changes nothing beyond what is printed, so no line of its has the word `touched`.
fn untouched(parts: &[&[u8]]) {
    let is_full = |part: &&[u8]| part.iter().all(|&byte| byte == FILL);
    assert!(
        parts.iter().all(is_full),
        "the ledger changed a byte that is not printed"
    );
}

/// Two digits a byte, `-` for none.
pub fn hexadecimal(bytes: &[u8]) -> String {
    if bytes.is_empty() {
        return String::from("-");
    }
    bytes.iter().map(|byte| format!("{byte:02x}")).collect()
}
