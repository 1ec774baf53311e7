//! A script's text: a call a line, its fields separated by one space.

use super::answers::hexadecimal;
use super::{Step, FILL};
use crate::command::Fields;
use crate::ledger::calls::Call;

/// The line of a call, without its end.
pub fn text(step: &Step) -> String {
    match step {
        Step::Open(r) => format!("open {r}"),
        Step::Call(Call::Submit {
            fields: Fields { tc, tid, sid, iid, cid },
            data,
            wanted,
            clock,
        }) => {
            let wanted = if *wanted { "wanted" } else { "unwanted" };
            let data = hexadecimal(data);
            format!("submit {tc} {tid} {sid} {iid} {cid} {wanted} {clock} {data}")
        }
        Step::Call(Call::Receive {
            new,
            reply,
            data,
            clock,
        }) => {
            let (reply, data, new) = (reply.len(), data.len(), hexadecimal(new));
            format!("receive {clock} {reply} {data} {new}")
        }
        Step::Call(Call::Poll { output, clock }) => format!("poll {clock} {}", output.len()),
    }
}

/// The call of a line, none where the line has another form.
pub fn step(line: &str) -> Option<Step> {
    let words: Vec<&str> = line.split(' ').collect();
    match words[..] {
        ["open", r] => Some(Step::Open(r.parse().ok()?)),
        ["submit", tc, tid, sid, iid, cid, wanted, clock, data] => Some(Step::Call(Call::Submit {
            fields: Fields {
                tc: tc.parse().ok()?,
                tid: tid.parse().ok()?,
                sid: sid.parse().ok()?,
                iid: iid.parse().ok()?,
                cid: cid.parse().ok()?,
            },
            data: bytes(data)?,
            wanted: is_wanted(wanted)?,
            clock: clock.parse().ok()?,
        })),
        ["receive", clock, reply, data, new] => Some(Step::Call(Call::Receive {
            new: bytes(new)?,
            reply: lent(reply)?,
            data: lent(data)?,
            clock: clock.parse().ok()?,
        })),
        ["poll", clock, output] => Some(Step::Call(Call::Poll {
            output: lent(output)?,
            clock: clock.parse().ok()?,
        })),
        _ => None,
    }
}

fn is_wanted(word: &str) -> Option<bool> {
    match word {
        "wanted" => Some(true),
        "unwanted" => Some(false),
        _ => None,
    }
}

/// A lent buffer of this length.
fn lent(length: &str) -> Option<Vec<u8>> {
    Some(vec![FILL; length.parse().ok()?])
}

fn bytes(text: &str) -> Option<Vec<u8>> {
    if text == "-" {
        return Some(Vec::new());
    }
    let pairs = text.as_bytes().chunks(2);
    pairs
        .map(|pair| u8::from_str_radix(std::str::from_utf8(pair).ok()?, 16).ok())
        .collect()
}
