//! The program `session` for the independent ledger: a script of calls, and the line that is printed for each of them.

use crate::ledger::calls::Call;
use crate::ledger::Ledger;

pub mod answers;
pub mod script;

/// What the lent buffers are full of before a call.
pub const FILL: u8 = 0xEE;

/// A call of a script.
#[derive(Clone, Debug, PartialEq, Eq)]
pub enum Step {
    Open(u64),
    Call(Call),
}

/// The call with its lent buffers as they are before it.
pub fn filled(mut call: Call) -> Call {
    match &mut call {
        Call::Submit { .. } => {}
        Call::Receive { reply, data, .. } => {
            reply.fill(FILL);
            data.fill(FILL);
        }
        Call::Poll { output, .. } => output.fill(FILL),
    }
    call
}

/// What is printed for a script, or the first line, counted from 1, that is no call or not in its place.
pub fn answers(script: &str) -> Result<String, usize> {
    let (mut ledger, mut answers) = (None, String::new());
    for (at, line) in script.lines().enumerate() {
        if line.is_empty() || line.starts_with('#') {
            continue;
        }
        let step = script::step(line).ok_or(at + 1)?;
        answers += &answer(&mut ledger, &step).ok_or(at + 1)?;
        answers.push('\n');
    }
    Ok(answers)
}

/// The line that is printed for a call, none where it is not in its place: "The first call is open, and there is one
/// open only."
fn answer(ledger: &mut Option<Ledger>, step: &Step) -> Option<String> {
    match (step, ledger) {
        (Step::Open(r), ledger @ None) => {
            let (opened, fresh) = Ledger::open(*r);
            *ledger = Some(fresh);
            Some(answers::opened(opened))
        }
        (Step::Call(call), Some(ledger)) => Some(answers::line(&ledger.call(call))),
        _ => None,
    }
}

#[cfg(test)]
mod tests;
