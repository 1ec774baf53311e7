//! A script as it is made, call by call, with the independent ledger beside it.

use independent::command::Fields;
use independent::ledger::answers::{Item, Received};
use independent::ledger::calls::{Call, Outcome};
use independent::ledger::Ledger;
use independent::session::script::text;
use independent::session::{answers, Step, FILL};

/// A call's line in a script, and the line that is printed for it.
pub struct Line {
    pub call: String,
    pub answer: String,
}

/// The least lengths that are not refused.
const REPLY: usize = 10;
const DATA: usize = 248;
const OUTPUT: usize = 266;

pub struct Scene {
    pub ledger: Ledger,
    /// The reading that the next call brings.
    pub clock: u64,
    /// The lengths of the buffers that the next calls lend.
    pub reply: usize,
    pub data: usize,
    pub output: usize,
    pub lines: Vec<Line>,
}

impl Scene {
    /// A script begins with open.
    pub fn opened(r: u64) -> Scene {
        let (opened, ledger) = Ledger::open(r);
        let mut scene = Scene {
            ledger,
            clock: 0,
            reply: REPLY,
            data: DATA,
            output: OUTPUT,
            lines: Vec::new(),
        };
        scene.add(&Step::Open(r), answers::opened(opened));
        scene
    }

    pub fn call(&mut self, call: Call) -> Outcome {
        let outcome = self.ledger.call(&call);
        self.add(&Step::Call(call), answers::line(&outcome));
        outcome
    }

    fn add(&mut self, step: &Step, answer: String) {
        let call = text(step);
        self.lines.push(Line { call, answer });
    }

    pub fn submit(&mut self, fields: Fields, data: &[u8], wanted: bool) {
        self.call(Call::Submit {
            fields,
            data: data.to_vec(),
            wanted,
            clock: self.clock,
        });
    }

    pub fn poll(&mut self) -> Outcome {
        self.call(Call::Poll {
            output: vec![FILL; self.output],
            clock: self.clock,
        })
    }

    /// One call; what it answers, nothing where it is refused.
    pub fn receive(&mut self, new: &[u8]) -> Option<Received> {
        let outcome = self.call(Call::Receive {
            new: new.to_vec(),
            reply: vec![FILL; self.reply],
            data: vec![FILL; self.data],
            clock: self.clock,
        });
        match outcome {
            Outcome::Receive { answer, .. } => answer.ok(),
            _ => None,
        }
    }

    /// "each piece is handed in, its untaken rest again, until receive answers *more*", or the script is full.
    pub fn hand_in(&mut self, mut piece: &[u8]) {
        while self.has_room(1) {
            match self.receive(piece) {
                Some(received) if received.item != Item::More => piece = &piece[received.taken..],
                _ => return,
            }
        }
    }

    /// The clock goes on, as far as it can.
    pub fn wait(&mut self, time: u64) {
        self.clock = self.clock.saturating_add(time);
    }

    /// The SEQ of the last frame, which may be in flight.
    pub fn last_sent(&self) -> u8 {
        self.ledger.next_seq.0.wrapping_sub(1)
    }

    /// A SEQ that is not the controller's last one.
    pub fn fresh_seq(&self) -> u8 {
        self.ledger.last_seq.map_or(0, |last| last.next().0)
    }

    /// Whether this many more calls keep the script short.
    pub fn has_room(&self, calls: usize) -> bool {
        self.lines.len() + calls <= MOST_CALLS
    }

    /// The script, after a comment and an empty line, which are passed over.
    pub fn script(&self, comment: &str) -> String {
        let lines = self.lines.iter().map(|line| line.call.clone() + "\n");
        format!("# {comment}\n\n{}", lines.collect::<String>())
    }

    /// What must be printed for it.
    pub fn answers(&self) -> String {
        self.lines.iter().map(|line| line.answer.clone() + "\n").collect()
    }
}

/// Of all scripts but the long ones.
pub const MOST_CALLS: usize = 200;
