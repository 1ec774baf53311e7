//! Random lists of calls, each call chosen by what the ledger holds, so that what arrives is often plausible.

use super::calls::{Call, Outcome};
use super::request::Request;
use super::Ledger;
use crate::command::Fields;
use crate::message::{Message, ACK};
use crate::random::Random;
use clocks::Clocks;
use wire::Wire;

mod clocks;
mod messages;
mod wire;

/// How often submit, receive and poll come, of the sum of the three.
type Manner = [usize; 3];

/// A lively exchange, a controller that says much, one that says almost nothing, and a caller that submits much.
const MANNERS: [Manner; 4] = [[20, 40, 40], [15, 60, 25], [12, 6, 82], [45, 20, 35]];

/// A list as it is made: what its next calls depend on beside the ledger.
pub struct List {
    random: Random,
    manner: Manner,
    /// Whether the controller says nothing of use but an ACK now and then, and that at the last moment.
    late: bool,
    clocks: Clocks,
    wire: Wire,
}

impl List {
    /// A list whose clocks keep document 01's rule, or one with any clocks.
    pub fn new(mut random: Random, by_the_rule: bool) -> Self {
        let manner = random.one_of(&MANNERS);
        let late = random.one_in(8);
        let clocks = Clocks::new(by_the_rule, late, &mut random);
        List {
            random,
            manner,
            late,
            clocks,
            wire: Wire::default(),
        }
    }

    /// "whatever it was given": what open is given.
    pub fn any_r(random: &mut Random) -> u64 {
        match random.up_to(15) {
            0..=3 => 38,
            4..=5 => 0,
            6..=7 => 1,
            8..=9 => 255,
            10 => 254,
            11 => random.one_of(&[256, 257, 65_535, 65_536]),
            12 => random.one_of(&[1 << 32, u64::MAX - 1, u64::MAX]),
            13 => random.number(),
            _ => u64::from(random.byte()),
        }
    }

    pub fn next_call(&mut self, ledger: &Ledger) -> Call {
        let clock = self.clocks.reading(ledger.clock, &mut self.random);
        if self.late {
            return self.late_call(ledger, clock);
        }
        let [mut submit, receive, poll] = self.manner;
        if ledger.live.len() >= ledger.limit && !self.random.one_in(5) {
            submit = 0;
        }
        let choice = self.random.up_to(submit + receive + poll - 1);
        if choice < submit {
            self.submit(clock)
        } else if choice < submit + receive {
            let new = self.wire.piece(ledger, &mut self.random);
            self.receive(new, clock)
        } else {
            self.poll(clock)
        }
    }

    /// Nothing that fits arrives but an ACK after the third transmission, so that requests live as long as they can.
    fn late_call(&mut self, ledger: &Ledger, clock: u64) -> Call {
        let mut flights = ledger.live.iter().filter_map(Request::flight);
        let third = flights.find(|flight| flight.transmissions == 3);
        match third {
            Some(flight) if self.random.one_in(4) => self.receive(Message::new(ACK, flight.seq.0, &[]).bytes(), clock),
            _ if self.random.one_in(8) => {
                let new = messages::of_no_use(ledger, &mut self.random);
                self.receive(new, clock)
            }
            _ if ledger.live.len() < ledger.limit && self.random.one_in(2) => self.submit(clock),
            _ => self.poll(clock),
        }
    }

    /// What came of the call: the next clock and the untaken rest depend on it.
    pub fn observe(&mut self, call: &Call, outcome: &Outcome) {
        self.clocks.observe(call, outcome);
        if let Outcome::Receive {
            answer: Ok(received), ..
        } = outcome
        {
            self.wire.taken(received.taken, &mut self.random);
        }
    }

    fn submit(&mut self, clock: u64) -> Call {
        let length = match self.random.up_to(39) {
            0 => self.random.up_to(249),
            1 => 248,
            2 => 249,
            _ => self.random.up_to(4),
        };
        Call::Submit {
            fields: fields(&mut self.random),
            data: self.random.bytes(length),
            wanted: !self.random.one_in(3),
            clock,
        }
    }

    fn receive(&mut self, new: Vec<u8>, clock: u64) -> Call {
        Call::Receive {
            new,
            reply: self.buffer(10),
            data: self.buffer(248),
            clock,
        }
    }

    fn poll(&mut self, clock: u64) -> Call {
        Call::Poll {
            output: self.buffer(266),
            clock,
        }
    }

    /// A buffer of at least the length that the call asks for, and now and then one byte too short.
    fn buffer(&mut self, least: usize) -> Vec<u8> {
        let length = match self.random.up_to(59) {
            0 => least - 1,
            1 => self.random.up_to(least - 1),
            2..=10 => least + self.random.up_to(40),
            11 => least + 1_000,
            _ => least,
        };
        let first = self.random.byte();
        (0..length).map(|at| first.wrapping_add(at as u8)).collect()
    }
}

/// Mostly small numbers, so that different commands often have equal fields.
fn fields(random: &mut Random) -> Fields {
    let most = random.one_of(&[1, 2, 255]);
    let mut field = || random.up_to(most) as u8;
    Fields {
        tc: field(),
        tid: field(),
        sid: field(),
        iid: field(),
        cid: field(),
    }
}
