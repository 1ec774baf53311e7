//! "**Poll** does the first that applies".

use super::answers::{Cause, Polled};
use super::refusals::BUFFER_UNDER;
use super::request::{Flight, Request, State};
use super::{put_in_front, Ledger};

/// "output buffer under 266": the length of the longest message.
const OUTPUT: usize = 266;
/// "at least 3,000 ms (house)": how long a request waits for its response.
const RESPONSE_TIME: u64 = 3_000;
/// "at least 1,000 ms": how long a frame waits for its ACK.
const FRAME_TIME: u64 = 1_000;
/// "fewer than 3 transmissions"
const MOST_TRANSMISSIONS: u8 = 3;

impl Ledger {
    pub fn poll(&mut self, output: &mut [u8], clock: u64) -> Result<Polled, u8> {
        self.refused(clock)?;
        if output.len() < OUTPUT {
            return Err(BUFFER_UNDER);
        }
        self.clock = clock;
        if let Some(place) = self.without_response() {
            return Ok(Polled::Ended(self.end(place, Cause::NoResponse)));
        }
        if let Some((place, flight)) = self.due() {
            if flight.transmissions >= MOST_TRANSMISSIONS {
                return Ok(Polled::Ended(self.end(place, Cause::NoAcknowledgement)));
            }
            return Ok(self.send_again(place, flight, output));
        }
        if let Some(place) = self.next_to_send() {
            return Ok(self.send_first(place, output));
        }
        Ok(Polled::Quiet(self.earliest_deadline()))
    }

    /// 1. "The oldest waiting request with clock minus since at least 3,000 ms"
    fn without_response(&self) -> Option<usize> {
        let over = |request: &Request| match request.state {
            State::Waiting { since } => self.clock - since >= RESPONSE_TIME,
            State::Queued | State::InFlight(_) => false,
        };
        self.live.iter().position(over)
    }

    /// 2. "The frame in flight is due if marked, or if clock minus last sent is at least 1,000 ms."
    fn due(&self) -> Option<(usize, Flight)> {
        let place = self.in_flight()?;
        let flight = self.live[place].flight()?;
        let due = flight.marked || self.clock - flight.last_sent >= FRAME_TIME;
        due.then_some((place, flight))
    }

    /// "sent again, the same bytes, mark cleared"
    fn send_again(&mut self, place: usize, flight: Flight, output: &mut [u8]) -> Polled {
        let transmissions = flight.transmissions + 1;
        self.send(
            place,
            Flight {
                transmissions,
                ..flight
            },
            output,
        )
    }

    /// 3. "None in flight and one queued: the oldest"
    fn next_to_send(&self) -> Option<usize> {
        if self.in_flight().is_some() {
            return None;
        }
        self.live.iter().position(Request::is_queued)
    }

    /// "sent as DATA_SEQ with the next SEQ, transmissions 1"
    fn send_first(&mut self, place: usize, output: &mut [u8]) -> Polled {
        let seq = self.next_seq;
        self.next_seq = seq.next();
        let flight = Flight {
            seq,
            transmissions: 1,
            last_sent: self.clock,
            marked: false,
        };
        self.send(place, flight, output)
    }

    /// The frame goes out at this reading, and no NAK is known for it yet.
    fn send(&mut self, place: usize, flight: Flight, output: &mut [u8]) -> Polled {
        let request = &mut self.live[place];
        let frame = request.frame(flight.seq);
        request.state = State::InFlight(Flight {
            last_sent: self.clock,
            marked: false,
            ..flight
        });
        put_in_front(output, &frame);
        Polled::Sent(frame.len())
    }

    /// 4. "the milliseconds to the earliest such deadline", none of which is over here.
    fn earliest_deadline(&self) -> Option<u64> {
        let time_left = |request: &Request| match request.state {
            State::Queued => None,
            State::InFlight(flight) => Some(FRAME_TIME - (self.clock - flight.last_sent)),
            State::Waiting { since } => Some(RESPONSE_TIME - (self.clock - since)),
        };
        self.live.iter().filter_map(time_left).min()
    }
}
