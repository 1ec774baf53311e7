//! Poll.

use super::{Book, Flight, State, BUFFER_SHORT};
use crate::host::frames::command;

const OUTPUT: usize = 266;
const RESPONSE_TIME: u64 = 3_000;
const FRAME_TIME: u64 = 1_000;
const MOST_TRANSMISSIONS: u8 = 3;

pub enum Polled {
    /// A request's ID: no acknowledgement or no response came.
    Ended(u16),
    Sent(usize),
    Quiet(u64),
    NoDeadline,
}

impl Book {
    #[inline(never)]
    pub fn poll(&mut self, output: &mut [u8], clock: u64, checksum: impl Fn(&[u8]) -> u16) -> Result<Polled, u8> {
        self.check(clock)?;
        if output.len() < OUTPUT {
            return Err(BUFFER_SHORT);
        }
        self.clock = clock;
        if let Some(row) = self.overdue() {
            return Ok(Polled::Ended(self.end(row)));
        }
        if let Some((row, flight)) = self.in_flight() {
            if !flight.marked && clock - flight.sent < FRAME_TIME {
                return Ok(self.quiet());
            }
            if flight.transmissions == MOST_TRANSMISSIONS {
                return Ok(Polled::Ended(self.end(row)));
            }
            let transmissions = flight.transmissions + 1;
            return Ok(self.send(row, flight.seq, transmissions, output, checksum));
        }
        let queued = |row: &usize| matches!(self.live[*row].state, State::Queued);
        let Some(row) = (0..self.count).find(queued) else {
            return Ok(self.quiet());
        };
        let seq = self.next_seq;
        self.next_seq = seq.wrapping_add(1);
        Ok(self.send(row, seq, 1, output, checksum))
    }

    fn overdue(&self) -> Option<usize> {
        let is_over = |row: &usize| match self.live[*row].state {
            State::Waiting(since) => self.clock - since >= RESPONSE_TIME,
            _ => false,
        };
        (0..self.count).find(is_over)
    }

    fn send(
        &mut self,
        row: usize,
        seq: u8,
        transmissions: u8,
        output: &mut [u8],
        checksum: impl Fn(&[u8]) -> u16,
    ) -> Polled {
        let request = &mut self.live[row];
        request.state = State::InFlight(Flight {
            seq,
            transmissions,
            sent: self.clock,
            marked: false,
        });
        let data = &self.rooms[request.room][..request.length];
        Polled::Sent(command(output, seq, request.fields, request.id, data, checksum))
    }

    fn quiet(&self) -> Polled {
        let left = |row: usize| match self.live[row].state {
            State::Queued => None,
            State::InFlight(flight) => Some(FRAME_TIME - (self.clock - flight.sent)),
            State::Waiting(since) => Some(RESPONSE_TIME - (self.clock - since)),
        };
        let least = (0..self.count).filter_map(left).min();
        least.map_or(Polled::NoDeadline, Polled::Quiet)
    }
}
