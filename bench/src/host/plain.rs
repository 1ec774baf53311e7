//! A plain endpoint to compare with, by document 01's rules for open, submit, receive and poll. It is changed in place, a request
//! that ends moves no data. Each call tests first whether it is malformed, by the same rule. Its calls are never inlined.

use super::frames::Fields;
use crate::line::Plain as Line;

mod poll;
mod receive;

pub use poll::Polled;
pub use receive::{Received, Word};

/// "at most three live requests", "0 to 248 data bytes"
const MOST_LIVE: usize = 3;
pub const MOST_DATA: usize = 248;

/// Refusal numbers.
const MALFORMED: u8 = 1;
const CLOCK_BELOW: u8 = 2;
const R_OVER: u8 = 3;
const DATA_OVER: u8 = 4;
const ALL_LIVE: u8 = 5;
const BUFFER_SHORT: u8 = 6;

#[derive(Clone, Copy)]
enum State {
    Queued,
    InFlight(Flight),
    Waiting(u64),
}

#[derive(Clone, Copy)]
struct Flight {
    seq: u8,
    transmissions: u8,
    sent: u64,
    marked: bool,
}

/// A request; its data are in a room that it keeps.
#[derive(Clone, Copy)]
struct Request {
    id: u16,
    fields: Fields,
    wanted: bool,
    state: State,
    room: usize,
    length: usize,
}

/// The held bytes, and all else.
pub struct Plain {
    line: Line,
    pub book: Book,
}

/// The live requests are the first `count`, oldest first. The others have the free rooms.
pub struct Book {
    live: [Request; MOST_LIVE],
    count: usize,
    r: u64,
    clock: u64,
    next_seq: u8,
    next_id: u16,
    last_seq: Option<u8>,
    rooms: [[u8; MOST_DATA]; MOST_LIVE],
}

impl Default for Plain {
    /// An endpoint for R = 0.
    fn default() -> Self {
        let request = |room| Request {
            id: 0,
            fields: Fields::default(),
            wanted: false,
            state: State::Queued,
            room,
            length: 0,
        };
        let book = Book {
            live: [0, 1, 2].map(request),
            count: 0,
            r: 0,
            clock: 0,
            next_seq: 0,
            next_id: 1,
            last_seq: None,
            rooms: [[0; MOST_DATA]; MOST_LIVE],
        };
        Plain {
            line: Line::default(),
            book,
        }
    }
}

impl Plain {
    /// The endpoint starts anew; no byte is cleared.
    pub fn open(&mut self, r: u64) -> Result<(), u8> {
        let opened = if r > 255 { Err(R_OVER) } else { Ok(()) };
        let book = &mut self.book;
        book.r = if opened.is_ok() { r } else { 0 };
        book.next_id = book.r as u16 + 1;
        (book.count, book.clock, book.next_seq, book.last_seq) = (0, 0, 0, None);
        self.line.clear();
        opened
    }
}

impl Book {
    #[inline(never)]
    pub fn submit(&mut self, fields: Fields, data: &[u8], wanted: bool, clock: u64) -> Result<u16, u8> {
        self.check(clock)?;
        if data.len() > MOST_DATA {
            return Err(DATA_OVER);
        }
        if self.count == MOST_LIVE {
            return Err(ALL_LIVE);
        }
        self.clock = clock;
        let mut id = self.next_id;
        while self.live[..self.count].iter().any(|request| request.id == id) {
            id = self.id_after(id);
        }
        self.next_id = self.id_after(id);
        let room = self.live[self.count].room;
        self.rooms[room][..data.len()].copy_from_slice(data);
        self.live[self.count] = Request {
            id,
            fields,
            wanted,
            state: State::Queued,
            room,
            length: data.len(),
        };
        self.count += 1;
        Ok(id)
    }

    /// Lines 1 and 2 of the table. The held bytes are the line's own, and never too many.
    fn check(&self, clock: u64) -> Result<(), u8> {
        if self.is_malformed() {
            return Err(MALFORMED);
        }
        if clock < self.clock {
            return Err(CLOCK_BELOW);
        }
        Ok(())
    }

    /// "Malformed means one of"
    fn is_malformed(&self) -> bool {
        if self.r > 255 || self.count > MOST_LIVE || self.is_outside(self.next_id) {
            return true;
        }
        let live = &self.live[..self.count];
        let flights = live
            .iter()
            .filter(|request| matches!(request.state, State::InFlight(_)));
        if flights.count() > 1 {
            return true;
        }
        let is_bad = |(row, request): (usize, &Request)| {
            self.is_bad(request) || live[row + 1..].iter().any(|later| later.id == request.id)
        };
        live.iter().enumerate().any(is_bad)
    }

    /// Whether a request breaks the rule by itself.
    fn is_bad(&self, request: &Request) -> bool {
        let is_bad_state = match request.state {
            State::Queued => false,
            State::InFlight(flight) => !(1..=3).contains(&flight.transmissions) || self.clock < flight.sent,
            State::Waiting(since) => !request.wanted || self.clock < since,
        };
        self.is_outside(request.id) || request.length > MOST_DATA || is_bad_state
    }

    /// Outside R + 1 to 65535.
    fn is_outside(&self, id: u16) -> bool {
        u64::from(id) <= self.r
    }

    /// "after 65535 comes R + 1"
    fn id_after(&self, id: u16) -> u16 {
        id.checked_add(1).unwrap_or(self.r as u16 + 1)
    }

    /// The request in this row leaves; its ID.
    fn end(&mut self, row: usize) -> u16 {
        let id = self.live[row].id;
        self.live[row..self.count].rotate_left(1);
        self.count -= 1;
        id
    }

    /// The row of the frame in flight, and the frame.
    fn in_flight(&self) -> Option<(usize, Flight)> {
        let flight = |(row, request): (usize, &Request)| match request.state {
            State::InFlight(flight) => Some((row, flight)),
            _ => None,
        };
        self.live[..self.count].iter().enumerate().find_map(flight)
    }
}
