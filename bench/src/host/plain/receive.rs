//! Receive.

use super::{Book, Plain, Request, State, BUFFER_SHORT, MOST_DATA};
use crate::host::frames::{control, Fields, ACK, DATA_SEQ, MARK, NAK};
use crate::line::Header;
use binding::line::{self, MORE};
use binding::{DAMAGED_HEADER, DAMAGED_PAYLOAD};

const REPLY: usize = 10;

/// A word that a message earns, with a command's ID and data length.
#[derive(Clone, Copy, Debug, PartialEq, Eq)]
pub enum Word {
    Stray,
    Repeat,
    NotCommand,
    Event(u16, usize),
    Response(u16, usize),
    Unmatched(u16, usize),
}

/// The item with the bytes taken, the word, if any, the reply's length and the ID of a request that ended.
pub struct Received {
    pub item: line::Received,
    pub word: Option<Word>,
    pub replied: usize,
    pub ended: Option<u16>,
}

impl Received {
    pub fn is_more(&self) -> bool {
        self.item.answer == MORE
    }
}

impl Plain {
    #[inline(never)]
    pub fn receive(
        &mut self,
        new: &[u8],
        reply: &mut [u8],
        data: &mut [u8],
        clock: u64,
        checksum: impl Fn(&[u8]) -> u16,
    ) -> Result<Received, u8> {
        let Plain { line, book } = self;
        book.check(clock)?;
        if reply.len() < REPLY || data.len() < MOST_DATA {
            return Err(BUFFER_SHORT);
        }
        book.clock = clock;
        let (mut word, mut ended, mut replied) = (None, None, 0);
        let item = line.receive_with(new, &checksum, |header, payload| {
            (word, ended) = book.act(header, payload, data);
            if header.kind == DATA_SEQ {
                replied = control(reply, ACK, header.seq, &checksum);
            }
        });
        if matches!(item.answer, DAMAGED_HEADER | DAMAGED_PAYLOAD) {
            replied = control(reply, NAK, 0, &checksum);
        }
        Ok(Received {
            item,
            word,
            replied,
            ended,
        })
    }
}

type Act = (Option<Word>, Option<u16>);

impl Book {
    fn act(&mut self, header: Header, payload: &[u8], data: &mut [u8]) -> Act {
        match header.kind {
            ACK => self.acknowledged(header.seq),
            NAK => self.not_acknowledged(),
            DATA_SEQ if self.last_seq.replace(header.seq) == Some(header.seq) => (Some(Word::Repeat), None),
            _ => self.commanded(payload, data),
        }
    }

    fn acknowledged(&mut self, seq: u8) -> Act {
        match self.in_flight() {
            Some((row, flight)) if flight.seq == seq => {
                if !self.live[row].wanted {
                    return (None, Some(self.end(row)));
                }
                self.live[row].state = State::Waiting(self.clock);
                (None, None)
            }
            _ => (Some(Word::Stray), None),
        }
    }

    fn not_acknowledged(&mut self) -> Act {
        let Some((row, mut flight)) = self.in_flight() else {
            return (Some(Word::Stray), None);
        };
        flight.marked = true;
        self.live[row].state = State::InFlight(flight);
        (None, None)
    }

    fn commanded(&mut self, payload: &[u8], data: &mut [u8]) -> Act {
        let &[MARK, tc, tid, sid, iid, low, high, cid, ref found @ ..] = payload else {
            return (Some(Word::NotCommand), None);
        };
        let id = u16::from_le_bytes([low, high]);
        if 1 <= id && u64::from(id) <= self.r {
            data[..found.len()].copy_from_slice(found);
            return (Some(Word::Event(id, found.len())), None);
        }
        // TID and SID swapped
        let asked = Fields {
            tc,
            tid: sid,
            sid: tid,
            iid,
            cid,
        };
        let fits = |request: &Request| {
            let sent = !matches!(request.state, State::Queued);
            sent && request.wanted && request.id == id && request.fields == asked
        };
        let Some(row) = self.live[..self.count].iter().position(fits) else {
            return (Some(Word::Unmatched(id, found.len())), None);
        };
        data[..found.len()].copy_from_slice(found);
        (Some(Word::Response(id, found.len())), Some(self.end(row)))
    }
}
