//! What a data frame that is no repeat means: an event, a response, or neither.

use super::Act;
use crate::command::Command;
use crate::ids::RequestId;
use crate::ledger::answers::{Cause, Incoming, Word};
use crate::ledger::Ledger;

impl Ledger {
    /// "LEN under 8 or first byte not 0x80: *not a command*. RQID 1 to R: *event*. A request .. : it ends, *response*.
    /// Otherwise *unmatched*."
    pub(super) fn commanded(&mut self, payload: &[u8]) -> Act {
        let Some(command) = Command::read(payload) else {
            return Act::word(Word::NotACommand);
        };
        let incoming = Incoming {
            fields: command.fields,
            request_id: command.request_id,
            data_length: command.data.len(),
        };
        // "Events and responses put their data at the front of the lent data buffer; no other item touches it."
        if self.is_reserved(command.request_id) {
            return Act {
                data: command.data.to_vec(),
                ..Act::word(Word::Event(incoming))
            };
        }
        let answered = |place: &usize| self.live[*place].is_answered_by(&command);
        let Some(place) = (0..self.live.len()).find(answered) else {
            return Act::word(Word::Unmatched(incoming));
        };
        Act {
            data: command.data.to_vec(),
            ending: Some(self.end(place, Cause::Response)),
            ..Act::word(Word::Response(incoming))
        }
    }

    /// "Event IDs are 1 to R"
    fn is_reserved(&self, id: RequestId) -> bool {
        (1..=self.r).contains(&u64::from(id.0))
    }
}
