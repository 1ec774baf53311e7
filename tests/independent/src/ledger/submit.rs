//! "**Submit** (fields, data, response wanted or not, clock)."

use super::refusals::{DATA_OVER_248, THREE_LIVE};
use super::request::{Request, State};
use super::{first_id, Ledger};
use crate::command::{Fields, MOST_DATA};
use crate::ids::RequestId;

impl Ledger {
    pub fn submit(&mut self, fields: Fields, data: &[u8], wanted: bool, clock: u64) -> Result<RequestId, u8> {
        self.refused(clock)?;
        if data.len() > MOST_DATA {
            return Err(DATA_OVER_248);
        }
        if self.live.len() >= self.limit {
            return Err(THREE_LIVE);
        }
        self.clock = clock;
        let id = self.first_not_live();
        // "The next request ID is then the one after it. The request joins as queued."
        self.next_id = self.id_after(id);
        self.live.push(Request {
            id,
            fields,
            data: data.to_vec(),
            wanted,
            state: State::Queued,
        });
        Ok(id)
    }

    /// "The ID is the first one not live, from the next request ID on".
    fn first_not_live(&self) -> RequestId {
        let mut id = self.next_id;
        while self.live.iter().any(|request| request.id == id) {
            id = self.id_after(id);
        }
        id
    }

    /// "after 65535 comes R + 1; ID 0 is never issued"
    fn id_after(&self, id: RequestId) -> RequestId {
        if id == RequestId::LAST {
            first_id(self.r)
        } else {
            RequestId(id.0 + 1)
        }
    }
}
