//! Document 01's "Command payload: 0x80, TC, TID, SID, IID, RQID (2), CID, then 0 to 248 data bytes."

use crate::ids::RequestId;
use crate::message::on_the_line;

/// The first byte of every command.
const COMMAND: u8 = 0x80;

/// "0 to 248 data bytes"
pub const MOST_DATA: usize = 248;

/// The fields that a caller submits; RQID is the ledger's to give.
#[derive(Clone, Copy, Debug, PartialEq, Eq)]
pub struct Fields {
    /// target category
    pub tc: u8,
    /// target ID
    pub tid: u8,
    /// source ID
    pub sid: u8,
    /// instance ID
    pub iid: u8,
    /// command ID
    pub cid: u8,
}

impl Fields {
    /// "TID and SID swapped"
    pub fn swapped(self) -> Fields {
        Fields {
            tid: self.sid,
            sid: self.tid,
            ..self
        }
    }
}

/// A command as it stands in a payload.
#[derive(Clone, Copy, Debug, PartialEq, Eq)]
pub struct Command<'a> {
    pub fields: Fields,
    pub request_id: RequestId,
    pub data: &'a [u8],
}

impl<'a> Command<'a> {
    /// None where "LEN under 8 or first byte not 0x80".
    pub fn read(payload: &'a [u8]) -> Option<Self> {
        let &[COMMAND, tc, tid, sid, iid, low, high, cid, ref data @ ..] = payload else {
            return None;
        };
        Some(Command {
            fields: Fields { tc, tid, sid, iid, cid },
            request_id: RequestId(u16::from(low) + 256 * u16::from(high)),
            data,
        })
    }

    pub fn payload(&self) -> Vec<u8> {
        let Fields { tc, tid, sid, iid, cid } = self.fields;
        let [low, high] = on_the_line(self.request_id.0);
        [&[COMMAND, tc, tid, sid, iid, low, high, cid], self.data].concat()
    }
}

#[cfg(test)]
mod tests {
    use super::*;
    use crate::examples;

    /// The command of example 6: "TC 3, TID 1, SID 0, IID 1, CID 1, no data".
    const EXAMPLE_6: Command = Command {
        fields: Fields {
            tc: 3,
            tid: 1,
            sid: 0,
            iid: 1,
            cid: 1,
        },
        request_id: RequestId(39),
        data: &[],
    };

    #[test]
    fn example_6() {
        assert_eq!(EXAMPLE_6.payload(), examples::COMMAND);
        assert_eq!(Command::read(&examples::COMMAND), Some(EXAMPLE_6));
    }

    #[test]
    fn each_field_has_its_place() {
        let payload = [0x80, 1, 2, 3, 4, 5, 6, 7, 8, 9];
        let command = Command::read(&payload).unwrap();
        let fields = Fields {
            tc: 1,
            tid: 2,
            sid: 3,
            iid: 4,
            cid: 7,
        };
        let swapped = Fields {
            tid: 3,
            sid: 2,
            ..fields
        };
        assert_eq!((command.fields, command.request_id.0), (fields, 0x0605));
        assert_eq!(command.data, [8, 9]);
        assert_eq!(command.payload(), payload);
        assert_eq!(fields.swapped(), swapped);
    }

    #[test]
    fn not_a_command() {
        for payload in [&[][..], &[0x80; 7], &[0x81; 8], &[0x00; 256]] {
            assert_eq!(Command::read(payload), None);
        }
        assert!(Command::read(&[0x80; 8]).is_some());
    }
}
