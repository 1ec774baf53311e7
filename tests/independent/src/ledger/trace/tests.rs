//! Lists made by hand: the trace accepts the right ones and finds each wrong one.

use super::*;
use crate::command::{Command, Fields};
use crate::ledger::answers::{Incoming, Item, Polled, Received, Word};
use crate::message::{Message, ACK, DATA_NSQ, DATA_SEQ};

mod cuts;
mod rest;

type Step = (Call, Outcome);

const FIELDS: Fields = Fields {
    tc: 1,
    tid: 2,
    sid: 3,
    iid: 4,
    cid: 5,
};

fn submit(id: u16, wanted: bool, clock: u64) -> Step {
    let call = Call::Submit {
        fields: FIELDS,
        data: vec![6],
        wanted,
        clock,
    };
    (call, Outcome::Submit(Ok(RequestId(id))))
}

fn poll(answer: Result<Polled, u8>, front: &[u8], clock: u64) -> Step {
    let mut output = vec![0; 266];
    let call = Call::Poll {
        output: output.clone(),
        clock,
    };
    output[..front.len()].copy_from_slice(front);
    (call, Outcome::Poll { answer, output })
}

fn frame(seq: u8, id: u16, data: &[u8]) -> Vec<u8> {
    let command = Command {
        fields: FIELDS,
        request_id: RequestId(id),
        data,
    };
    Message::new(DATA_SEQ, seq, &command.payload()).bytes()
}

fn sent(seq: u8, id: u16, clock: u64) -> Step {
    let frame = frame(seq, id, &[6]);
    poll(Ok(Polled::Sent(frame.len())), &frame, clock)
}

/// A poll that ends a request.
fn ended(id: u16, cause: Cause, clock: u64) -> Step {
    let request_id = RequestId(id);
    poll(Ok(Polled::Ended(Ending { request_id, cause })), &[], clock)
}

/// A receive with buffers that stay as they are.
fn receive(kind: u8, seq: u8, word: Option<Word>, ending: Option<(u16, Cause)>, clock: u64) -> Step {
    let (reply, data) = (vec![0; 10], vec![0; 248]);
    let call = Call::Receive {
        new: vec![],
        reply: reply.clone(),
        data: data.clone(),
        clock,
    };
    let answer = Ok(Received {
        item: Item::Message {
            kind,
            seq: Seq(seq),
            len: 0,
        },
        word,
        taken: 0,
        reply_length: 0,
        ending: ending.map(|(id, cause)| Ending {
            request_id: RequestId(id),
            cause,
        }),
    });
    (call, Outcome::Receive { answer, reply, data })
}

/// An ACK that ends a request.
fn acknowledged(id: u16, seq: u8, clock: u64) -> Step {
    receive(ACK, seq, None, Some((id, Cause::Acknowledged)), clock)
}

fn incoming(fields: Fields, id: u16) -> Incoming {
    Incoming {
        fields,
        request_id: RequestId(id),
        data_length: 0,
    }
}

/// A response to a request of these tests, which ends it.
fn responded(id: u16, clock: u64) -> Step {
    let word = Word::Response(incoming(FIELDS.swapped(), id));
    receive(DATA_NSQ, 0, Some(word), Some((id, Cause::Response)), clock)
}

fn quiet(time: Option<u64>, clock: u64) -> Step {
    poll(Ok(Polled::Quiet(time)), &[], clock)
}

/// The list with R = 38, every clause being fulfilled.
fn recorded(steps: &[Step]) -> Trace {
    let mut trace = Trace::new(38, 3);
    for (call, outcome) in steps {
        trace.record(call, outcome).expect("a right call");
    }
    trace
}

/// What the last call's clauses say, those before it being fulfilled.
fn last(steps: &[Step]) -> Clause {
    let (last, before) = steps.split_last().expect("a list");
    recorded(before).record(&last.0, &last.1)
}

fn found(words: &str, steps: &[Step]) {
    let failure = last(steps).expect_err(words);
    assert!(failure.contains(words), "{failure}");
}

#[test]
fn a_right_list() {
    let list = [
        submit(39, true, 0),
        submit(40, false, 0),
        sent(0, 39, 0),
        sent(0, 39, 1_000),
        responded(39, 1_500),
        sent(1, 40, 1_500),
        // an ID that is free again: what follows belongs to the last request with it
        submit(39, true, 1_500),
        acknowledged(40, 1, 1_500),
        sent(2, 39, 1_500),
        sent(2, 39, 2_500),
        sent(2, 39, 3_500),
        ended(39, Cause::NoAcknowledgement, 4_500),
    ];
    assert_eq!(last(&list), Ok(()));
}

#[test]
fn endings() {
    found("names no request", &[submit(39, true, 0), responded(40, 0)]);
    let right = [submit(39, true, 0), sent(0, 39, 0), responded(39, 0)];
    assert_eq!(last(&right), Ok(()));
    let second = ended(39, Cause::NoResponse, 0);
    found("a second", &[&right[..], &[second]].concat());
    let wrong = [
        (true, acknowledged(39, 0, 0)),
        (false, responded(39, 0)),
        (false, ended(39, Cause::NoResponse, 0)),
        (true, ended(39, Cause::NoAcknowledgement, 0)),
    ];
    for (wanted, ending) in wrong {
        found("after 1 frames", &[submit(39, wanted, 0), sent(0, 39, 0), ending]);
    }
    found("after 0 frames", &[submit(39, true, 0), responded(39, 0)]);
}

#[test]
fn endings_and_what_brings_them() {
    let list = |wanted: bool, step: Step| [submit(39, wanted, 0), sent(0, 39, 0), step];
    assert_eq!(last(&list(false, acknowledged(39, 0, 0))), Ok(()));
    found("by this call", &list(false, acknowledged(39, 1, 0)));
    found("by this call", &list(false, ended(39, Cause::Acknowledged, 0)));
    found("by this call", &list(true, ended(39, Cause::Response, 0)));
    let end = |cause: Cause| Some((39, cause));
    let unheard = receive(ACK, 0, None, end(Cause::NoResponse), 0);
    found("by this call", &list(true, unheard));
    for (fields, id) in [(FIELDS, 39), (FIELDS.swapped(), 40)] {
        let word = Some(Word::Response(incoming(fields, id)));
        let step = receive(DATA_NSQ, 0, word, end(Cause::Response), 0);
        found("by this call", &list(true, step));
    }
    let word = Word::Response(incoming(FIELDS.swapped(), 39));
    found(
        "word and ending",
        &list(true, receive(DATA_NSQ, 0, Some(word), None, 0)),
    );
    let word = Word::Unmatched(incoming(FIELDS.swapped(), 39));
    let step = receive(DATA_NSQ, 0, Some(word), end(Cause::Response), 0);
    found("word and ending", &list(true, step));
}

#[test]
fn words() {
    let step = |kind: u8, word: Word| receive(kind, 7, Some(word), None, 0);
    let event = |id: u16| Word::Event(incoming(FIELDS, id));
    for word in [
        event(1),
        event(38),
        Word::Unmatched(incoming(FIELDS, 0)),
        Word::NotACommand,
    ] {
        assert_eq!(last(&[step(DATA_NSQ, word)]), Ok(()));
    }
    for word in [
        event(0),
        event(39),
        Word::Unmatched(incoming(FIELDS, 38)),
        Word::Repeat,
        Word::Stray,
    ] {
        found("another word", &[step(DATA_NSQ, word)]);
    }
    for word in [event(1), Word::NotACommand, Word::Repeat] {
        found("another word", &[step(ACK, word)]);
    }
    found("another word", &[receive(DATA_NSQ, 7, None, None, 0)]);
    assert_eq!(last(&[step(ACK, Word::Stray)]), Ok(()));
}

#[test]
fn repeats() {
    let step = |seq: u8, word: Word| {
        let (call, mut outcome) = receive(DATA_SEQ, seq, Some(word), None, 0);
        if let Outcome::Receive {
            answer: Ok(received),
            reply,
            ..
        } = &mut outcome
        {
            received.reply_length = 10;
            *reply = Message::new(ACK, seq, &[]).bytes();
        }
        (call, outcome)
    };
    let not = Word::NotACommand;
    let list = [step(7, not), step(7, Word::Repeat), step(8, not), step(7, not)];
    assert_eq!(last(&list), Ok(()));
    found("another word", &[step(7, not), step(7, not)]);
    found("another word", &[step(7, not), step(8, Word::Repeat)]);
    found("another word", &[step(0, Word::Repeat)]);
}

#[test]
fn frames() {
    let (first, second) = (submit(39, true, 0), submit(40, true, 0));
    let list = |step: Step| [first.clone(), second.clone(), sent(0, 39, 0), step];
    assert_eq!(last(&list(sent(0, 39, 0))), Ok(()));
    found("names no request", &list(sent(0, 41, 0)));
    found("another frame", &list(sent(1, 39, 0)));
    found("not the next", &list(sent(0, 40, 0)));
    found("not the next", &[first.clone(), second.clone(), sent(0, 40, 0)]);
    let other = frame(0, 39, &[7]);
    let length = Ok(Polled::Sent(other.len()));
    found("not the command", &[first.clone(), poll(length, &other, 0)]);
    let after = [&list(responded(39, 0))[..], &[sent(0, 39, 0)]].concat();
    found("a frame after the ending", &after);
    let three = [&list(sent(0, 39, 0))[..], &[sent(0, 39, 0)]].concat();
    assert_eq!(last(&three), Ok(()));
    found("a fourth frame", &[&three[..], &[sent(0, 39, 0)]].concat());
}

#[test]
fn live_ids() {
    found("reserved", &[submit(38, true, 0)]);
    found("reserved", &[submit(0, true, 0)]);
    found(
        "equal",
        &[submit(39, true, 0), submit(40, true, 0), submit(39, true, 0)],
    );
    let three = [39, 40, 41].map(|id| submit(id, true, 0));
    assert_eq!(last(&three), Ok(()));
    found("should be Some(5)", &[&three[..], &[submit(42, true, 0)]].concat());
}

#[test]
fn refusals() {
    found("should be None", &[poll(Err(6), &[], 0)]);
    found("should be Some(2)", &[quiet(None, 5), quiet(None, 4)]);
    found("should be Some(2)", &[quiet(None, 5), poll(Err(6), &[], 4)]);
    assert_eq!(last(&[quiet(None, 5), poll(Err(2), &[], 4)]), Ok(()));
    // a refused reading is not the last accepted one
    assert_eq!(last(&[quiet(None, 5), poll(Err(2), &[], 4), quiet(None, 5)]), Ok(()));
}

/// A receive of nothing that answers *more* with this reply length, and the buffers after it.
fn more(reply_length: usize, reply: [u8; 10], data: [u8; 248]) -> Step {
    let call = Call::Receive {
        new: vec![],
        reply: vec![0; 10],
        data: vec![0; 248],
        clock: 0,
    };
    let answer = Ok(Received {
        item: Item::More,
        word: None,
        taken: 0,
        reply_length,
        ending: None,
    });
    let (reply, data) = (reply.to_vec(), data.to_vec());
    (call, Outcome::Receive { answer, reply, data })
}

#[test]
fn buffers() {
    assert_eq!(last(&[more(0, [0; 10], [0; 248])]), Ok(()));
    found("reply changed", &[more(0, [1; 10], [0; 248])]);
    found("data changed", &[more(0, [0; 10], [1; 248])]);
    found("a reply of 10", &[more(10, [0; 10], [0; 248])]);
    found("output changed", &[poll(Ok(Polled::Quiet(None)), &[1], 0)]);
    found("output changed", &[poll(Err(2), &[1], 0)]);
}

/// A request accepted at the first reading, then these quiet polls; the last call's clauses, and whether the list keeps
/// the rule for the clock.
fn waited(polls: &[(u64, u64)]) -> (Clause, bool) {
    let mut trace = Trace::new(38, 3);
    let (call, outcome) = submit(39, true, polls[0].1);
    let mut clauses = trace.record(&call, &outcome);
    for (time, clock) in polls {
        assert_eq!(clauses, Ok(()));
        let (call, outcome) = quiet(Some(*time), *clock);
        clauses = trace.record(&call, &outcome);
    }
    (clauses, trace.keeps_the_clock_rule())
}

#[test]
fn the_rule_for_the_clock() {
    let last = u64::MAX;
    assert_eq!(waited(&[(1_000, 70)]), (Ok(()), true));
    assert_eq!(waited(&[(1_000, 70), (1, 1_070), (9, 1_071)]), (Ok(()), true));
    assert_eq!(waited(&[(1_000, 70), (1, 70), (9, 72)]), (Ok(()), false));
    assert_eq!(waited(&[(1_000, 70), (1, 1_071)]), (Ok(()), false));
    assert_eq!(waited(&[(1_000, last - 5), (995, last)]), (Ok(()), true));
    let mut rule = ClockRule::default();
    let mut kept = |(call, outcome): Step| {
        rule.record(&call, &outcome);
        rule.kept
    };
    // *no deadline* leaves all later readings free; what is no quiet poll leaves none
    assert!(kept(quiet(None, 5)) && kept(submit(39, true, 90_000)) && kept(sent(0, 39, 90_000)));
    assert!(kept(quiet(Some(1_000), 90_000)) && kept(submit(40, true, 91_000)));
    assert!(!kept(quiet(Some(1_000), 91_001)));
}

#[test]
fn quiet_times() {
    for time in [Some(1), Some(3_000)] {
        assert_eq!(last(&[submit(39, true, 0), quiet(time, 0)]), Ok(()));
        found("with 0 live", &[quiet(time, 0)]);
    }
    for time in [None, Some(0), Some(3_001)] {
        found("with 1 live", &[submit(39, true, 0), quiet(time, 0)]);
    }
}

#[test]
fn the_bound() {
    let list = |readings: &[(u64, u64)]| {
        let before = [(3_000, 10), (3_000, 3_010), (3_000, 6_010), (3_000, 9_010)];
        waited(&[&before[..], readings].concat())
    };
    assert_eq!(list(&[(3_000, 12_009)]), (Ok(()), true));
    let failure = list(&[(3_000, 12_010)]).0.expect_err("live at the bound");
    assert!(failure.contains("quiet at 12010"), "{failure}");
    let failure = list(&[(3_000, 12_009), (3_000, 12_011)]).0.expect_err("live after it");
    assert!(failure.contains("still live at 12011"), "{failure}");
    // without the rule there is no bound
    assert_eq!(waited(&[(1, 10), (3_000, 12_010), (3_000, 99_999)]), (Ok(()), false));
}

#[test]
fn the_bound_does_not_wrap() {
    let polls = [(3_000, u64::MAX - 5), (3_000, u64::MAX)];
    assert_eq!(waited(&polls), (Ok(()), true));
}
