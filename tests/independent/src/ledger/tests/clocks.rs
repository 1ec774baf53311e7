//! "Clocks are 64-bit milliseconds", up to the last of them, and the bound at its tightest.

use crate::ids::Seq;
use crate::ledger::answers::{Cause, Polled};
use crate::ledger::bench::{ack, ending, Bench};
use crate::ledger::refusals::CLOCK_BELOW;
use crate::ledger::request::State;

const LAST: u64 = u64::MAX;

#[test]
fn the_last_reading_is_a_reading_as_any_other() {
    let mut bench = Bench::opened(38);
    let (_, Seq(seq)) = bench.sent(true, LAST);
    assert_eq!(bench.poll(LAST), Polled::Quiet(Some(1_000)));
    bench.hear(&ack(seq), LAST);
    assert_eq!(bench.ledger.live[0].state, State::Waiting { since: LAST });
    assert_eq!(bench.poll(LAST), Polled::Quiet(Some(3_000)));
    assert_eq!(bench.ledger.poll(&mut bench.output, LAST - 1), Err(CLOCK_BELOW));
}

#[test]
fn deadlines_beyond_the_last_reading() {
    let mut bench = Bench::opened(38);
    bench.waiting(LAST - 2_000);
    assert_eq!(bench.poll(LAST - 2_000), Polled::Quiet(Some(3_000)));
    assert_eq!(bench.poll(LAST), Polled::Quiet(Some(1_000)));
    bench.sent(true, LAST);
    assert_eq!(bench.poll(LAST), Polled::Quiet(Some(1_000)));
}

#[test]
fn from_the_first_reading_to_the_last() {
    let mut bench = Bench::opened(38);
    let waits = bench.waiting(0);
    bench.sent(false, 0);
    let wanted = Polled::Ended(ending(waits, Cause::NoResponse));
    assert_eq!(bench.poll(LAST), wanted);
    assert_eq!(bench.poll(LAST), Polled::Sent(18));
    assert_eq!(bench.poll(LAST), Polled::Quiet(Some(1_000)));
}

#[test]
fn times_of_more_than_16_and_32_bits() {
    for clock in [1 << 16, 1 << 32, 1 << 63] {
        let mut bench = Bench::opened(38);
        let waits = bench.waiting(0);
        bench.sent(false, 0);
        let wanted = Polled::Ended(ending(waits, Cause::NoResponse));
        assert_eq!([bench.poll(clock), bench.poll(clock)], [wanted, Polled::Sent(18)]);
        assert_eq!(bench.poll(clock + 1), Polled::Quiet(Some(999)));
    }
}

#[test]
fn equal_readings_are_accepted_and_set_the_clock() {
    let mut bench = Bench::opened(38);
    bench.submit(false, 70);
    bench.submit(false, 70);
    bench.receive(&[], 71);
    assert_eq!(bench.ledger.clock, 71);
    bench.poll(72);
    assert_eq!(bench.ledger.clock, 72);
}

#[test]
fn the_bound_is_reached_and_not_passed() {
    // all three accepted at T; two are never acknowledged, the third at the last moment, and has no response
    const T: u64 = 500;
    let mut bench = Bench::opened(38);
    let ids = [T; 3].map(|clock| bench.submit(true, clock));
    let mut clock = T;
    for id in ids {
        for _ in 0..3 {
            bench.frame(clock);
            assert_eq!(bench.poll(clock), Polled::Quiet(Some(1_000)));
            clock += 1_000;
        }
        if id != ids[2] {
            let wanted = Polled::Ended(ending(id, Cause::NoAcknowledgement));
            assert_eq!(bench.poll(clock), wanted);
        }
    }
    bench.hear(&ack(2), clock);
    assert_eq!(bench.poll(clock), Polled::Quiet(Some(3_000)));
    assert_eq!(clock, T + 9_000);
    assert_eq!(bench.poll(T + 11_999), Polled::Quiet(Some(1)));
    let wanted = Polled::Ended(ending(ids[2], Cause::NoResponse));
    assert_eq!(bench.poll(T + 12_000), wanted);
}
