//! Polling comes to rest: rows of polls.

use super::*;

/// Refused: its reading is below the others.
fn refused() -> Step {
    poll(Err(2), &[], 0)
}

#[test]
fn no_fourth_busy_poll_at_one_reading() {
    let frame = || sent(0, 39, 5);
    let end = |clock: u64| ended(39, Cause::NoAcknowledgement, clock);
    let three = [39, 40, 41].map(|id| submit(id, true, 5));
    let row = |steps: &[Step]| [&three[..], steps].concat();
    let busy = row(&[frame(), frame(), frame()]);
    assert_eq!((last(&busy), recorded(&busy).busy_rows), (Ok(()), 1));
    found("4 busy polls in a row at 5", &[&busy[..], &[end(5)]].concat());
    // a refused call does not stand between
    found(
        "4 busy polls in a row at 5",
        &[&busy[..], &[refused(), end(5)]].concat(),
    );
    let unheard = |id: u16| ended(id, Cause::NoResponse, 5);
    let endings = row(&[frame(), unheard(39), sent(1, 40, 5), unheard(40)]);
    found("4 busy polls in a row at 5", &endings);
    // a quiet poll, another call or a later reading begins again
    let stray = receive(ACK, 9, Some(Word::Stray), None, 5);
    for between in [quiet(Some(1), 5), stray] {
        assert_eq!(last(&[&busy[..], &[between, end(5)]].concat()), Ok(()));
    }
    assert_eq!(last(&[&busy[..], &[end(6)]].concat()), Ok(()));
}

/// Requests at 10, the first one's frame, and quiet polls by the rule for the clock up to their bound, 12,010; then these.
fn at_the_bound(ids: &[u16], steps: &[Step]) -> Vec<Step> {
    let submits: Vec<Step> = ids.iter().map(|id| submit(*id, true, 10)).collect();
    let times = [10, 3_010, 6_010, 9_010];
    let before = times.map(|clock| quiet(Some(3_000), clock));
    [&submits[..], &[sent(0, 39, 10)], &before, steps].concat()
}

#[test]
fn four_polls_at_the_bound() {
    let frame = || sent(0, 39, 12_010);
    let end = || ended(39, Cause::NoAcknowledgement, 12_010);
    let right = at_the_bound(&[39], &[frame(), frame(), end(), quiet(None, 12_010)]);
    assert_eq!((last(&right), recorded(&right).polled_out), (Ok(()), 1));
    // with the first poll before the bound, three came
    let three = at_the_bound(&[39, 40], &[quiet(Some(1), 12_009), frame(), frame(), end()]);
    assert_eq!((last(&three), recorded(&three).polled_out), (Ok(()), 0));
    for fourth in [sent(1, 40, 12_010), quiet(Some(1_000), 12_010)] {
        let row = [frame(), frame(), refused(), end(), fourth];
        found("polls in a row from 12010", &at_the_bound(&[39, 40], &row));
    }
}

#[test]
fn four_polls_without_the_rule() {
    let list = [
        submit(39, true, 10),
        sent(0, 39, 12_010),
        sent(0, 39, 12_010),
        sent(0, 39, 12_010),
        quiet(Some(1_000), 12_010),
    ];
    assert_eq!((last(&list), recorded(&list).polled_out), (Ok(()), 0));
}
