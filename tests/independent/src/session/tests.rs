//! Scripts with what is printed written out, document 01's examples among them, and the text of calls there and back.

use super::script::{step, text};
use super::*;
use crate::ledger::lists::List;
use crate::random::Random;

/// Both have a call a line.
fn prints(script: &str, wanted: &str) {
    assert_eq!(answers(script), Ok(String::from(wanted)), "{script}");
}

#[test]
fn examples_6_and_10() {
    prints(
        "# \"Accepted at 0, polls at 0, 0, 999, 1000, 2000, 3000\"\n\nopen 38\nsubmit 3 1 0 1 1 wanted 0 -\n\
         poll 0 266\npoll 0 266\npoll 999 266\npoll 1000 266\npoll 2000 266\npoll 3000 266\npoll 3000 266\n",
        "opened\nsubmitted 39\n\
         sent 18 aa558008000059f080030100012700015e34\nquiet 1000\nquiet 1\n\
         sent 18 aa558008000059f080030100012700015e34\nsent 18 aa558008000059f080030100012700015e34\n\
         ended 39 no-acknowledgement\nno-deadline\n",
    );
}

#[test]
fn examples_7_to_9() {
    prints(
        "open 38\nreceive 0 10 248 00aaaa55400000005ceaffff\n",
        "opened\nreceived message 64 0 0 stray taken 12 reply 0 - data 0 - no-ending\n",
    );
    prints(
        "open 38\nreceive 0 10 248 aa55400000005ceaff\nreceive 0 10 248 ff\n",
        "opened\nreceived more none taken 9 reply 0 - data 0 - no-ending\n\
         received message 64 0 0 stray taken 1 reply 0 - data 0 - no-ending\n",
    );
    prints(
        "open 38\nreceive 0 12 250 aa55400000005ceafffe\nreceive 0 10 248 -\n",
        "opened\nreceived damaged-payload none taken 10 reply 10 aa5504000000314effff data 0 - no-ending\n\
         received more none taken 0 reply 0 - data 0 - no-ending\n",
    );
}

#[test]
fn examples_13_and_14() {
    let data = "00".repeat(249);
    prints(
        &format!(
            "open 256\nsubmit 0 0 0 0 0 unwanted 7 -\nsubmit 0 0 0 0 0 wanted 7 ff\nsubmit 255 0 0 0 0 wanted 7 0102\n\
             submit 0 0 0 0 0 wanted 7 -\nsubmit 0 0 0 0 0 wanted 7 {data}\nsubmit 0 0 0 0 0 wanted 6 {data}\n\
             poll 7 265\nreceive 7 9 248 -\nreceive 7 10 247 -\n"
        ),
        "open refused 3\nsubmitted 1\nsubmitted 2\nsubmitted 3\nsubmit refused 5\nsubmit refused 4\nsubmit refused 2\n\
         poll refused 6\nreceive refused 6\nreceive refused 6\n",
    );
}

#[test]
fn words_and_endings() {
    // R = 38, request 39: TC 3, TID 1, SID 0, IID 1, CID 1. First TID and SID are not swapped.
    prints(
        "open 38\nsubmit 3 1 0 1 1 wanted 5 -\npoll 5 266\nreceive 5 10 248 aa55400000005ceaffff\npoll 5 266\n\
         receive 6 10 248 aa55800900078eb7800301000127000199473a\n\
         receive 6 10 248 aa55800900078eb7800301000127000199473a\n\
         receive 6 11 249 aa5580090008614680030001012700019986c7\n\
         receive 6 11 249 aa55000a000809c28003000101260002abcdbcb7\n\
         receive 6 11 249 aa5580080009706181030001012600022f9b\n\
         receive 6 11 249 aa5540010009454c00f0e1\n",
        "opened\nsubmitted 39\nsent 18 aa558008000059f080030100012700015e34\n\
         received message 64 0 0 none taken 10 reply 0 - data 0 - no-ending\nquiet 3000\n\
         received message 128 7 9 unmatched 3 1 0 1 1 39 1 taken 19 reply 10 aa5540000007bb9affff data 0 - no-ending\n\
         received message 128 7 9 repeat taken 19 reply 10 aa5540000007bb9affff data 0 - no-ending\n\
         received message 128 8 9 response 3 0 1 1 1 39 1 taken 19 reply 10 aa5540000008546bffff data 1 99 \
         ended 39 response\n\
         received message 0 8 10 event 3 0 1 1 2 38 2 taken 20 reply 0 - data 2 abcd no-ending\n\
         received message 128 9 8 not-a-command taken 18 reply 10 aa5540000009757bffff data 0 - no-ending\n\
         received forbidden none taken 8 reply 0 - data 0 - no-ending\n",
    );
}

#[test]
fn calls_in_their_place() {
    for (script, line) in [
        ("poll 0 266\n", 1),
        ("open 1\n# again\nopen 1", 3),
        ("open 1\n\npole 0 266\n", 3),
    ] {
        assert_eq!(answers(script), Err(line), "{script}");
    }
}

#[test]
fn calls_there_and_back() {
    for number in 0..50 {
        let mut list = List::new(Random::numbered(1, number), number % 2 == 0);
        let (_, mut ledger) = Ledger::open(number);
        for _ in 0..50 {
            let call = list.next_call(&ledger);
            list.observe(&call, &ledger.call(&call));
            let there = Step::Call(filled(call));
            assert_eq!(step(&text(&there)).as_ref(), Some(&there));
        }
    }
}
