//! Generated captures for the lister, in groups of one kind.

mod cut;
mod damaged;
pub mod headers;
mod junk;
mod long;
pub mod nested;

use crate::Random;

/// Captures, and what they have in common.
pub struct Group {
    pub what: &'static str,
    pub captures: Vec<Vec<u8>>,
}

/// Some 3,700 captures.
pub fn groups(random: &mut Random) -> Vec<Group> {
    let group = |what, captures| Group { what, captures };
    vec![
        group("no bytes and each single byte", junk::single_bytes()),
        group("strings of AA, 55 and 00", junk::strings()),
        group("one byte or SYN repeated", junk::repeated()),
        group("junk without SYN", junk::without_syn(random)),
        group("junk rich in SYN", junk::rich_in_syn(random)),
        group("each field damaged", damaged::each_field(random, false)),
        group("each field damaged, checksums right", damaged::each_field(random, true)),
        group("every TYPE", damaged::every_type(random)),
        group("forbidden LEN", damaged::forbidden_len(random)),
        group("SYN inside payloads", damaged::syn_inside(random)),
        group("LEN 256 cut anywhere", cut::longest(random)),
        group("mixtures cut anywhere", cut::mixtures(random)),
        group("ends at or near SYN", cut::at_syn(random)),
        group("lengths around powers of two", cut::around_powers_of_two(random)),
        group("a message written over another", nested::written_over(random)),
        group("messages inside damaged ones", nested::inside(random)),
        group("headers that overlap", headers::overlapping(random)),
        group("SYN inside allowed headers", headers::allowed(random)),
        group("headers of LEN 256 in a row", headers::in_a_row(random)),
        group("64 KiB to 300 KiB", long::long(random)),
    ]
}
