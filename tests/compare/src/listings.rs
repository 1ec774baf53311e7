//! What the program `lister` prints beside the independent listing, and a count of the lines met.

use independent::listing::listing;
use std::collections::BTreeSet;
use std::process::Output;

/// The words that an item's line begins with, in the order of a tally's counts.
const WORDS: [&str; 7] = ["ACK", "NAK", "SEQ", "NSQ", "BADHEAD", "BADBODY", "FORBIDDEN"];

/// How many listings of how many bytes were compared, how often each word was met, and which held counts.
#[derive(Default)]
pub struct Tally {
    listings: usize,
    bytes: usize,
    words: [usize; 7],
    held: BTreeSet<String>,
}

impl Tally {
    /// The program must have ended well, with nothing on standard error and with the independent listing byte for byte.
    pub fn agree(&mut self, capture: &[u8], output: &Output) {
        let wanted = listing([capture]);
        assert!(
            output.status.success() && output.stderr.is_empty() && output.stdout == wanted.as_bytes(),
            "{} bytes: {}, standard error {:?}, {}; they begin {:02x?}",
            capture.len(),
            output.status,
            String::from_utf8_lossy(&output.stderr),
            first_difference(&String::from_utf8_lossy(&output.stdout), &wanted),
            &capture[..capture.len().min(300)]
        );
        self.listings += 1;
        self.bytes += capture.len();
        wanted.lines().for_each(|line| self.count(line));
    }

    fn count(&mut self, line: &str) {
        if let Some(held) = line.strip_prefix("end ") {
            self.held.insert(held.to_string());
        }
        for (word, met) in WORDS.iter().zip(&mut self.words) {
            *met += usize::from(line.starts_with(word));
        }
    }

    /// Prints the counts. Each word must be met as often as is asked for, and so many different held counts.
    pub fn report(&self, what: &str, least: [usize; 7], least_held: usize) {
        let counts: Vec<String> = WORDS
            .iter()
            .zip(self.words)
            .map(|(word, met)| format!("{met} {word}"))
            .collect();
        println!(
            "compared: lister, {what}: {} listings of {} bytes agree: {}, {} held counts",
            self.listings,
            self.bytes,
            counts.join(", "),
            self.held.len()
        );
        for (word, (met, least)) in WORDS.iter().zip(self.words.into_iter().zip(least)) {
            assert!(
                met >= least,
                "{what}: {word} was met {met} times and should be {least} times"
            );
        }
        assert!(self.held.len() >= least_held, "{what}: too few held counts were met");
    }
}

/// Says where the two listings part.
fn first_difference(found: &str, wanted: &str) -> String {
    let [found, wanted] = [found, wanted].map(|text| text.split('\n').collect::<Vec<_>>());
    let same = found
        .iter()
        .zip(&wanted)
        .take_while(|(found, wanted)| found == wanted)
        .count();
    format!("line {same} is {:?}, wanted {:?}", found.get(same), wanted.get(same))
}
