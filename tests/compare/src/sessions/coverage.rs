//! What was met, read off the answers alone.

use crate::scene::Scene;
use std::collections::BTreeMap;

/// All that has to be met at least once. Refusal 1 can't be: no script makes an endpoint malformed.
const WANTED: [&str; 43] = [
    "open: opened",
    "open: refused 3",
    "submit: submitted",
    "submit: an ID that begins again behind 65535",
    "submit: refused 2",
    "submit: refused 4",
    "submit: refused 5",
    "receive: more",
    "receive: damaged-header",
    "receive: forbidden",
    "receive: damaged-payload",
    "receive: message ACK",
    "receive: message NAK",
    "receive: message DATA_SEQ",
    "receive: message DATA_NSQ",
    "receive: an item of held bytes alone",
    "receive: refused 2",
    "receive: refused 6",
    "word: none",
    "word: stray",
    "word: repeat",
    "word: not-a-command",
    "word: event",
    "word: response",
    "word: unmatched",
    "reply: none",
    "reply: ACK",
    "reply: NAK",
    "data: none of an event or a response",
    "data: 248 bytes",
    "receive: ended acknowledged",
    "receive: ended response",
    "receive: no-ending",
    "poll: ended no-response",
    "poll: ended no-acknowledgement",
    "poll: sent first",
    "poll: sent again, transmission 2",
    "poll: sent again, transmission 3",
    "poll: sent, 266 bytes",
    "poll: quiet",
    "poll: no-deadline",
    "poll: refused 2",
    "poll: refused 6",
];

#[derive(Default)]
pub struct Coverage {
    calls: usize,
    counts: BTreeMap<String, usize>,
    /// The frame that was sent last, how often, and the ID that was issued last.
    frame: String,
    transmissions: usize,
    issued: u16,
}

impl Coverage {
    /// Every answer of a script. An endpoint's frames are told apart by their SEQ, so equal ones are one sent again.
    pub fn script(&mut self, scene: &Scene) {
        (self.frame, self.transmissions, self.issued) = (String::new(), 0, 0);
        for line in &scene.lines {
            self.calls += 1;
            let (call, _) = halves(&line.call, " ");
            if let Some((_, number)) = line.answer.split_once(" refused ") {
                self.count(&format!("{call}: refused {number}"));
                continue;
            }
            match call {
                "open" => self.count(&format!("open: {}", line.answer)),
                "submit" => self.submitted(&line.answer),
                "receive" => self.received(&line.answer),
                _ => self.polled(&line.answer),
            }
        }
    }

    fn count(&mut self, what: &str) {
        match self.counts.get_mut(what) {
            Some(count) => *count += 1,
            None => drop(self.counts.insert(String::from(what), 1)),
        }
    }

    /// `submitted ID`
    fn submitted(&mut self, answer: &str) {
        let (word, id) = halves(answer, " ");
        let id = id.parse().expect("an ID");
        self.count(&format!("submit: {word}"));
        if id < self.issued {
            self.count("submit: an ID that begins again behind 65535");
        }
        self.issued = id;
    }

    /// `received ITEM WORD taken N reply LEN HEX data LEN HEX ENDING`
    fn received(&mut self, answer: &str) {
        let (found, rest) = halves(answer, " taken ");
        let (taken, rest) = halves(rest, " reply ");
        let (reply, rest) = halves(rest, " data ");
        let (length, rest) = halves(rest, " ");
        let (_, ending) = halves(rest, " ");
        let word = self.item_and_word(found);
        if taken == "0" && !found.starts_with("received more") {
            self.count("receive: an item of held bytes alone");
        }
        self.count(match reply.get(..9) {
            Some("10 aa5540") => "reply: ACK",
            Some("10 aa5504") => "reply: NAK",
            _ => "reply: none",
        });
        match (word, length) {
            ("event" | "response", "0") => self.count("data: none of an event or a response"),
            (_, "248") => self.count("data: 248 bytes"),
            _ => {}
        }
        self.ending("receive", ending);
    }

    /// `received ITEM WORD`; the word is answered.
    fn item_and_word<'a>(&mut self, found: &'a str) -> &'a str {
        let words: Vec<&str> = found.split(' ').collect();
        let (item, word) = match words[..] {
            [_, "message", kind, _, _, word, ..] => (kind_name(kind), word),
            [_, item, word] => (item, word),
            _ => panic!("an answer of no known form: {found}"),
        };
        self.count(&format!("receive: {item}"));
        self.count(&format!("word: {word}"));
        word
    }

    /// `ended ID CAUSE`, or a word for none.
    fn ending(&mut self, call: &str, ending: &str) {
        match ending.split(' ').collect::<Vec<_>>()[..] {
            [ended, _, cause] => self.count(&format!("{call}: {ended} {cause}")),
            _ => self.count(&format!("{call}: {ending}")),
        }
    }

    /// `sent LEN HEX`, `ended ID CAUSE`, `quiet MS` or `no-deadline`
    fn polled(&mut self, answer: &str) {
        if answer.starts_with("quiet ") {
            return self.count("poll: quiet");
        }
        let Some(frame) = answer.strip_prefix("sent ") else {
            return self.ending("poll", answer);
        };
        self.transmissions = if frame == self.frame { self.transmissions + 1 } else { 1 };
        self.frame = String::from(frame);
        match self.transmissions {
            1 => self.count("poll: sent first"),
            number => self.count(&format!("poll: sent again, transmission {number}")),
        }
        if frame.starts_with("266 ") {
            self.count("poll: sent, 266 bytes");
        }
    }

    /// Prints the counts, and asks that each was met and nothing else was.
    pub fn report(&self, what: &str) {
        let counts = self.counts.iter().map(|(name, count)| format!("    {name}: {count}"));
        let counts = counts.collect::<Vec<_>>().join("\n");
        println!("compared: session, {what}: {} calls agree\n{counts}", self.calls);
        for name in WANTED {
            assert!(self.counts.contains_key(name), "never met: {name}");
        }
        for name in self.counts.keys() {
            assert!(WANTED.contains(&&name[..]), "not expected: {name}");
        }
    }
}

fn kind_name(kind: &str) -> &str {
    match kind {
        "64" => "message ACK",
        "4" => "message NAK",
        "128" => "message DATA_SEQ",
        "0" => "message DATA_NSQ",
        _ => kind,
    }
}

/// What stands before and after the mark.
fn halves<'a>(text: &'a str, mark: &str) -> (&'a str, &'a str) {
    text.split_once(mark).unwrap_or_else(|| panic!("no{mark}in {text}"))
}
