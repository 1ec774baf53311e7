//! The program `session` with malformed scripts: it prints the answers before the fault, says what is wrong with which
//! line, and runs nothing more.

use compare::program::SESSION;

/// Four lines that are well formed, and what is printed for them.
const BEFORE: &str = "# a script\nopen 38\n\nsubmit 3 1 0 1 1 wanted 0 -\n";
const ANSWERS: &str = "opened\nsubmitted 39\n";

const MISSING: &str = "missing field";
const NUMBER: &str = "expected a number";
const ZERO: &str = "a number begins with 0";
const LARGE: &str = "number too large";
const WANTED: &str = "expected wanted or unwanted";
const PAIRS: &str = "expected lowercase hexadecimal pairs";
const AFTER: &str = "text after the last field";
const UNKNOWN: &str = "unknown call";

/// Lines, and what is wrong with each.
const LINES: [(&str, &str); 75] = [
    ("pole 0 266", UNKNOWN),
    ("Poll 0 266", UNKNOWN),
    ("poll\t0 266", UNKNOWN),
    ("polls 0 266", UNKNOWN),
    ("pol", UNKNOWN),
    (" poll 0 266", UNKNOWN),
    (" ", UNKNOWN),
    ("\r", UNKNOWN),
    (" # a comment begins its line", UNKNOWN),
    ("open 38", "a second open"),
    ("open 0", "a second open"),
    ("open", MISSING),
    ("open ", NUMBER),
    ("open x", NUMBER),
    ("open 18446744073709551616", LARGE),
    ("open 99999999999999999999999999", LARGE),
    ("open 1 1", AFTER),
    ("submit", MISSING),
    ("submit 1", MISSING),
    ("submit 1 2", MISSING),
    ("submit 1 2 3", MISSING),
    ("submit 1 2 3 4", MISSING),
    ("submit 1 2 3 4 5", MISSING),
    ("submit 1 2 3 4 5 wanted", MISSING),
    ("submit 1 2 3 4 5 wanted 0", MISSING),
    ("submit 256 2 3 4 5 wanted 0 -", LARGE),
    ("submit 1 256 3 4 5 wanted 0 -", LARGE),
    ("submit 1 2 256 4 5 wanted 0 -", LARGE),
    ("submit 1 2 3 1000 5 wanted 0 -", LARGE),
    ("submit 1 2 3 4 18446744073709551616 wanted 0 -", LARGE),
    ("submit 1 2 3 4 5 Wanted 0 -", WANTED),
    ("submit 1 2 3 4 5 yes 0 -", WANTED),
    ("submit 1 2 3 4 5  0 -", WANTED),
    ("submit 1 2 3 4 5 wante 0 -", WANTED),
    ("submit 1 2 3 4 5 wanted now -", NUMBER),
    ("submit 1 2 3 4 5 unwanted 18446744073709551616 -", LARGE),
    ("submit 1 2 3 4 5 wanted 0 ", PAIRS),
    ("submit 1 2 3 4 5 wanted 0 0", PAIRS),
    ("submit 1 2 3 4 5 wanted 0 000", PAIRS),
    ("submit 1 2 3 4 5 wanted 0 0G", PAIRS),
    ("submit 1 2 3 4 5 wanted 0 AA", PAIRS),
    ("submit 1 2 3 4 5 wanted 0 --", PAIRS),
    ("submit 1 2 3 4 5 wanted 0 -\r", PAIRS),
    ("submit 1 2 3 4 5 wanted 0 0:", PAIRS),
    ("submit 1 2 3 4 5 wanted 0 /0", PAIRS),
    ("submit 1 2 3 4 5 wanted 0 `0", PAIRS),
    ("submit 1 2 3 4 5 wanted 0 0g", PAIRS),
    ("submit 1 2 3 4 5 wanted 0 - -", AFTER),
    ("submit 1 2 3 4 5 wanted 0 00 00", AFTER),
    ("submit 1 2 3 4 5 wanted 0 - ", AFTER),
    ("receive", MISSING),
    ("receive 0", MISSING),
    ("receive 0 10", MISSING),
    ("receive 0 10 248", MISSING),
    ("receive 0 10 248 ", PAIRS),
    ("receive 0 10 248 aA", PAIRS),
    ("receive 0 4097 248 -", LARGE),
    ("receive 0 10 4097 -", LARGE),
    ("receive 0 10 248 -  ", AFTER),
    ("poll", MISSING),
    ("poll 0", MISSING),
    ("poll 0 ", NUMBER),
    ("poll  0 266", NUMBER),
    ("poll 0  266", NUMBER),
    ("poll 0 266 ", AFTER),
    ("poll 0 266\r", NUMBER),
    ("poll 0 4097", LARGE),
    ("poll -1 266", NUMBER),
    ("poll +1 266", NUMBER),
    ("poll 1: 266", NUMBER),
    ("poll 1/ 266", NUMBER),
    ("poll 0x1 266", NUMBER),
    ("poll 00 266", ZERO),
    ("poll 0 0266", ZERO),
    ("poll 0 266 # a comment begins its line", AFTER),
];

/// The answers before the fault on standard output, the fault's line and phrase on standard error.
fn fails(script: &[u8], answers: &str, line: usize, phrase: &str) {
    let output = SESSION.run_in_writes(script, 4_096);
    let [found, said] = [&output.stdout, &output.stderr].map(|text| String::from_utf8_lossy(text));
    let shown = String::from_utf8_lossy(&script[..script.len().min(300)]);
    assert!(output.status.success(), "{shown}: {}", output.status);
    assert_eq!(said, format!("session: line {line}: {phrase}\n"), "{shown}");
    assert_eq!(found, answers, "{shown}");
}

/// With well formed lines before the fault and a call behind it, and as the last line without its end.
fn fails_behind(line: &str, phrase: &str) {
    let script = format!("{BEFORE}{line}");
    fails(script.as_bytes(), ANSWERS, 5, phrase);
    fails(format!("{script}\npoll 0 266\n").as_bytes(), ANSWERS, 5, phrase);
}

#[test]
fn lines_of_another_form() {
    for (line, phrase) in LINES {
        fails_behind(line, phrase);
    }
    println!("compared: session, {} malformed lines are told", LINES.len());
}

#[test]
fn bytes_of_another_form() {
    for line in [&b"\0"[..], b"\xFF", b"poll\xA00 266"] {
        fails(&[BEFORE.as_bytes(), line, b"\n"].concat(), ANSWERS, 5, UNKNOWN);
    }
    fails(&[BEFORE.as_bytes(), b"poll 0 26\0\n"].concat(), ANSWERS, 5, NUMBER);
}

#[test]
fn too_many_bytes() {
    let bytes = "5a".repeat(4_097);
    fails_behind(&format!("receive 0 10 248 {bytes}"), "bytes over 4096");
    fails_behind(&format!("submit 1 2 3 4 5 wanted 0 {bytes}"), "bytes over 4096");
    fails_behind(&format!("submit 1 2 3 4 5 wanted 0 {bytes}5"), "bytes over 4096");
}

#[test]
fn lines_too_long() {
    const MOST: usize = 65_536;
    for length in [MOST + 1, MOST + 2, 2 * MOST, 300_000] {
        fails_behind(&format!("#{}", " ".repeat(length - 1)), "line too long");
        fails_behind(&"a".repeat(length), "line too long");
    }
    let longest = format!("#{}\n", "#".repeat(MOST - 1));
    fails(format!("{longest}{BEFORE}poll\n").as_bytes(), ANSWERS, 6, MISSING);
}

#[test]
fn calls_before_open() {
    for line in ["submit 3 1 0 1 1 wanted 0 -", "receive 0 10 248 -", "poll 0 266"] {
        for before in ["", "\n", "# open 38\n"] {
            let script = format!("{before}{line}\nopen 38\n");
            let number = before.lines().count() + 1;
            fails(script.as_bytes(), "", number, "the first call must be open");
        }
    }
}

#[test]
fn the_first_fault_alone_is_told() {
    let script = format!("{BEFORE}poll x 266\npole\nopen 38\n");
    fails(script.as_bytes(), ANSWERS, 5, NUMBER);
    fails(b"open 256\nopen 256\npole\n", "open refused 3\n", 2, "a second open");
}
