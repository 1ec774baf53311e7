//! The program `session` where it cannot read or cannot write, and scripts that end in an unusual way.

use compare::program::{file, SESSION};
use std::fs::File;
use std::process::Output;

fn said(output: &Output) -> String {
    String::from_utf8_lossy(&output.stderr).into_owned()
}

/// A short script and one whose answers are longer than a pipe holds, each in a file.
fn scripts(purpose: &str) -> [File; 2] {
    [1, 20_000].map(|polls| {
        let script = format!("open 38\n{}", "poll 0 266\n".repeat(polls));
        file(
            env!("CARGO_TARGET_TMPDIR"),
            &format!("{purpose}-{polls}.script"),
            script.as_bytes(),
        )
    })
}

#[test]
fn standard_input_cannot_be_read() {
    // a directory opens as a file does, and each read of it fails
    let directory = File::open(env!("CARGO_TARGET_TMPDIR")).expect("the directory opens");
    let output = SESSION.run(directory);
    assert_eq!(said(&output), "session: reading standard input failed\n");
    assert!(output.stdout.is_empty());
}

#[test]
fn standard_output_has_no_room() {
    for script in scripts("no-room") {
        let output = SESSION.run_without_room(script);
        assert_eq!(said(&output), "session: writing standard output failed\n");
    }
}

#[test]
fn standard_output_is_closed() {
    for script in scripts("closed") {
        let output = SESSION.run_with_closed_output(script);
        assert_eq!(said(&output), "session: writing standard output failed\n");
    }
}

#[test]
fn scripts_without_a_last_line_end() {
    for (script, answers) in [
        ("", ""),
        ("\n\n", ""),
        ("# nothing", ""),
        ("open 38", "opened\n"),
        ("open 38\npoll 0 266", "opened\nno-deadline\n"),
        ("open 38\npoll 0 266\n#", "opened\nno-deadline\n"),
    ] {
        let output = SESSION.run(file(env!("CARGO_TARGET_TMPDIR"), "ending.script", script.as_bytes()));
        assert_eq!(said(&output), "", "{script:?}");
        assert_eq!(String::from_utf8_lossy(&output.stdout), answers, "{script:?}");
    }
}
