//! Answers the script on standard input. A failure is told on standard error.

use std::io::{self, Read, Write};

fn main() -> io::Result<()> {
    let mut script = String::new();
    io::stdin().read_to_string(&mut script)?;
    match independent::session::answers(&script) {
        Ok(answers) => io::stdout().write_all(answers.as_bytes()),
        Err(line) => Err(io::Error::other(format!("line {line} is no call"))),
    }
}
