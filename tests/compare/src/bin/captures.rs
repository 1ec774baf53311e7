//! Writes a stored capture to standard output; its name is the only argument.

use compare::stored::capture;
use std::io::{self, Write};

fn main() -> io::Result<()> {
    let name = std::env::args().nth(1).unwrap_or_default();
    let Some(bytes) = capture(&name) else {
        return Err(io::Error::other("the captures are document-01, long and sample"));
    };
    io::stdout().write_all(&bytes)?;
    io::stdout().flush()
}
