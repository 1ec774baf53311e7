//! Lists the capture on standard input. A failure to read or to write is told on standard error.

use independent::listing::listing;
use std::io::{self, Read, Write};

fn main() -> io::Result<()> {
    let mut capture = Vec::new();
    io::stdin().read_to_end(&mut capture)?;
    io::stdout().write_all(listing([&capture[..]]).as_bytes())
}
