//! The proved functions beside Rust ones of this folder, on 1 MiB each, an endpoint's calls, audits of rows, and the
//! program `lister` on 64 MiB.

mod audit;
mod checksum;
mod contest;
mod host;
mod input;
mod line;
mod lister;
mod memory;
mod reader;

use contest::contest;

const LENGTH: usize = 1 << 20;

fn main() -> std::io::Result<()> {
    let lister = lister::report()?;
    checksums();
    readers();
    lines();
    host::report();
    audit::report();
    println!("{lister}");
    Ok(())
}

fn checksums() {
    contest(
        "checksum, 1 MiB",
        &input::random(LENGTH),
        &[
            ("library (proved)", binding::checksum),
            ("Rust, bit by bit", checksum::by_bits),
            ("Rust, byte table", checksum::by_table),
        ],
    );
}

fn readers() {
    let bytes = input::messages(LENGTH);
    reader::must_agree(&bytes);
    contest(
        "reader, 1 MiB of messages",
        &bytes,
        &[
            ("library (proved)", reader::library),
            ("Rust, its checksum bit by bit", reader::by_bits),
            ("Rust, its checksum by byte table", reader::by_table),
        ],
    );
    // no message, so no checksum
    for (title, bytes) in [
        ("reader, 1 MiB of junk without SYN", input::junk(LENGTH)),
        ("reader, 1 MiB of AA", vec![0xAA; LENGTH]),
    ] {
        reader::must_agree(&bytes);
        contest(
            title,
            &bytes,
            &[("library (proved)", reader::library), ("Rust", reader::by_bits)],
        );
    }
}

fn lines() {
    let bytes = input::messages(LENGTH);
    for bytes in [
        &bytes,
        &input::damaged(LENGTH),
        &input::junk(LENGTH),
        &vec![0xAA; LENGTH],
    ] {
        line::must_agree(bytes);
    }
    contest(
        &format!("line, 1 MiB of messages in pieces of {}", line::PIECE),
        &bytes,
        &[
            ("library (proved)", line::library),
            ("Rust, its checksum bit by bit", line::by_bits),
            ("Rust, its checksum by byte table", line::by_table),
        ],
    );
    println!("line: the held array starts anew in each run; nothing is cleared between its calls");
}
