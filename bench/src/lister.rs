//! The program `lister` on captures in files: its time, and the most memory that it has at a time.

use crate::input;
use crate::memory::wait;
use std::fs::{self, File};
use std::io::{self, Write};
use std::os::unix::process::CommandExt;
use std::path::{Path, PathBuf};
use std::process::{Child, Command, Stdio};
use std::time::{Duration, Instant};

const MIB: usize = 1 << 20;
/// MiB of the short and of the long capture.
const SHORT: usize = 1;
const LONG: usize = 64;
/// Bytes that a capture repeats. They are few, so that this process stays small.
const PART: usize = 1 << 16;
const ROUNDS: usize = 3;

/// What to print. To be called before anything large: what this process has counts as the program's (`start`).
pub fn report() -> io::Result<String> {
    let program = Path::new(env!("CARGO_MANIFEST_DIR")).join("../crates/lister/out/lister");
    if !program.exists() {
        return Ok(String::from("lister: LEFT OUT, as crates/lister/out/lister is missing"));
    }
    let (_, short) = measure(&program, &Capture::new(SHORT * MIB)?)?;
    let (time, long) = measure(&program, &Capture::new(LONG * MIB)?)?;
    Ok(format!(
        "lister, {LONG} MiB of messages to /dev/null: {:.3} s, best of {ROUNDS}, {:.1} MB/s\n\
         lister, largest resident memory: {long} KiB, on {SHORT} MiB {short} KiB",
        time.as_secs_f64(),
        (LONG * MIB) as f64 / time.as_secs_f64() / 1e6
    ))
}

/// The least time of three runs, and the most memory in KiB.
fn measure(program: &Path, capture: &Capture) -> io::Result<(Duration, i64)> {
    let (mut time, mut memory) = (Duration::MAX, 0);
    for _ in 0..ROUNDS {
        let input = File::open(&capture.path)?;
        let began = Instant::now();
        let (status, largest) = wait(start(program, input)?)?;
        time = time.min(began.elapsed());
        memory = memory.max(largest);
        assert!(status.success(), "the lister ends with {status}");
    }
    Ok((time, memory))
}

/// Linux counts a process's memory from before the program begins in it. With a closure to run there the process is a forked
/// copy of this one, which has what this one has now; without, it shares this one's memory and has its largest.
fn start(program: &Path, input: File) -> io::Result<Child> {
    let mut command = Command::new(program);
    command.stdin(input).stdout(Stdio::null());
    // SAFETY: the closure does nothing.
    unsafe { command.pre_exec(|| Ok(())) };
    command.spawn()
}

/// A file of messages, which goes when this does.
struct Capture {
    path: PathBuf,
}

impl Capture {
    fn new(length: usize) -> io::Result<Self> {
        let folder = Path::new(env!("CARGO_MANIFEST_DIR")).join("target");
        fs::create_dir_all(&folder)?;
        let capture = Capture {
            path: folder.join("lister.capture"),
        };
        let part = input::messages(PART);
        let mut file = File::create(&capture.path)?;
        for _ in 0..length / PART {
            file.write_all(&part)?;
        }
        Ok(capture)
    }
}

impl Drop for Capture {
    fn drop(&mut self) {
        if let Err(error) = fs::remove_file(&self.path) {
            eprintln!("{}: {error}", self.path.display());
        }
    }
}
