//! A program as a process, with bytes on its standard input.

use std::fs::{self, File};
use std::io::Write;
use std::os::fd::OwnedFd;
use std::os::unix::net::UnixDatagram;
use std::path::{Path, PathBuf};
use std::process::{Command, Output, Stdio};
use std::thread;

/// A program that `rt ci` left in its crate's folder, by its name.
#[derive(Clone, Copy, Debug)]
pub struct Program(&'static str);

pub const LISTER: Program = Program("lister");
pub const SESSION: Program = Program("session");

/// A file of this name in the folder, with the bytes in it, open for reading.
pub fn file(folder: &str, name: &str, bytes: &[u8]) -> File {
    let path = Path::new(folder).join(name);
    fs::write(&path, bytes).expect("the file is written");
    File::open(&path).expect("the file opens")
}

impl Program {
    pub fn path(self) -> PathBuf {
        let path = Path::new(env!("CARGO_MANIFEST_DIR"))
            .join("../../crates")
            .join(self.0)
            .join("out")
            .join(self.0);
        assert!(path.exists(), "crates/{0}/out/{0} is missing: run .ci/run", self.0);
        path
    }

    /// The program with this as its standard input.
    pub fn run(self, input: impl Into<Stdio>) -> Output {
        let output = Command::new(self.path()).stdin(input).output();
        output.expect("the program starts")
    }

    /// The program with the bytes through a pipe, in writes of this size.
    pub fn run_in_writes(self, bytes: &[u8], size: usize) -> Output {
        let (input, mut pipe) = std::io::pipe().expect("a pipe");
        thread::scope(|scope| {
            // where the program stops reading, a write fails; its output then shows that
            scope.spawn(move || bytes.chunks(size).all(|piece| pipe.write_all(piece).is_ok()));
            self.run(input)
        })
    }

    /// The program with the bytes through a socket of which each read gets a single byte, and no byte at the end.
    pub fn run_in_single_bytes(self, bytes: &[u8]) -> Output {
        let (input, socket) = UnixDatagram::pair().expect("two sockets");
        thread::scope(|scope| {
            // the end can be read as often as one likes; sending fails when the program is gone
            let end = std::iter::repeat(&[][..]);
            scope.spawn(move || bytes.chunks(1).chain(end).all(|byte| socket.send(byte).is_ok()));
            self.run(OwnedFd::from(input))
        })
    }

    /// The program with its standard output on a device that has no room.
    pub fn run_without_room(self, input: impl Into<Stdio>) -> Output {
        let full = File::options().write(true).open("/dev/full").expect("/dev/full opens");
        let mut command = Command::new(self.path());
        let output = command.stdin(input).stdout(full).stderr(Stdio::piped()).output();
        output.expect("the program starts")
    }

    /// The program with its standard output closed.
    pub fn run_with_closed_output(self, input: impl Into<Stdio>) -> Output {
        let mut shell = Command::new("sh");
        let output = shell
            .args(["-c", "exec \"$0\" >&-"])
            .arg(self.path())
            .stdin(input)
            .output();
        output.expect("the program starts")
    }
}
