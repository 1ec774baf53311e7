//! The end of a child process and the memory that it had, by `wait4` of Linux on x86-64. `getrusage` has only the largest of
//! all children, those too that cargo had in this process before it put this program in its place.

use std::io;
use std::os::unix::process::ExitStatusExt;
use std::process::{Child, ExitStatus};

/// `struct rusage`
#[repr(C)]
struct Usage {
    user_and_system_time: [i64; 4],
    largest_resident: i64,
    others: [i64; 13],
}

extern "C" {
    fn wait4(pid: i32, status: *mut i32, options: i32, usage: *mut Usage) -> i32;
}

/// Waits for the child. Its status, and its largest resident memory in KiB.
pub fn wait(child: Child) -> io::Result<(ExitStatus, i64)> {
    let pid = child.id() as i32;
    let mut status = 0;
    let mut usage = Usage {
        user_and_system_time: [0; 4],
        largest_resident: 0,
        others: [0; 13],
    };
    // SAFETY: the pointers are to a number and to a structure of the length that the function fills.
    let ended = unsafe { wait4(pid, &mut status, 0, &mut usage) };
    if ended != pid {
        return Err(io::Error::last_os_error());
    }
    Ok((ExitStatus::from_raw(status), usage.largest_resident))
}
