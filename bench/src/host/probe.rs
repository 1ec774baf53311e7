//! The functions of `crates/host_probe`, which no header declares. Nothing checks these declarations against the proved source.

mod c {
    extern "C" {
        pub fn fizrahum_probe_submits(rounds: u64, each: u64) -> u64;
        pub fn fizrahum_probe_sends(rounds: u64) -> u64;
        pub fn fizrahum_probe_quiet_polls(polls: u64) -> u64;
        pub fn fizrahum_probe_receives(bytes: *const u8, length: usize) -> u64;
    }
}

pub fn submits(rounds: u64, each: u64) -> u64 {
    // SAFETY: the function takes numbers.
    unsafe { c::fizrahum_probe_submits(rounds, each) }
}

pub fn sends(rounds: u64) -> u64 {
    // SAFETY: the function takes a number.
    unsafe { c::fizrahum_probe_sends(rounds) }
}

pub fn quiet_polls(polls: u64) -> u64 {
    // SAFETY: the function takes a number.
    unsafe { c::fizrahum_probe_quiet_polls(polls) }
}

pub fn receives(bytes: &[u8]) -> u64 {
    // SAFETY: the function asks for a pointer to as many bytes as it is told, and only reads them.
    unsafe { c::fizrahum_probe_receives(bytes.as_ptr(), bytes.len()) }
}
