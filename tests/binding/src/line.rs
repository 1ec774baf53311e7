//! The function of `crates/line_probe`: a line's call for tests and benchmarks alone, which no header declares.

/// "At most 265 bytes are held": the length of the array that the function takes, and no other.
pub const MOST_HELD: usize = 265;

/// The answers beside those of the reader.
pub const MORE: u8 = 0;
/// The array has another length, or there are not so many bytes in it.
pub const REFUSED: u8 = 1;

/// The function as C sees it.
pub mod c {
    extern "C" {
        pub fn fizrahum_probe_receive(
            held: *mut u8,
            held_length: usize,
            count: usize,
            bytes: *const u8,
            length: usize,
            kind: *mut u8,
            seq: *mut u8,
            len: *mut usize,
            taken: *mut usize,
            now_held: *mut usize,
        ) -> u8;
    }
}

/// What a call answers, and the numbers that it sets beside the count of held bytes. The default is *more* with no byte
/// taken.
#[derive(Clone, Copy, Debug, Default, PartialEq, Eq)]
pub struct Received {
    pub answer: u8,
    pub kind: u8,
    pub seq: u8,
    pub len: usize,
    pub taken: usize,
}

/// The held bytes: the first `count` of the array.
#[derive(Clone, Debug)]
pub struct Line {
    pub array: [u8; MOST_HELD],
    pub count: usize,
}

impl Default for Line {
    /// Nothing is held.
    fn default() -> Self {
        Line {
            array: [0; MOST_HELD],
            count: 0,
        }
    }
}

impl Line {
    pub fn receive(&mut self, new: &[u8]) -> Received {
        let (received, now_held) = receive_in(&mut self.array, self.count, new);
        self.count = now_held;
        received
    }

    pub fn held(&self) -> &[u8] {
        &self.array[..self.count]
    }
}

/// One call on an array of any length with any count; the second number is how many bytes are held now.
/// No number starts as 0, so that one which is left unset shows.
pub fn receive_in(array: &mut [u8], count: usize, new: &[u8]) -> (Received, usize) {
    let (mut kind, mut seq) = (0xEE, 0xEE);
    let [mut len, mut taken, mut now_held] = [usize::MAX; 3];
    let numbers = Numbers {
        kind: &mut kind,
        seq: &mut seq,
        len: &mut len,
        taken: &mut taken,
        now_held: &mut now_held,
    };
    let answer = receive_into(array, count, new, numbers);
    let received = Received {
        answer,
        kind,
        seq,
        len,
        taken,
    };
    (received, now_held)
}

/// The five numbers that a call sets, wherever the caller has them.
pub struct Numbers<'a> {
    pub kind: &'a mut u8,
    pub seq: &'a mut u8,
    pub len: &'a mut usize,
    pub taken: &'a mut usize,
    pub now_held: &'a mut usize,
}

/// The same call with its numbers there.
pub fn receive_into(array: &mut [u8], count: usize, new: &[u8], numbers: Numbers) -> u8 {
    // SAFETY: the array and the new bytes are as long as is said, a slice that may be written to overlaps no other, and
    // each of the other pointers is a reference to a number of its own.
    unsafe {
        c::fizrahum_probe_receive(
            array.as_mut_ptr(),
            array.len(),
            count,
            new.as_ptr(),
            new.len(),
            numbers.kind,
            numbers.seq,
            numbers.len,
            numbers.taken,
            numbers.now_held,
        )
    }
}
