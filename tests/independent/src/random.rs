//! Numbers that look random and can be had again from their seed.

/// xorshift64* of Vigna.
#[derive(Clone, Debug)]
pub struct Random(u64);

/// The number in the environment variable `SEED`, or a fixed one; printed with what it is for.
pub fn seed(purpose: &str) -> u64 {
    let seed = match std::env::var("SEED") {
        Ok(text) => text.parse().expect("SEED is a decimal number"),
        Err(_) => 20_261_115,
    };
    println!("seed: {purpose}: {seed}");
    seed
}

impl Random {
    /// Starts from the seed, which is printed.
    pub fn seeded(purpose: &str) -> Self {
        Random::new(seed(purpose))
    }

    /// Starts from this number.
    pub fn new(seed: u64) -> Self {
        // any state but 0 serves
        Random((seed ^ 0x9E37_79B9_7F4A_7C15).max(1))
    }

    /// The generator number `number` of this seed, so that a single one of many can be had again.
    pub fn numbered(seed: u64, number: u64) -> Self {
        Random::new(mixed(seed) ^ mixed(!number))
    }

    pub fn number(&mut self) -> u64 {
        self.0 ^= self.0 >> 12;
        self.0 ^= self.0 << 25;
        self.0 ^= self.0 >> 27;
        self.0.wrapping_mul(0x2545_F491_4F6C_DD1D)
    }

    /// A number from 0 to `most`.
    pub fn up_to(&mut self, most: usize) -> usize {
        (self.number() % (most as u64 + 1)) as usize
    }

    /// True once in so many times.
    pub fn one_in(&mut self, times: usize) -> bool {
        self.up_to(times - 1) == 0
    }

    /// One of these.
    pub fn one_of<T: Copy>(&mut self, these: &[T]) -> T {
        these[self.up_to(these.len() - 1)]
    }

    pub fn byte(&mut self) -> u8 {
        (self.number() >> 56) as u8
    }

    pub fn bytes(&mut self, length: usize) -> Vec<u8> {
        (0..length).map(|_| self.byte()).collect()
    }
}

/// The last step of SplitMix64: numbers that are near become numbers that are not.
fn mixed(number: u64) -> u64 {
    let mixed = (number ^ number >> 30).wrapping_mul(0xBF58_476D_1CE4_E5B9);
    let mixed = (mixed ^ mixed >> 27).wrapping_mul(0x94D0_49BB_1331_11EB);
    mixed ^ mixed >> 31
}
