//! Generated rows of IDs for the audit.

use crate::Random;

/// The numbers R that rows are audited with: none but 0 reserved, that of document 01's examples, the greatest of an
/// endpoint, the greatest ID, neighbours of these, one whose low 32 bits are 0, and the greatest of 64 bits.
pub const RESERVED: [u64; 12] = [
    0,
    1,
    37,
    38,
    255,
    256,
    65_534,
    65_535,
    65_536,
    65_537,
    1 << 32,
    u64::MAX,
];

/// IDs of the longest row.
pub const LONGEST: usize = 70_000;

/// All IDs above R, each once, in any order.
pub fn sound(r: u16, random: &mut Random) -> Vec<u16> {
    let mut ids: Vec<u16> = (r..u16::MAX).map(|id| id + 1).collect();
    for last in (1..ids.len()).rev() {
        ids.swap(last, random.up_to(last));
    }
    ids
}

/// The same, cut off somewhere.
pub fn sound_part(r: u16, random: &mut Random) -> Vec<u16> {
    let mut ids = sound(r, random);
    ids.truncate(random.up_to(ids.len()));
    ids
}

/// One of the IDs is there again, behind itself: at once, near or far.
pub fn one_twice(r: u16, random: &mut Random) -> Vec<u16> {
    let mut ids = sound(r, random);
    let first = random.up_to(ids.len() - 1);
    let farthest = random.one_of(&[0, 1, 100, LONGEST]).min(ids.len() - 1 - first);
    let second = first + 1 + random.up_to(farthest);
    ids.insert(second, ids[first]);
    ids
}

/// The last ID is the first one again.
pub fn ends_equal(r: u16, random: &mut Random) -> Vec<u16> {
    let mut ids = sound(r, random);
    ids.push(ids[0]);
    ids
}

/// ID 0 somewhere.
pub fn with_zero(r: u16, random: &mut Random) -> Vec<u16> {
    let mut ids = sound(r, random);
    ids.insert(random.up_to(ids.len()), 0);
    ids
}

/// One of the IDs 0 to R somewhere.
pub fn with_reserved(r: u16, random: &mut Random) -> Vec<u16> {
    let mut ids = sound(r, random);
    let reserved = random.up_to(r.into()) as u16;
    ids.insert(random.up_to(ids.len()), reserved);
    ids
}

/// Any IDs behind all those above R, up to the greatest length.
pub fn too_many(r: u16, random: &mut Random) -> Vec<u16> {
    let mut ids = sound(r, random);
    let more = random.up_to(LONGEST - ids.len() - 1) + 1;
    ids.extend((0..more).map(|_| random.number() as u16));
    ids
}

/// Any IDs.
pub fn any(_: u16, random: &mut Random) -> Vec<u16> {
    let length = random.up_to(LONGEST);
    (0..length).map(|_| random.number() as u16).collect()
}
