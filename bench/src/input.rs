//! What the contenders are given, the same at each run.

/// TYPE DATA_SEQ
const DATA_SEQ: u8 = 0x80;
/// A message's bytes beside its payload.
const OVERHEAD: usize = 10;
/// Bytes of the shortest and of the longest payload.
const SHORTEST: usize = 8;
const LONGEST: usize = 64;

/// Bytes that look random (xorshift64).
pub fn random(length: usize) -> Vec<u8> {
    let mut state = 0x9E37_79B9_7F4A_7C15_u64;
    let mut next = || {
        state ^= state << 13;
        state ^= state >> 7;
        state ^= state << 17;
        (state >> 56) as u8
    };
    (0..length).map(|_| next()).collect()
}

/// Messages behind one another without a gap, with payloads of 8 to 64 bytes, written by the library.
pub fn messages(length: usize) -> Vec<u8> {
    let payloads = random(length);
    let mut bytes = vec![0; length];
    let (mut place, mut seq) = (0, 0_u8);
    while place < length {
        let len = payload_length(length - place, payloads[place]);
        let answer = binding::write(&mut bytes, place, DATA_SEQ, seq, &payloads[place..place + len]);
        assert_eq!(answer, OVERHEAD + len, "the message is written");
        place += answer;
        seq = seq.wrapping_add(1);
    }
    bytes
}

/// Events for an endpoint with R = 38, without a gap, of which no two that follow one another have the same SEQ.
pub fn events(length: usize) -> Vec<u8> {
    let mut bytes = messages(length);
    let mut place = 0;
    while place < length {
        let len = usize::from(u16::from_le_bytes([bytes[place + 3], bytes[place + 4]]));
        let mut payload = bytes[place + 8..place + 8 + len].to_vec();
        // the first byte of a command, and RQID
        payload[0] = 0x80;
        payload[5] = 1 + payload[5] % 38;
        payload[6] = 0;
        let seq = bytes[place + 5];
        place += binding::write(&mut bytes, place, DATA_SEQ, seq, &payload);
    }
    bytes
}

/// Messages with a bit changed in every hundredth byte.
pub fn damaged(length: usize) -> Vec<u8> {
    let mut bytes = messages(length);
    for byte in bytes.iter_mut().step_by(100) {
        *byte ^= 0x10;
    }
    bytes
}

/// A length drawn by `chance`, but near the end one that leaves no gap.
fn payload_length(room: usize, chance: u8) -> usize {
    if room <= OVERHEAD + LONGEST {
        room - OVERHEAD
    } else if room < 2 * OVERHEAD + LONGEST + SHORTEST {
        SHORTEST
    } else {
        SHORTEST + usize::from(chance) % (LONGEST - SHORTEST + 1)
    }
}

/// Random bytes in which AA 55 never stands.
pub fn junk(length: usize) -> Vec<u8> {
    let mut bytes = random(length);
    for at in 1..length {
        if bytes[at - 1..=at] == [0xAA, 0x55] {
            bytes[at] = 0;
        }
    }
    bytes
}

/// So many IDs that all differ, in no order, and none of them 0: times an odd number, in 16 bits, different numbers stay
/// different, and only 0 becomes 0.
pub fn ids(count: u16) -> Vec<u16> {
    (1..=count).map(|number| number.wrapping_mul(40_503)).collect()
}
