//! Two checksums to compare with: 16 bits, polynomial 0x1021, start 0xFFFF.

const POLYNOMIAL: u16 = 0x1021;
const START: u16 = 0xFFFF;

/// One step for each bit. The step has a mask and no branch: a loop with a branch is a form that newer compilers
/// know as a CRC and turn into a table. Never inlined, so that `objdump` shows it by its name.
#[inline(never)]
pub fn by_bits(bytes: &[u8]) -> u16 {
    bytes.iter().fold(START, |register, &byte| after_byte(register, byte))
}

const fn after_byte(register: u16, byte: u8) -> u16 {
    let mut register = register ^ (byte as u16) << 8;
    let mut bit = 0;
    while bit < 8 {
        let mask = (register >> 15).wrapping_neg();
        register = register << 1 ^ POLYNOMIAL & mask;
        bit += 1;
    }
    register
}

const TABLE: [u16; 256] = {
    let mut table = [0; 256];
    let mut byte = 0;
    while byte < 256 {
        table[byte] = after_byte(0, byte as u8);
        byte += 1;
    }
    table
};

/// One look into a table for each byte.
#[inline(never)]
pub fn by_table(bytes: &[u8]) -> u16 {
    static ENTRIES: [u16; 256] = TABLE;
    bytes.iter().fold(START, |register, &byte| {
        register << 8 ^ ENTRIES[(register >> 8) as usize ^ byte as usize]
    })
}
