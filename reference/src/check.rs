//! The check of a block: CRC-16, polynomial 1021 hex, start FFFF hex, no
//! reflection, no final exclusive-or.

const POLYNOMIAL: u16 = 0x1021;

/// For each byte, the remainder of that byte followed by 16 zero bits.
static TABLE: [u16; 256] = {
    let mut table = [0; 256];
    let mut byte = 0;
    while byte < 256 {
        let mut rest = (byte as u16) << 8;
        let mut bit = 0;
        while bit < 8 {
            rest = if rest & 0x8000 == 0 { rest << 1 } else { rest << 1 ^ POLYNOMIAL };
            bit += 1;
        }
        table[byte] = rest;
        byte += 1;
    }
    table
};

/// The check of all the bytes, however many there are.
pub fn check(bytes: &[u8]) -> u16 {
    bytes.iter().fold(0xFFFF, |check, byte| {
        let [high, _] = check.to_be_bytes();
        check << 8 ^ TABLE[usize::from(high ^ byte)]
    })
}
