//! The two check sums (RFC 9639 sections 9.1.8 and 9.3).

/// The remainders of every byte under a polynomial of 8 or 16 bits.
const fn table(width: u32, polynomial: u32) -> [u16; 256] {
    let mut sums = [0; 256];
    let mut byte = 0;
    while byte < 256 {
        let mut sum = (byte as u32) << (width - 8);
        let mut bit = 0;
        while bit < 8 {
            let top = sum >> (width - 1) & 1;
            sum = (sum << 1) & ((1 << width) - 1) ^ top * polynomial;
            bit += 1;
        }
        sums[byte] = sum as u16;
        byte += 1;
    }
    sums
}

const SUMS_8: [u16; 256] = table(8, 0x07);
const SUMS_16: [u16; 256] = table(16, 0x8005);

pub fn crc8(bytes: &[u8]) -> u8 {
    bytes.iter().fold(0, |sum, byte| SUMS_8[usize::from(sum ^ byte)] as u8)
}

pub fn crc16(bytes: &[u8]) -> u16 {
    bytes.iter().fold(0, |sum, byte| sum << 8 ^ SUMS_16[usize::from((sum >> 8) as u8 ^ byte)])
}
