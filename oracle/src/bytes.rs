//! The bytes that runs of calls write, and a sum to tell many bytes by.

/// Byte i of what a seed makes. No byte is 0, so that none looks like a hole.
pub fn filled(seed: u64, length: u64) -> Vec<u8> {
    let byte = |i| ((seed + 7 * i) % 251 + 1) as u8;
    (0..length).map(byte).collect()
}

pub fn adler_32(bytes: &[u8]) -> u64 {
    let (mut low, mut high) = (1, 0);
    for &byte in bytes {
        low = (low + byte as u64) % 65521;
        high = (high + low) % 65521;
    }
    high << 16 | low
}
