//! The packet check (PEC): CRC-8, polynomial x^8+x^2+x+1, high bit first,
//! start 0 (data sheet 2.5).

/// The PEC of `bytes`, going on from the value `crc`.
pub fn pec_from(mut crc: u8, bytes: &[u8]) -> u8 {
    for &byte in bytes {
        crc ^= byte;
        for _ in 0..8 {
            let out = crc & 0x80 != 0;
            crc <<= 1;
            if out {
                crc ^= 0x07;
            }
        }
    }
    crc
}

/// The PEC of `bytes` from the start value 0.
pub fn pec(bytes: &[u8]) -> u8 {
    pec_from(0, bytes)
}
