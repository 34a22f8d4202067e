//! Values of measured words and limits (data sheet, section 5).

use std::cmp::Ordering;

/// N, the high five bits in two's complement: -16 to 15.
pub fn exponent(word: u16) -> i64 {
    let exponent = i64::from(word >> 11);
    if exponent >= 0x10 {
        exponent - 0x20
    } else {
        exponent
    }
}

/// The value of a Linear11 word times 65,536, a whole number. Y (low eleven
/// bits) is in two's complement as well.
pub fn scaled(word: u16) -> i64 {
    let mut mantissa = i64::from(word & 0x07FF);
    if mantissa >= 0x400 {
        mantissa -= 0x800;
    }
    // The exponent is -16 or more, so the factor 2^(exponent + 16) is whole.
    mantissa * (1i64 << (exponent(word) + 16))
}

/// The order of two Linear11 words by value, exact.
pub fn order(left: u16, right: u16) -> Ordering {
    scaled(left).cmp(&scaled(right))
}

/// The order of two VOUT words: unsigned, compared as numbers.
pub fn order_vout(left: u16, right: u16) -> Ordering {
    left.cmp(&right)
}
