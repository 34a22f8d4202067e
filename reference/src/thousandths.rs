//! Whole thousandths into the nearest word and back, for words in Linear11 and for the
//! words of output voltages. The nearest is found by trying every one of the 65,536
//! words; all differences are whole numbers.

use crate::linear11::{exponent, scaled};

/// Linear11 values times this are whole numbers.
const LINEAR11: i128 = 65_536;
/// A word of an output voltage is a number of units of 1/8192.
const VOUT: i128 = 8192;

/// The Linear11 words of the lowest and the highest value.
const LOWEST: u16 = 0x7C00;
const HIGHEST: u16 = 0x7BFF;

/// The Linear11 word whose value is nearest to a count of thousandths; of those that are
/// equally near the one with the smallest exponent, then the smaller value. Answer 25
/// for a count below the lowest value or above the highest.
pub fn from_thousandths(count: i64) -> Result<u16, u8> {
    let beyond = |word| difference(count, i128::from(scaled(word)), LINEAR11);
    if beyond(LOWEST) < 0 || beyond(HIGHEST) > 0 {
        return Err(25);
    }
    let distances = (0..=u16::MAX).map(|word| beyond(word).abs());
    let least = distances.min().expect("there are words");
    let nearest = (0..=u16::MAX).filter(|&word| beyond(word).abs() == least);
    let first = nearest.min_by_key(|&word| (exponent(word), scaled(word)));
    Ok(first.expect("one is the nearest"))
}

/// The value of a Linear11 word in thousandths, rounded half away from zero.
pub fn to_thousandths(word: u16) -> i64 {
    rounded(i128::from(scaled(word)), LINEAR11)
}

/// The word of an output voltage nearest to a count of thousandths; no two are equally
/// near. Answer 25 for a count below that of 0000h or above that of FFFFh.
pub fn vout_from_thousandths(count: i64) -> Result<u16, u8> {
    let beyond = |word| difference(count, i128::from(word), VOUT);
    if beyond(u16::MIN) < 0 || beyond(u16::MAX) > 0 {
        return Err(25);
    }
    let words = 0..=u16::MAX;
    let nearest = words.min_by_key(|&word| beyond(word).abs());
    Ok(nearest.expect("there are words"))
}

/// The value of a word of an output voltage in thousandths, rounded half up.
pub fn vout_to_thousandths(word: u16) -> i64 {
    rounded(i128::from(word), VOUT)
}

/// How far `count` thousandths lie above `value` / `unit`, times 1000 times `unit`.
fn difference(count: i64, value: i128, unit: i128) -> i128 {
    i128::from(count) * unit - value * 1000
}

/// `value` / `unit` in thousandths: the whole part of the size and a half, with the sign.
fn rounded(value: i128, unit: i128) -> i64 {
    let size = (2 * 1000 * value.abs() + unit) / (2 * unit);
    (size * value.signum()) as i64
}
