//! Values in the two formats of measured words and limits, Linear11 and DIRECT (data
//! sheet, section 20), and their exact order.
//!
//! A DIRECT word is Y in two's complement, and its value (Y * 10^-R - b) / m.

use crate::linear11;
use std::cmp::Ordering;

/// The format of a quantity. Any field values may be handed in. Where the mark says
/// linear, the coefficients have no meaning.
#[derive(Clone, Copy, Debug, Default, PartialEq, Eq)]
pub struct Format {
    pub direct: bool,
    pub m: i16,
    pub b: i16,
    pub r: i8,
}

/// The powers of ten that R may name.
const LARGEST_R: i8 = 6;

/// A value as a fraction; the denominator is above 0.
struct Value {
    numerator: i128,
    denominator: i128,
}

impl Format {
    pub const LINEAR: Format = Format {
        direct: false,
        m: 0,
        b: 0,
        r: 0,
    };

    pub const fn direct(m: i16, b: i16, r: i8) -> Format {
        Format {
            direct: true,
            m,
            b,
            r,
        }
    }

    /// Whether words have a value: m is not 0 and R is -6 to 6, under a DIRECT mark.
    pub fn valid(&self) -> bool {
        let usable = self.m != 0 && (-LARGEST_R..=LARGEST_R).contains(&self.r);
        !self.direct || usable
    }

    /// The value of a word in a valid format.
    fn value(&self, word: u16) -> Value {
        if !self.direct {
            return Value {
                numerator: i128::from(linear11::scaled(word)),
                denominator: 65_536,
            };
        }
        let (y, m, b) = (word as i16, i128::from(self.m), i128::from(self.b));
        let power = 10i128.pow(u32::from(self.r.unsigned_abs()));
        // With R above 0 both terms times 10^R, so that nothing is divided.
        let (numerator, denominator) = if self.r > 0 {
            (i128::from(y) - b * power, m * power)
        } else {
            (i128::from(y) * power - b, m)
        };
        Value {
            numerator: numerator * denominator.signum(),
            denominator: denominator.abs(),
        }
    }

    /// The order of two words of this format. With any R that is the order of Y, or its
    /// reverse where m is below 0; with m 0 all words are equal.
    pub(crate) fn order_of(&self, word: u16, other: u16) -> Ordering {
        if self.valid() {
            return order((*self, word), (*self, other));
        }
        let order = (word as i16).cmp(&(other as i16));
        match self.m.cmp(&0) {
            Ordering::Less => order.reverse(),
            Ordering::Equal => Ordering::Equal,
            Ordering::Greater => order,
        }
    }

    /// The five bytes of COEFFICIENTS behind its count.
    fn bytes(&self) -> [u8; 5] {
        let [m_low, m_high] = self.m.to_le_bytes();
        let [b_low, b_high] = self.b.to_le_bytes();
        [m_low, m_high, b_low, b_high, self.r as u8]
    }

    /// The data of a COEFFICIENTS reply: the count 05h, m, b, R.
    pub(crate) fn reply(&self) -> Vec<u8> {
        let bytes = self.bytes();
        [&[bytes.len() as u8][..], &bytes].concat()
    }
}

/// The order of two values, each in a format of its own; answer 27 where one of the
/// formats is not valid.
pub fn compare(left: (Format, u16), right: (Format, u16)) -> Result<Ordering, u8> {
    if left.0.valid() && right.0.valid() {
        Ok(order(left, right))
    } else {
        Err(27)
    }
}

/// The order of two values in valid formats: a / b to c / d as a * d to c * b.
pub(crate) fn order((left, word): (Format, u16), (right, other): (Format, u16)) -> Ordering {
    let (left, right) = (left.value(word), right.value(other));
    (left.numerator * right.denominator).cmp(&(right.numerator * left.denominator))
}
