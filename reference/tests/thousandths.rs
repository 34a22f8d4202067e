//! The nearest word to a count of thousandths, and back. The expected words were worked
//! out by hand: a value v has the smallest exponent N for which Y = v / 2^N, rounded,
//! is at most 1023, or at least -1024; the word is N in five bits, then Y in eleven.

use reference::linear11::{exponent, scaled};
use reference::thousandths::{
    from_thousandths, to_thousandths, vout_from_thousandths, vout_to_thousandths,
};
use std::cmp::Ordering;

/// The ends, in thousandths: -33,554,432 (7C00h) and 33,521,664 (7BFFh).
const LOWEST: i64 = -33_554_432_000;
const HIGHEST: i64 = 33_521_664_000;

fn word(exponent: i64, mantissa: i64) -> u16 {
    ((exponent & 0x1F) << 11 | mantissa & 0x7FF) as u16
}

/// Exact values. The bench sheet's words for 10 and 110 have the smallest exponent; its
/// word for -40, EEC0h, has not.
#[test]
fn exact_values() {
    let rows = [
        // 10 = 640 / 64; 1280 / 128 is too large. N = -6 is 11010, Y = 280h.
        (10_000, 0xD280),
        // 110 = 880 / 8; 1760 / 16 is too large. N = -3 is 11101, Y = 370h.
        (110_000, 0xEB70),
        // -40 = -640 / 16; -1280 / 32 is too small. N = -4 is 11100, Y = 580h.
        (-40_000, 0xE580),
        // 1 = 512 / 512; 1024 / 1024 is too large. N = -9 is 10111, Y = 200h.
        (1_000, 0xBA00),
        // -1 = -1024 / 1024, which there is. N = -10 is 10110, Y = 400h.
        (-1_000, 0xB400),
        // Zero at the smallest exponent: N = -16 is 10000, Y = 0.
        (0, 0x8000),
        // Half is 512 / 1024: N = -10. Minus half is -1024 / 2048: N = -11 is 10101.
        (500, 0xB200),
        (-500, 0xAC00),
        // The ends: N = 15 is 01111, Y = 3FFh and 400h.
        (HIGHEST, 0x7BFF),
        (LOWEST, 0x7C00),
    ];
    for (count, due) in rows {
        assert_eq!(from_thousandths(count), Ok(due), "{count}");
        assert_eq!(to_thousandths(due), count, "{due:04x}");
    }
}

/// Values that no word has.
#[test]
fn rounded_values() {
    let rows = [
        // 0.001 x 65,536 = 65.536: Y = 66 at N = -16, and -66 is 7BEh.
        (1, 0x8042),
        (-1, 0x87BE),
        // 3.957 x 256 = 1012.992: Y = 1013 at N = -8.
        (3_957, 0xC3F5),
        // 15.984 x 64 = 1022.976: Y = 1023 at N = -6. 16 is 512 at N = -5.
        (15_984, 0xD3FF),
        (16_000, 0xDA00),
        // 0.015 x 65,536 = 983.04; 0.016 x 65,536 = 1048.576 is over 1023.5, and half
        // of it, 524.288, gives Y = 524 at N = -15.
        (15, 0x83D7),
        (16, 0x8A0C),
        // One below the highest value, and one above the lowest, are nearest to them.
        (HIGHEST - 1, 0x7BFF),
        (LOWEST + 1, 0x7C00),
    ];
    for (count, due) in rows {
        assert_eq!(from_thousandths(count), Ok(due), "{count}");
    }
}

/// Half-way between two words: the smallest exponent first, then the smaller value.
#[test]
fn ties() {
    let rows = [
        // 1024 and 1026, both at N = 1: the smaller.
        (1_025_000, word(1, 512)),
        // -1026 and -1028, both at N = 1: the smaller.
        (-1_027_000, word(1, -514)),
        // 1023 at N = 0 and 1024 at N = 1.
        (1_023_500, word(0, 1023)),
        // -1024 at N = 0 and -1026 at N = 1: the exponent goes before the value.
        (-1_025_000, word(0, -1024)),
        // 128 and 128.25 at N = -2; -128 at N = -3 and -128.25 at N = -2.
        (128_125, word(-2, 512)),
        (-128_125, word(-3, -1024)),
        // 1022 x 32768 and 1023 x 32768, the last two: half-way.
        (33_505_280_000, word(15, 1022)),
        // -1023 x 32768 and -1024 x 32768: half-way.
        (-33_538_048_000, word(15, -1024)),
    ];
    for (count, due) in rows {
        assert_eq!(from_thousandths(count), Ok(due), "{count}");
    }
}

#[test]
fn outside() {
    for beyond in [1, 2, 1000, 16_384_000, 16_384_001, 1 << 40] {
        assert_eq!(from_thousandths(HIGHEST + beyond), Err(25));
        assert_eq!(from_thousandths(LOWEST - beyond), Err(25));
    }
    assert_eq!(from_thousandths(i64::MAX), Err(25));
    assert_eq!(from_thousandths(i64::MIN), Err(25));
    // The lowest is farther from zero than the highest.
    assert_eq!(from_thousandths(-LOWEST), Err(25));
    assert_eq!(from_thousandths(-HIGHEST), Ok(word(15, -1023)));
}

/// At each seam between the rows of two exponents, and beside it: half-way between two
/// neighbouring values the nearest changes from one to the other.
#[test]
fn every_seam_between_exponents() {
    for n in -16..15 {
        // Upwards 1022, 1023 of this row, then 512, 513 of the next.
        around(n, &[(n, 1022), (n, 1023), (n + 1, 512), (n + 1, 513)]);
        // Downwards -1023, -1024 of this row, then -513, -514 of the next.
        around(n, &[(n + 1, -514), (n + 1, -513), (n, -1024), (n, -1023)]);
    }
}

/// The counts about the middle between each two of these neighbours.
fn around(n: i64, words: &[(i64, i64)]) {
    for pair in words.windows(2) {
        let [low, high] = [pair[0], pair[1]].map(|(n, y)| word(n, y));
        assert!(scaled(low) < scaled(high));
        // Twice the middle, times 65,536; in thousandths it need not be whole.
        let middle = i128::from(scaled(low) + scaled(high)) * 1000;
        let floor = i64::try_from(middle.div_euclid(2 * 65_536)).unwrap();
        for count in floor - 2..=floor + 3 {
            let due = match (i128::from(count) * 2 * 65_536).cmp(&middle) {
                Ordering::Less => low,
                Ordering::Greater => high,
                // The smaller, unless it has the larger exponent.
                Ordering::Equal if exponent(low) > exponent(high) => high,
                Ordering::Equal => low,
            };
            // Where words stand closer than thousandths the count may lie beyond both.
            let [from, to] = [low, high].map(|word| i128::from(scaled(word)) * 1000);
            if (from..=to).contains(&(i128::from(count) * 65_536)) {
                assert_eq!(from_thousandths(count), Ok(due), "{count} about {n}");
            }
        }
    }
}

/// By trial: no word is nearer, and none as near has a smaller exponent or, with the
/// same, a smaller value.
#[test]
fn no_word_is_nearer() {
    for count in [
        0,
        1,
        -1,
        999,
        -1001,
        12_345,
        -678_901,
        33_505_280_000,
        -1_025_000,
    ] {
        let found = from_thousandths(count).unwrap();
        let distance = |word| (i128::from(count) * 65_536 - i128::from(scaled(word)) * 1000).abs();
        for other in 0..=u16::MAX {
            assert!(distance(found) <= distance(other));
            if distance(found) == distance(other) {
                let order = |word| (exponent(word), scaled(word));
                assert!(order(found) <= order(other));
            }
        }
    }
}

/// Half away from zero, and within half a thousandth.
#[test]
fn back() {
    let rows = [
        (0x8001, 0),             // 1 / 65,536
        (word(-4, 1), 63),       // 62.5
        (word(-4, -1), -63),     // -62.5
        (word(-4, 3), 188),      // 187.5
        (word(-4, -3), -188),    // -187.5
        (word(-5, 1), 31),       // 31.25
        (word(-9, 1), 2),        // 1.953125
        (word(-11, 1), 0),       // 0.48828125
        (word(-11, 3), 1),       // 1.46484375
        (word(-16, -1024), -16), // -15.625
        (0xC3F5, 3_957),         // 3957.03125
        (0xEEC0, -40_000),
        (0x0000, 0),
    ];
    for (word, due) in rows {
        assert_eq!(to_thousandths(word), due, "{word:04x}");
    }
    for word in 0..=u16::MAX {
        let error = i128::from(to_thousandths(word)) * 65_536 - i128::from(scaled(word)) * 1000;
        assert!(error.abs() <= 32_768, "{word:04x}");
        // Half-way goes away from zero.
        if error.abs() == 32_768 {
            assert_eq!(error > 0, scaled(word) > 0, "{word:04x}");
        }
    }
}

/// Up to a size of 1 the words are close enough to give every count back.
#[test]
fn small_counts_come_back() {
    for count in -1000..=1000 {
        let word = from_thousandths(count).unwrap();
        assert_eq!(to_thousandths(word), count);
    }
}

#[test]
fn output_voltages() {
    let rows = [
        (0, 0x0000),
        // 0.001 x 8192 = 8.192, 1.2 x 8192 = 9830.4, 1.32 x 8192 = 10813.44.
        (1, 8),
        (1_200, 0x2666),
        (1_320, 0x2A3D),
        (1_000, 0x2000),
        // 7.999 x 8192 = 65527.808.
        (7_999, 65_528),
    ];
    for (count, due) in rows {
        assert_eq!(vout_from_thousandths(count), Ok(due), "{count}");
        assert_eq!(vout_to_thousandths(due), count, "{due:04x}");
    }
    // FFFFh is 7999.877..., so that 8000 is outside, and it is what FFFFh rounds to.
    for outside in [-1, -2, 8000, 8001, 65_536, i64::MIN, i64::MAX] {
        assert_eq!(vout_from_thousandths(outside), Err(25), "{outside}");
    }
    assert_eq!(vout_to_thousandths(0xFFFF), 8000);
    // 4 / 8192 = 0.48828125 and 5 / 8192 = 0.6103515625 thousandths; 512 is 62.5.
    assert_eq!([4, 5, 512].map(vout_to_thousandths), [0, 1, 63]);
}

#[test]
fn every_output_voltage_comes_back() {
    for count in 0..8000 {
        let word = vout_from_thousandths(count).unwrap();
        assert_eq!(vout_to_thousandths(word), count);
    }
}
