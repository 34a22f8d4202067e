//! Packet check, and values in Linear11 and DIRECT form: the library against the second program.

use conformance::library::{self, Format};
use conformance::random::Random;
use conformance::{mirror, states};
use reference::{format, linear11, pec};
use std::cmp::Ordering;

const STRINGS: usize = 200_000;
const LONGEST: usize = 300;

#[test]
fn pec_of_random_strings() {
    let mut random = Random::new(1);
    for _ in 0..STRINGS {
        let length = random.below(LONGEST + 1);
        let bytes = random.bytes(length);
        assert_eq!(library::pec(&bytes), pec::pec(&bytes), "{bytes:02x?}");
    }
    println!("  PEC: {STRINGS} strings of 0 to {LONGEST} bytes agree");
}

#[test]
fn pec_carried_on_at_any_cut() {
    let mut random = Random::new(2);
    for _ in 0..STRINGS {
        let length = random.below(LONGEST + 1);
        let bytes = random.bytes(length);
        let crc = random.u8();
        assert_eq!(
            library::pec_from(crc, &bytes),
            pec::pec_from(crc, &bytes),
            "{crc:02x} {bytes:02x?}"
        );
        let (before, after) = bytes.split_at(random.below(length + 1));
        assert_eq!(
            library::pec_from(library::pec(before), after),
            library::pec(&bytes),
            "{before:02x?} {after:02x?}"
        );
    }
    println!(
        "  PEC carried on: {STRINGS} strings from any start value, each cut in two as well, agree"
    );
}

#[test]
fn scaled_value_of_every_word() {
    for word in 0..=u16::MAX {
        assert_eq!(
            library::linear11_scaled(word),
            linear11::scaled(word),
            "{word:04x}"
        );
    }
    println!("  Linear11: all 65,536 values agree");
}

/// An order as the library gives it.
fn number(order: Ordering) -> u8 {
    match order {
        Ordering::Less => 0,
        Ordering::Equal => 1,
        Ordering::Greater => 2,
    }
}

/// Words to compare all others with: the ends, zeros and ones in every encoding, the power-on limits, and random ones.
fn partners() -> Vec<u16> {
    let mut words = vec![
        0x7C00, 0x7BFF, 0x8001, 0x87FF, 0x0000, 0xD280, 0xEB70, 0xEEC0, 0xD3FF, 0xC3F5, 0x0001,
        0xF802,
    ];
    // Equal values with different encodings: zero at every exponent; 1 as 2^k times 2^-k, k at most 9; -1, k at most 10.
    words.extend((0..32).map(|exponent: u16| exponent << 11));
    words.extend((0..=9).map(|k: u16| ((32 - k) % 32) << 11 | 1 << k));
    words.extend((0..=10).map(|k: u16| ((32 - k) % 32) << 11 | (0x800 - (1 << k)) & 0x7FF));
    let mut random = Random::new(3);
    words.extend((0..235).map(|_| random.u16()));
    words
}

#[test]
fn order_of_every_word_with_some_hundred() {
    let partners = partners();
    let mut seen = [0u64; 3];
    let mut other_encoding = 0;
    for &b in &partners {
        for a in 0..=u16::MAX {
            let expected = number(linear11::order(a, b));
            assert_eq!(library::linear11_compare(a, b), expected, "{a:04x} {b:04x}");
            assert_eq!(
                library::linear11_compare(b, a),
                2 - expected,
                "{b:04x} {a:04x}"
            );
            seen[usize::from(expected)] += 1;
            other_encoding += u64::from(expected == 1 && a != b);
        }
    }
    assert!(other_encoding > 1000);
    println!(
        "  Linear11 order: 65,536 words with {} words, both ways, agree: below {}, equal {} ({other_encoding} of them with another encoding), above {}",
        partners.len(), seen[0], seen[1], seen[2]
    );
}

/// Compares two values on both programs, both ways round. Gives 3 for answer 27.
fn compared(left: (Format, u16), right: (Format, u16)) -> u8 {
    let mirrored = |(format, word)| (mirror::format_to_reference(format), word);
    let due = format::compare(mirrored(left), mirrored(right)).map(number);
    let (ours, turned) = (library::compare(left, right), library::compare(right, left));
    match due {
        Ok(order) => {
            assert_eq!(
                (ours.answer, ours.order),
                (0, order),
                "{left:04x?} {right:04x?}"
            );
            assert_eq!(
                (turned.answer, turned.order),
                (0, 2 - order),
                "{right:04x?} {left:04x?}"
            );
            order
        }
        Err(answer) => {
            assert_eq!(
                (ours.answer, ours.order),
                (answer, 1),
                "{left:04x?} {right:04x?}"
            );
            assert_eq!(ours, turned, "{left:04x?} {right:04x?}");
            3
        }
    }
}

/// Every pair of the edges: m -32768, -1, 1, 32767; b and Y at their ends and 0; R -6, 0, 6; and the ends of Linear11.
#[test]
fn order_of_edge_values() {
    let mut values = vec![];
    let linear = Format {
        direct: false,
        m: 0,
        b: 0,
        r: 0,
    };
    for word in [
        0x7C00, 0x7BFF, 0x8001, 0x87FF, 0x0000, 0x0001, 0x07FF, 0x0400,
    ] {
        values.push((linear, word));
    }
    for m in [0x8000, 0xFFFF, 0x0001, 0x7FFF] {
        for r in [0xFA, 0x00, 0x06] {
            for b in [0x8000, 0x0000, 0x7FFF] {
                let direct = true;
                let format = Format { direct, m, b, r };
                values.extend([0x8000, 0xFFFF, 0x0000, 0x0001, 0x7FFF].map(|y| (format, y)));
            }
        }
    }
    let mut seen = [0; 4];
    for &left in &values {
        for &right in &values {
            seen[usize::from(compared(left, right))] += 1;
        }
    }
    assert!(
        seen[..3].iter().all(|&count| count > values.len()),
        "{seen:?}"
    );
    println!(
        "  DIRECT order: {} values at the edges, each with each, agree: below {}, equal {}, above {}",
        values.len(), seen[0], seen[1], seen[2]
    );
}

/// A DIRECT word near the value of another: m X + b by the first format's coefficients, where that is a word.
fn near(random: &mut Random, (format, word): (Format, u16)) -> (Format, u16) {
    let mut other = format;
    let step = random.below(3) as u16;
    match random.below(4) {
        // The same format.
        0 => (format, word.wrapping_add(step).wrapping_sub(1)),
        // Both signs turned: the same value.
        1 => {
            (other.m, other.b) = (format.m.wrapping_neg(), format.b.wrapping_neg());
            (
                other,
                word.wrapping_neg().wrapping_add(step).wrapping_sub(1),
            )
        }
        // Another power of ten, with all the digits that fit.
        2 => {
            let raised = i32::from(word as i16) * 10;
            other.r = format.r.wrapping_add(1);
            (other, raised.clamp(-32768, 32767) as u16)
        }
        _ => (states::format(random), states::word(random)),
    }
}

#[test]
fn order_of_random_values() {
    const PAIRS: usize = 2_000_000;
    let mut random = Random::new(4);
    let mut seen = [0; 4];
    for _ in 0..PAIRS {
        let format = match random.below(8) {
            0 => states::invalid_format(&mut random),
            _ => states::format(&mut random),
        };
        let left = (format, states::word(&mut random));
        let right = near(&mut random, left);
        seen[usize::from(compared(left, right))] += 1;
        // The order of words that share their coefficients needs neither b nor R.
        let word = random.u16();
        let shared = compared(left, (format, word));
        if format.direct && shared != 3 {
            let order = (left.1 as i16).cmp(&(word as i16));
            let turned = (format.m as i16) < 0;
            assert_eq!(shared, number(if turned { order.reverse() } else { order }));
        }
        // Linear values are those of the Linear11 comparison.
        if !format.direct {
            assert_eq!(shared, library::linear11_compare(left.1, word));
        }
    }
    assert!(seen.iter().all(|&count| count > PAIRS / 100), "{seen:?}");
    println!(
        "  DIRECT order: {PAIRS} random pairs in both formats, both ways, agree: below {}, equal {}, above {}, answer 27 {}",
        seen[0], seen[1], seen[2], seen[3]
    );
}
