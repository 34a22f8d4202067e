//! Words from thousandths and back: the library against the second program, which tries every word.

use conformance::library::{host, linear11_scaled, Converted};
use conformance::random::Random;
use reference::thousandths as second;

/// The values of 7C00h and 7BFFh in thousandths.
const LOWEST: i64 = -33_554_432_000;
const HIGHEST: i64 = 33_521_664_000;
/// Random counts, each held against all words.
const COUNTS: usize = 6_000;

/// What the second program's result is in the library's form.
fn converted(result: Result<u16, u8>) -> Converted {
    match result {
        Ok(word) => Converted { answer: 0, word },
        Err(answer) => Converted { answer, word: 0 },
    }
}

fn from_on_both(count: i64) -> Converted {
    let ours = host::from_thousandths(count);
    let theirs = converted(second::from_thousandths(count));
    assert_eq!(
        ours, theirs,
        "library left, second program right: {count} thousandths"
    );
    ours
}

/// A count on both, and its mirror image.
fn both_signs(count: i64) {
    from_on_both(count);
    from_on_both(count.wrapping_neg());
}

/// About each seam between the rows of two exponents, in units of the lower row: its last values, those of the next row behind them, and
/// half-way between each two. Some of them are ties.
#[test]
fn seams_between_exponents() {
    const HALF_UNITS: [i128; 13] = [
        2043, 2044, 2045, 2046, 2047, 2048, 2049, 2050, 2051, 2052, 2053, 2054, 2056,
    ];
    let mut counts = 0;
    for exponent in -16..15 {
        for halves in HALF_UNITS {
            // A unit is 2^exponent; the place in thousandths, rounded down.
            let place = halves * 1000 * (1 << (exponent + 16)) / (2 * 65_536);
            let place = i64::try_from(place).expect("a count");
            for count in place - 2..=place + 3 {
                both_signs(count);
                counts += 2;
            }
        }
    }
    println!("  thousandths: {counts} counts about the 31 seams between exponents, both signs, give the word that is nearest of all 65,536");
}

#[test]
fn ends_and_beyond() {
    let mut rows = vec![0, i64::MAX, i64::MAX - 1, i64::MIN, i64::MIN + 1];
    // Half a step of the last row, 16,384, and more; and where numbers of 32, 48 and 53 bits would end.
    for beyond in [
        1, 2, 3, 999, 1000, 16_383_999, 16_384_000, 16_384_001, 32_768_000,
    ] {
        rows.extend([LOWEST - beyond, LOWEST + beyond]);
        rows.extend([HIGHEST - beyond, HIGHEST + beyond]);
    }
    for bits in [31, 32, 35, 36, 47, 48, 52, 53, 54, 62] {
        rows.extend([-1, 0, 1].map(|near| (1 << bits) + near));
    }
    rows.extend([LOWEST, HIGHEST, -LOWEST, -HIGHEST]);
    for &count in &rows {
        both_signs(count);
        let outside = !(LOWEST..=HIGHEST).contains(&count);
        let Converted { answer, word } = host::from_thousandths(count);
        assert_eq!(answer, if outside { 25 } else { 0 }, "{count}");
        assert!(!outside || word == 0, "{count}");
    }
    let words = [LOWEST, HIGHEST].map(|count| host::from_thousandths(count).word);
    assert_eq!(words, [0x7C00, 0x7BFF]);
    println!("  thousandths: {} counts at the ends and beyond agree, both signs; outside they get 25 and word 0000h", rows.len());
}

/// A count of any size up to twice the largest that has a word.
fn random_count(random: &mut Random) -> i64 {
    let bits = 1 + random.below(37);
    let size = (random.u64() >> (64 - bits)) as i64;
    // Often a whole or half number, where ties are.
    let step = random.pick(&[1, 1, 125, 500, 1000]);
    let size = size / step * step;
    if random.bool() {
        size
    } else {
        -size
    }
}

#[test]
fn random_counts() {
    let mut random = Random::new(48);
    let (mut refused, mut exact) = (0, 0);
    for _ in 0..COUNTS {
        let count = random_count(&mut random);
        let Converted { answer, word } = from_on_both(count);
        refused += usize::from(answer != 0);
        let value = i128::from(linear11_scaled(word)) * 1000;
        exact += usize::from(answer == 0 && value == i128::from(count) * 65_536);
    }
    assert!(refused > COUNTS / 100 && exact > COUNTS / 100);
    println!("  thousandths: {COUNTS} random counts of 1 to 37 bits give the nearest word, {exact} of them exact, {refused} outside");
}

#[test]
fn every_word_back() {
    for word in 0..=u16::MAX {
        let count = host::to_thousandths(word);
        assert_eq!(count, second::to_thousandths(word), "{word:04x}");
        // Within half a thousandth of the exact value.
        let error = i128::from(count) * 65_536 - i128::from(linear11_scaled(word)) * 1000;
        assert!(error.abs() <= 32_768, "{word:04x}");
    }
    println!("  thousandths: all 65,536 words back agree and are within half a thousandth");
}

/// Up to a size of 1 each count comes back. Above, words stand further apart than thousandths: a word of the upper half of its row is the
/// nearest of the count that it is rounded to.
#[test]
fn round_trips() {
    for count in -1000..=1000 {
        let word = host::from_thousandths(count).word;
        assert_eq!(host::to_thousandths(word), count);
    }
    let mut words = 0;
    for exponent in -9..=15 {
        for mantissa in (-1024..-512).chain(512..1024) {
            let word = ((exponent & 0x1F) << 11 | mantissa & 0x7FF) as u16;
            let back = host::from_thousandths(host::to_thousandths(word));
            assert_eq!(back, converted(Ok(word)), "{word:04x}");
            words += 1;
        }
    }
    let mut random = Random::new(49);
    let mut counts = 0;
    for _ in 0..1_000_000 {
        let first = host::from_thousandths(random_count(&mut random));
        if first.answer == 0 {
            let again = host::from_thousandths(host::to_thousandths(first.word));
            assert_eq!(again, first);
            counts += 1;
        }
    }
    println!("  thousandths: counts from -1000 to 1000 come back; {words} words with an exponent of -9 or more, and the words of {counts} random counts, are the nearest of what they are rounded to");
}

#[test]
fn output_voltages() {
    for count in -300..8300 {
        let ours = host::vout_from_thousandths(count);
        let theirs = converted(second::vout_from_thousandths(count));
        assert_eq!(ours, theirs, "{count}");
        let inside = (0..8000).contains(&count);
        assert_eq!(ours.answer, if inside { 0 } else { 25 }, "{count}");
        if inside {
            assert_eq!(host::vout_to_thousandths(ours.word), count);
        }
    }
    for word in 0..=u16::MAX {
        let count = host::vout_to_thousandths(word);
        assert_eq!(count, second::vout_to_thousandths(word), "{word:04x}");
    }
    let mut random = Random::new(50);
    let mut outside = vec![i64::MIN, i64::MIN + 1, i64::MAX - 1, i64::MAX];
    for bits in [13, 16, 31, 32, 47, 48, 51, 52, 62] {
        outside.extend([-1, 0, 1].map(|near| (1i64 << bits) + near));
        outside.extend([-1, 0, 1].map(|near| -(1i64 << bits) + near));
    }
    outside.extend((0..10_000).map(|_| random.u64() as i64));
    for &count in &outside {
        let due = converted(second::vout_from_thousandths(count));
        assert_eq!(due, converted(Err(25)), "{count}");
        assert_eq!(host::vout_from_thousandths(count), due, "{count}");
    }
    println!("  thousandths: output voltages of all 8000 counts give the nearest of all words and come back; {} counts outside agree, and all 65,536 words back", 600 + outside.len());
}
