//! Words from thousandths and back: the library beside Rust.

use crate::race::{print_head, print_row, race, Candidate};
use crate::routines::thousandths;
use conformance::library::{host, Converted};
use conformance::random::Random;
use reference::thousandths as second;
use std::fmt::Debug;
use std::hint::black_box;

const CALLS: usize = 1000;
/// Inputs that a case goes round through.
const INPUTS: usize = 16;
/// Counts that the Rust routine is held against all words with.
const TRIALS: usize = 1000;

/// A batch of calls on the inputs in turn.
fn batch<'a, A: Copy, B>(inputs: &'a [A], convert: impl Fn(A) -> B + 'a) -> Candidate<'a> {
    Candidate(Box::new(move || {
        for call in 0..CALLS {
            black_box(convert(inputs[call % INPUTS]));
        }
    }))
}

/// A row: the library's function and the routine, compared first.
fn row<A: Copy, B: Debug + PartialEq>(
    name: &str,
    inputs: &[A],
    ours: impl Fn(A) -> B,
    theirs: fn(A) -> B,
) {
    let theirs = black_box(theirs);
    for &input in inputs {
        assert_eq!(ours(input), theirs(input), "{name}");
    }
    let mut candidates = [batch(inputs, ours), batch(inputs, theirs)];
    print_row(name, &race(CALLS, &mut candidates));
}

/// A count of 1 to 36 bits.
fn count(random: &mut Random) -> i64 {
    let bits = 1 + random.below(36);
    let size = (random.u64() >> (64 - bits)) as i64;
    if random.bool() {
        size
    } else {
        -size
    }
}

/// Fails unless the routine finds the word that is nearest of all, also half-way between two and about the seams between exponents.
fn verify(random: &mut Random) {
    let mut counts: Vec<i64> = (0..TRIALS).map(|_| count(random)).collect();
    counts.extend((0..TRIALS).map(|_| count(random) / 500 * 500));
    for exponent in 0..15 {
        for halves in [2045, 2046, 2047, 2048, 2049, 2050, 2052] {
            let seam = halves * 500 << exponent;
            counts.extend([seam - 1, seam, seam + 1, 1 - seam, -seam, -seam - 1]);
        }
    }
    for count in counts {
        let due = match second::from_thousandths(count) {
            Ok(word) => Converted { answer: 0, word },
            Err(answer) => Converted { answer, word: 0 },
        };
        assert_eq!(thousandths::from_thousandths(count), due, "{count}");
    }
    for word in 0..=u16::MAX {
        let due = second::to_thousandths(word);
        assert_eq!(thousandths::to_thousandths(word), due, "{word:04x}");
    }
}

pub fn table() {
    let mut random = Random::new(52);
    verify(&mut random);
    let counts: Vec<i64> = (0..INPUTS)
        .map(|_| count(&mut random) % 33_000_000_000)
        .collect();
    let words: Vec<u16> = (0..INPUTS).map(|_| random.u16()).collect();
    print_head(&["Rust"]);
    row(
        "nearest Linear11 word to thousandths",
        &counts,
        host::from_thousandths,
        thousandths::from_thousandths,
    );
    row(
        "Linear11 word to thousandths",
        &words,
        host::to_thousandths,
        thousandths::to_thousandths,
    );
}
