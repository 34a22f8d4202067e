//! The calls over lent records, with few and with many of them: the library beside the second program, which changes a slice in place.

use crate::race::{print_row, race, Candidate};
use conformance::library::{self, Page};
use conformance::mirror;
use reference::lent as second;
use reference::pec;
use std::hint::black_box;

const CALLS: usize = 500;
/// Inputs that a case goes round through.
const INPUTS: usize = 16;

type Reply = [u8; 8];

/// Unpaged part and records of the library, and the same of the second program.
type Ours = (library::Unpaged, Vec<Page>);
type Theirs = (second::Unpaged, Vec<reference::device::Page>);

/// Supplies in use: on and measured, within their limits.
fn supplying(number: usize) -> Theirs {
    let mut pages = vec![reference::device::Page::power_on(); number];
    let (mut unpaged, _) = second::power_on(&mut pages);
    for page in 0..number as u8 {
        second::write(&mut unpaged, &mut pages, &[0xC0, 0x00, page]);
        second::write(&mut unpaged, &mut pages, &[0xC0, 0x01, 0x80]);
        for (quantity, word) in [0x2666, 0xD240, 0xD300, 0xEA00].into_iter().enumerate() {
            second::measure(&mut unpaged, &mut pages, page, quantity as u8, word);
        }
    }
    second::write(&mut unpaged, &mut pages, &[0xC0, 0x00, number as u8 / 2]);
    assert!(pages.iter().all(|page| page.supplies()) && !unpaged.alert);
    (unpaged, pages)
}

/// A row: both ways along a run first, then timed.
fn row(
    name: &str,
    (unpaged, pages): Theirs,
    mut ours: impl FnMut(&mut Ours, &mut Reply, usize) -> u8,
    mut theirs: impl FnMut(&mut Theirs, &mut Reply, usize) -> u8,
) {
    let mut a: Ours = (
        mirror::unpaged_from_reference(&unpaged),
        pages.iter().map(mirror::page_from_reference).collect(),
    );
    let number = pages.len();
    let mut b: Theirs = (unpaged, pages);
    for input in 0..4 * INPUTS {
        let mut replies = [[0; 8]; 2];
        assert_eq!(ours(&mut a, &mut replies[0], input % INPUTS), 0, "{name}");
        assert_eq!(theirs(&mut b, &mut replies[1], input % INPUTS), 0, "{name}");
        assert_eq!(replies[0], replies[1], "{name}");
        assert_eq!(mirror::unpaged_to_reference(&a.0), b.0, "{name}");
        assert!(a.1.iter().map(mirror::page_to_reference).eq(b.1.clone()));
    }
    let mut reply = [[0; 8]; 2];
    let [first, last] = &mut reply;
    let times = race(
        CALLS,
        &mut [
            Candidate(Box::new(|| {
                for call in 0..CALLS {
                    black_box(ours(&mut a, first, call % INPUTS));
                }
            })),
            Candidate(Box::new(|| {
                for call in 0..CALLS {
                    black_box(theirs(&mut b, last, call % INPUTS));
                }
            })),
        ],
    );
    print_row(&format!("{name}, {number} records"), &times);
}

fn keep(state: &mut Ours, done: library::Outcome) -> u8 {
    state.0 = done.unpaged;
    done.answer
}

/// None is inlined into the loop that times it, as the library's functions are not.
mod routines {
    use super::{second, Reply, Theirs};

    #[inline(never)]
    pub fn write((unpaged, pages): &mut Theirs, bytes: &[u8]) -> u8 {
        second::write(unpaged, pages, bytes)
    }

    #[inline(never)]
    pub fn read((unpaged, pages): &mut Theirs, header: &[u8], reply: &mut Reply, n: usize) -> u8 {
        second::read(unpaged, pages, header, &mut reply[..n])
    }

    #[inline(never)]
    pub fn measure((unpaged, pages): &mut Theirs, page: u8, quantity: u8, word: u16) -> u8 {
        second::measure(unpaged, pages, page, quantity, word)
    }

    #[inline(never)]
    pub fn sample((unpaged, pages): &mut Theirs, sample: u16) -> u8 {
        second::sample(unpaged, pages, sample)
    }

    #[inline(never)]
    pub fn tick((unpaged, pages): &mut Theirs) -> u8 {
        second::tick(unpaged, pages)
    }

    #[inline(never)]
    pub fn alert_response((unpaged, pages): &mut Theirs, reply: &mut Reply, n: usize) -> u8 {
        second::alert_response(unpaged, pages, &mut reply[..n])
    }
}

/// A write, the bytes by place; `page` selects.
fn write(name: &str, number: usize, page: u8, inputs: &[Vec<u8>; INPUTS]) {
    let mut start = supplying(number);
    start.0.page = page;
    row(
        name,
        start,
        |state, _, input| {
            let done = library::lent::write(state.0, &mut state.1, &inputs[input]);
            keep(state, done)
        },
        |state, _, input| routines::write(state, &inputs[input]),
    );
}

/// A limit with its PEC.
fn limits(place: usize) -> Vec<u8> {
    const LIMITS: [(u8, u16); 3] = [(0x40, 0x2A3D), (0x46, 0xD280), (0x59, 0xC3F5)];
    let (code, word) = LIMITS[place % LIMITS.len()];
    let [low, high] = (word - place as u16 % 2).to_le_bytes();
    let mut bytes = vec![0xC0, code, low, high];
    bytes.push(pec::pec(&bytes));
    bytes
}

pub fn rows(number: usize) {
    let words: [Vec<u8>; INPUTS] = std::array::from_fn(limits);
    let clear: [Vec<u8>; INPUTS] = std::array::from_fn(|_| vec![0xC0, 0x03]);
    write("write, limit with PEC", number, number as u8 / 2, &words);
    write("the same under PAGE FFh", number, 0xFF, &words);
    write("CLEAR_FAULTS", number, 0, &clear);
    let header = black_box(&[0xC0, 0x79, 0xC1]);
    let n = black_box(3);
    row(
        "read, STATUS_WORD",
        supplying(number),
        |state, reply, _| {
            let done = library::lent::read(state.0, &state.1, header, &mut reply[..n]);
            keep(state, done)
        },
        |state, reply, _| routines::read(state, header, reply, n),
    );
    let word = |input: usize| 0x2666 + (input / 8) as u16;
    row(
        "measure",
        supplying(number),
        |state, _, input| {
            let page = (input % number) as u8;
            let done = library::lent::measure(state.0, &mut state.1, page, 0, word(input));
            keep(state, done)
        },
        |state, _, input| routines::measure(state, (input % number) as u8, 0, word(input)),
    );
    sample(number);
    row(
        "tick",
        supplying(number),
        |state, _, _| {
            let done = library::lent::tick(state.0, &mut state.1);
            keep(state, done)
        },
        |state, _, _| routines::tick(state),
    );
    let one = black_box(1);
    row(
        "alert response",
        supplying(number),
        |state, reply, _| {
            state.0.alert = true;
            let done = library::lent::alert_response(state.0, &state.1, &mut reply[..one]);
            keep(state, done)
        },
        |state, reply, _| {
            state.0.alert = true;
            routines::alert_response(state, reply, one)
        },
    );
}

/// A power sample needs no record: what grows with their number is the test for answer 15.
pub fn sample(number: usize) {
    row(
        "sample",
        supplying(number),
        |state, _, input| {
            let done = library::lent::sample(state.0, &state.1, 1000 + input as u16);
            keep(state, done)
        },
        |state, _, input| routines::sample(state, 1000 + input as u16),
    );
}
