//! The host's frames and replies: the library beside Rust on slices.

use crate::race::{print_head, print_row, race, Candidate};
use crate::routines::host as routines;
use crate::routines::host::{Match, Table};
use conformance::library::{host, Built, Reply};
use conformance::random::Random;
use reference::pec;
use std::hint::black_box;

const CALLS: usize = 1000;
/// Inputs that a case goes round through.
const INPUTS: usize = 16;
/// The caller's buffer, and where the frames go in it.
const BUFFER: usize = 64;
const PLACE: usize = 8;

/// A batch of calls that build frames in one buffer.
fn building<'a>(
    buffer: &'a mut [u8],
    mut build: impl FnMut(&mut [u8], usize) -> Built + 'a,
) -> Candidate<'a> {
    Candidate(Box::new(move || {
        for call in 0..CALLS {
            black_box(build(buffer, call % INPUTS));
        }
    }))
}

/// A row: the frames of all inputs are compared first, byte by byte, then timed.
fn frames(
    name: &str,
    mut ours: impl FnMut(&mut [u8], usize) -> Built,
    mut table: impl FnMut(&mut [u8], usize) -> Built,
    mut by_match: impl FnMut(&mut [u8], usize) -> Built,
) {
    let mut buffers = [[0x55; BUFFER]; 3];
    let [first, second, third] = &mut buffers;
    for input in 0..INPUTS {
        let built = ours(first, input);
        assert_eq!(built.answer, 0, "{name}");
        assert_eq!(built, table(second, input), "{name}");
        assert_eq!(built, by_match(third, input), "{name}");
        assert_eq!(first, second, "{name}");
        assert_eq!(first, third, "{name}");
    }
    let mut candidates = [
        building(first, ours),
        building(second, table),
        building(third, by_match),
    ];
    print_row(name, &race(CALLS, &mut candidates));
}

/// Writes of limits.
fn write(name: &str, check: bool) {
    const LIMITS: [u8; 6] = [0x40, 0x46, 0x4F, 0x53, 0x55, 0x59];
    type Write = fn(&mut [u8], usize, u8, &[u8], bool) -> Built;
    let mut random = Random::new(50);
    let words: Vec<[u8; 2]> = (0..INPUTS).map(|_| random.u16().to_le_bytes()).collect();
    let code = |input: usize| LIMITS[input % LIMITS.len()];
    let (place, check) = black_box((PLACE, check));
    let table = black_box(routines::write::<Table> as Write);
    let by_match = black_box(routines::write::<Match> as Write);
    frames(
        name,
        |buffer, input| host::write(buffer, place, code(input), &words[input], check),
        |buffer, input| table(buffer, place, code(input), &words[input], check),
        |buffer, input| by_match(buffer, place, code(input), &words[input], check),
    );
}

/// Headers of reads of words, bytes and the account.
fn read(name: &str) {
    const CODES: [u8; 6] = [0x79, 0x78, 0x86, 0x8B, 0x8C, 0x7A];
    type Read = fn(&mut [u8], usize, u8, bool) -> Built;
    let code = |input: usize| CODES[input % CODES.len()];
    let (place, check) = black_box((PLACE, true));
    let table = black_box(routines::read::<Table> as Read);
    let by_match = black_box(routines::read::<Match> as Read);
    frames(
        name,
        |buffer, input| host::read(buffer, place, code(input), check),
        |buffer, input| table(buffer, place, code(input), check),
        |buffer, input| by_match(buffer, place, code(input), check),
    );
}

/// Right replies to reads of a code.
fn reply(name: &str, code: u8, data: usize, check: bool) {
    type Read = fn(u8, bool, &[u8]) -> Reply;
    let mut random = Random::new(51);
    let inputs: Vec<Vec<u8>> = (0..INPUTS)
        .map(|_| {
            let mut bytes = random.bytes(data);
            if data == 7 {
                (bytes[0], bytes[2]) = (6, bytes[2] & 0x7F);
            }
            if check {
                bytes.push(pec::pec_from(pec::pec(&[0xC0, code, 0xC1]), &bytes));
            }
            bytes
        })
        .collect();
    let (code, check) = black_box((code, check));
    let table = black_box(routines::reply::<Table> as Read);
    let by_match = black_box(routines::reply::<Match> as Read);
    for input in &inputs {
        let due = table(code, check, input);
        assert_eq!(due.answer, 0, "{name}");
        assert_eq!(by_match(code, check, input), due, "{name}");
        assert_eq!(host::reply(code, check, input), due, "{name}");
    }
    let mut candidates = [
        Candidate(Box::new(|| {
            for call in 0..CALLS {
                black_box(host::reply(code, check, &inputs[call % INPUTS]));
            }
        })),
        Candidate(Box::new(|| {
            for call in 0..CALLS {
                black_box(table(code, check, &inputs[call % INPUTS]));
            }
        })),
        Candidate(Box::new(|| {
            for call in 0..CALLS {
                black_box(by_match(code, check, &inputs[call % INPUTS]));
            }
        })),
    ];
    print_row(name, &race(CALLS, &mut candidates));
}

pub fn tables() {
    print_head(&["Rust on slices, table", "Rust on slices, `match`"]);
    write("write of a limit with PEC, built", true);
    write("the same without PEC", false);
    read("header of a read, built");
    reply("reply of READ_EIN with PEC, read", 0x86, 7, true);
    reply("reply of STATUS_WORD with PEC, read", 0x79, 2, true);
    reply("the same without PEC", 0x79, 2, false);
}
