//! The six kinds of call: random ones, and one call made on the library and on the second program.

use crate::library::{self, Device, Page, Unpaged};
use crate::mirror;
use crate::random::Random;
use crate::states;
use reference::command;
use reference::pec;

#[derive(Clone, Debug, PartialEq, Eq)]
pub enum Call {
    Write(Vec<u8>),
    /// The header, and the number of bytes clocked.
    Read(Vec<u8>, usize),
    Measure(u8, u8, u16),
    Sample(u16),
    AlertResponse(usize),
    Tick,
}

pub const KINDS: [&str; 6] = [
    "write",
    "read",
    "measure",
    "sample",
    "alert response",
    "tick",
];

impl Call {
    /// The place of the kind in `KINDS`.
    pub fn kind(&self) -> usize {
        match self {
            Call::Write(_) => 0,
            Call::Read(..) => 1,
            Call::Measure(..) => 2,
            Call::Sample(_) => 3,
            Call::AlertResponse(_) => 4,
            Call::Tick => 5,
        }
    }

    /// The length of the reply buffer.
    pub fn clocked(&self) -> usize {
        match *self {
            Call::Read(_, n) | Call::AlertResponse(n) => n,
            _ => 0,
        }
    }
}

/// What a call leaves: the state, the answer and the reply buffer.
#[derive(Clone, Debug, PartialEq, Eq)]
pub struct Outcome {
    pub device: Device,
    pub answer: u8,
    pub reply: Vec<u8>,
}

/// Bytes behind the reply buffer, which no call may touch.
pub const GUARD: usize = 8;

/// The call on the library. The reply buffer holds `before` in every byte, and so do the bytes behind it.
pub fn on_library(device: Device, call: &Call, before: u8) -> Outcome {
    let n = call.clocked();
    let mut room = vec![before; n + GUARD];
    let reply = &mut room[..n];
    let done = match call {
        Call::Write(bytes) => library::write(device, bytes),
        Call::Read(header, _) => library::read(device, header, reply),
        Call::Measure(page, quantity, word) => library::measure(device, *page, *quantity, *word),
        Call::Sample(sample) => library::sample(device, *sample),
        Call::AlertResponse(_) => library::alert_response(device, reply),
        Call::Tick => library::tick(device),
    };
    assert_eq!(
        room[n..],
        [before; GUARD],
        "written behind the reply buffer: {call:02x?}"
    );
    room.truncate(n);
    Outcome {
        device: done.device,
        answer: done.answer,
        reply: room,
    }
}

/// The call on the second program.
pub fn on_reference(device: Device, call: &Call, before: u8) -> Outcome {
    let mut state = mirror::to_reference(&device);
    let mut reply = vec![before; call.clocked()];
    let answer = match call {
        Call::Write(bytes) => state.write(bytes),
        Call::Read(header, _) => state.read(header, &mut reply),
        Call::Measure(page, quantity, word) => state.measure(*page, *quantity, *word),
        Call::Sample(sample) => state.sample(*sample),
        Call::AlertResponse(_) => state.alert_response(&mut reply),
        Call::Tick => state.tick(),
    };
    Outcome {
        device: mirror::from_reference(&state),
        answer,
        reply,
    }
}

/// The call on both: fails where state, answer or reply differ.
pub fn on_both(device: Device, call: &Call, before: u8) -> Outcome {
    let ours = on_library(device, call, before);
    let theirs = on_reference(device, call, before);
    assert_eq!(
        ours, theirs,
        "library left, second program right: {call:02x?} on {device:02x?}"
    );
    ours
}

/// A random call, shaped so that on this state every answer is met often.
pub fn random_call(random: &mut Random, unpaged: &Unpaged, pages: &[Page]) -> Call {
    match random.below(12) {
        0..=3 => Call::Write(write(random, unpaged, pages)),
        4..=6 if random.once_in(4) => coefficients(random),
        4..=6 => read(random),
        7 => measure(random, unpaged, pages),
        8 => Call::Sample(sample(random)),
        9 | 10 => Call::Tick,
        _ => Call::AlertResponse(if random.once_in(3) {
            random.below(12)
        } else {
            1
        }),
    }
}

/// A code of the table, or any.
fn code(random: &mut Random) -> u8 {
    if random.once_in(8) {
        random.u8()
    } else {
        random.pick(&command::TABLE).code
    }
}

/// A code to write: mostly one that is written, and often PAGE, OPERATION or CLEAR_FAULTS.
fn written_code(random: &mut Random) -> u8 {
    const WRITTEN: [u8; 22] = [
        0x00, 0x01, 0x03, 0x10, 0x21, 0x40, 0x41, 0x42, 0x46, 0x47, 0x4A, 0x4F, 0x50, 0x51, 0x53,
        0x54, 0x55, 0x56, 0x57, 0x58, 0x59, 0x5A,
    ];
    match random.below(8) {
        0 => code(random),
        1 | 2 => random.pick(&[0x00, 0x01, 0x03]),
        _ => random.pick(&WRITTEN),
    }
}

/// The data bytes that the table gives a code, or 1.
fn length(code: u8) -> usize {
    command::lookup(code).map_or(1, |command| command.data)
}

/// The page with this number, or one where there is none or every one is meant.
fn page_at(pages: &[Page], number: u8) -> Page {
    match pages.len() {
        0 => library::power_on().pages[0],
        length => pages[usize::from(number) % length],
    }
}

/// Data that are often valid for the code, and a limit that is often near the measured value.
fn data(random: &mut Random, unpaged: &Unpaged, pages: &[Page], code: u8) -> Vec<u8> {
    let page = page_at(pages, unpaged.page);
    let byte = match code {
        0x00 => states::selection(random, pages.len()),
        0x01 => random.pick(&[0x00, 0x40, 0x80, 0x80]),
        0x10 => random.pick(&[0x00, 0x00, 0x00, 0x20, 0x40, 0x80]),
        0x47 => random.pick(&[0x00, 0x80, 0xC0]),
        0x41 | 0x50 | 0x54 | 0x56 | 0x5A => states::response(random, 0),
        _ => random.u8(),
    };
    let measured = match code {
        0x40 | 0x42 => page.words[0],
        0x46 | 0x4A => page.words[1],
        0x4F | 0x51 | 0x53 => page.words[3],
        _ => page.words[2],
    };
    let word = states::near(random, measured).to_le_bytes();
    match length(code) {
        0 => vec![],
        1 if random.once_in(8) => vec![random.u8()],
        1 => vec![byte],
        2 => word.to_vec(),
        other => random.bytes(other),
    }
}

/// The bytes of a write transaction: mostly well formed but for one slip.
fn write(random: &mut Random, unpaged: &Unpaged, pages: &[Page]) -> Vec<u8> {
    let code = written_code(random);
    let mut bytes = vec![0xC0, code];
    bytes.extend(data(random, unpaged, pages, code));
    if random.bool() {
        bytes.push(pec::pec(&bytes));
    }
    match random.below(16) {
        0 => bytes.truncate(random.below(bytes.len() + 1)),
        1 => {
            let more = 1 + random.below(3);
            bytes.extend(random.bytes(more));
        }
        2 => {
            let last = bytes.len() - 1;
            bytes[last] ^= 1 << random.below(8);
        }
        3 if random.bool() => bytes[0] = random.pick(&[0xC1, 0x00, 0xC2, 0xFF]),
        4 if random.once_in(4) => {
            let length = random.below(301);
            bytes = random.bytes(length);
            if random.bool() {
                bytes.insert(0, 0xC0);
            }
        }
        _ => {}
    }
    bytes
}

/// A read transaction: mostly a whole header, and a number of bytes about that of the data.
fn read(random: &mut Random) -> Call {
    let code = code(random);
    let mut header = vec![0xC0, code, 0xC1];
    match random.below(16) {
        0 => header.truncate(random.below(3)),
        1 => header.push(random.u8()),
        2 => header[2] = random.pick(&[0xC0, 0x00, 0xC3, 0xFF]),
        3 => header[0] = random.pick(&[0xC1, 0x00, 0xC2, 0xFF]),
        4 if random.once_in(4) => {
            let length = random.below(301);
            header = random.bytes(length);
        }
        _ => {}
    }
    let n = match random.below(8) {
        0 => random.below(301),
        1 => random.below(12),
        2 => length(code) + 2,
        3 => length(code).saturating_sub(1),
        4 | 5 => length(code),
        _ => length(code) + 1,
    };
    Call::Read(header, n)
}

/// COEFFICIENTS: mostly a whole header for a code that carries a value, and a number of bytes about that of the reply.
fn coefficients(random: &mut Random) -> Call {
    const VALUES: [u8; 12] = [
        0x46, 0x4A, 0x4F, 0x51, 0x53, 0x55, 0x57, 0x58, 0x59, 0x88, 0x8C, 0x8D,
    ];
    let of = match random.below(4) {
        0 => code(random),
        _ => random.pick(&VALUES),
    };
    let other = random.u8();
    let direction = random.pick(&[0x00, 0x01, 0x01, 0x02, other]);
    let mut header = vec![0xC0, 0x30, 0x02, of, direction, 0xC1];
    match random.below(16) {
        0 => header[2] = random.pick(&[0x00, 0x01, 0x03, 0xFF]),
        1 => drop(header.remove(random.below(6))),
        2 => header.insert(random.below(7), other),
        3 => header[5] = random.pick(&[0xC0, 0x00, 0xC3, 0xFF]),
        4 if random.bool() => header[0] = random.pick(&[0xC1, 0x00, 0xC2, 0xFF]),
        5 if random.bool() => header[1] = code(random),
        _ => {}
    }
    let n = match random.below(8) {
        0 => random.below(301),
        1 => random.below(12),
        2 => 8,
        3 => 5,
        4 | 5 => 6,
        _ => 7,
    };
    Call::Read(header, n)
}

/// A measurement, often near a limit of its page.
fn measure(random: &mut Random, unpaged: &Unpaged, pages: &[Page]) -> Call {
    let page = match random.below(8) {
        0 => random.u8(),
        1..=3 => unpaged.page,
        _ => random.below(pages.len().max(1)) as u8,
    };
    let quantity = if random.once_in(8) {
        random.u8()
    } else {
        random.below(4) as u8
    };
    let limits = page_at(pages, page).limits;
    let limit = match quantity {
        0 => random.pick(&[limits[0], limits[6]]),
        1 => random.pick(&[limits[1], limits[7]]),
        2 => random.pick(&[limits[4], limits[5], limits[9], limits[10]]),
        _ => random.pick(&[limits[2], limits[3], limits[8]]),
    };
    Call::Measure(page, quantity, states::near(random, limit))
}

fn sample(random: &mut Random) -> u16 {
    let any = random.u16();
    random.pick(&[any, any & 0x7FFF, 0, 1, 32767, 32768])
}
