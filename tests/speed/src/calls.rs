//! The packet check, the device's calls and the totalizer's step: the library beside the Rust routines.

use crate::race::{print_row, race, Candidate};
use crate::routines::{self, by_value, in_place, Done, Taken};
use conformance::library;
use conformance::mirror;
use conformance::random::Random;
use reference::device::{Device, READ_ADDRESS, WRITE_ADDRESS};
use reference::pec;
use reference::totalizer::Totalizer;
use std::hint::black_box;

/// Inputs that a case goes round through.
const INPUTS: usize = 16;
/// Calls in a batch of a device's or the totalizer's.
const CALLS: usize = 1000;

/// Room for the longest reply that is asked for.
type Reply = [u8; 8];

pub fn pec_of(name: &str, length: usize, calls: usize) {
    let mut random = Random::new(20);
    let inputs: Vec<Vec<u8>> = (0..INPUTS).map(|_| random.bytes(length)).collect();
    let rivals: [fn(&[u8]) -> u8; 3] = [
        routines::pec_by_table,
        routines::pec,
        routines::pec_bit_by_bit,
    ];
    let rivals = rivals.map(black_box);
    for input in &inputs {
        for rival in rivals {
            assert_eq!(library::pec(input), rival(input), "{name}");
        }
    }
    let mut candidates = vec![Candidate(Box::new(|| {
        for call in 0..calls {
            black_box(library::pec(&inputs[call % INPUTS]));
        }
    }))];
    for rival in rivals {
        let inputs = &inputs;
        candidates.push(Candidate(Box::new(move || {
            for call in 0..calls {
                black_box(rival(&inputs[call % INPUTS]));
            }
        })));
    }
    print_row(name, &race(calls, &mut candidates));
}

/// One batch: each call works on the state that the last one left.
fn batch<'a, S>(
    state: &'a mut S,
    mut call: impl FnMut(&mut S, &mut Reply, usize) -> u8 + 'a,
) -> Candidate<'a> {
    let mut reply: Reply = [0; 8];
    Candidate(Box::new(move || {
        for place in 0..CALLS {
            black_box(call(state, &mut reply, place % INPUTS));
        }
    }))
}

/// The three ways to make a call with the input at a place; each changes the state it is given and tells the answer.
/// First all three are compared along a run: state, answer and reply.
fn device_calls(
    name: &str,
    wanted: u8,
    start: Device,
    mut ours: impl FnMut(&mut library::Device, &mut Reply, usize) -> u8,
    mut value: impl FnMut(&mut Device, &mut Reply, usize) -> u8,
    mut place: impl FnMut(&mut Device, &mut Reply, usize) -> u8,
) {
    let (mut a, mut b, mut c) = (mirror::from_reference(&start), start, start);
    for input in 0..4 * INPUTS {
        let input = input % INPUTS;
        let mut replies: [Reply; 3] = [[0; 8]; 3];
        let answer = ours(&mut a, &mut replies[0], input);
        assert_eq!(answer, wanted, "{name}");
        assert_eq!(value(&mut b, &mut replies[1], input), wanted, "{name}");
        assert_eq!(place(&mut c, &mut replies[2], input), wanted, "{name}");
        assert_eq!((mirror::to_reference(&a), b), (b, c), "{name}");
        assert_eq!((replies[0], replies[1]), (replies[1], replies[2]), "{name}");
    }
    let times = race(
        CALLS,
        &mut [
            batch(&mut a, ours),
            batch(&mut b, value),
            batch(&mut c, place),
        ],
    );
    print_row(name, &times);
}

/// PAGE of the device in use.
pub const ONE_PAGE: u8 = 3;
/// PAGE that selects every page.
pub const EVERY_PAGE: u8 = 0xFF;

/// A device as it stands in use: every page on and measured, within its limits; then PAGE is written.
pub fn supplying(selected: u8) -> Device {
    let mut device = Device::power_on();
    for page in 0..8 {
        device.write(&[WRITE_ADDRESS, 0x00, page]);
        device.write(&[WRITE_ADDRESS, 0x01, 0x80]);
        for (quantity, word) in [0x2666, 0xD240, 0xD300, 0xEA00].into_iter().enumerate() {
            device.measure(page, quantity as u8, word);
        }
    }
    device.write(&[WRITE_ADDRESS, 0x00, selected]);
    assert!(device.pages.iter().all(|page| page.supplies()) && !device.alert);
    device
}

/// A write of a limit with PEC, accepted; and the same with a wrong PEC, refused with answer 7. On the selected page, or on each.
pub fn write(name: &str, wanted: u8, selected: u8) {
    const LIMITS: [(u8, u16); 6] = [
        (0x40, 0x2A3D),
        (0x46, 0xD280),
        (0x4F, 0xEB70),
        (0x53, 0xEEC0),
        (0x55, 0xD3FF),
        (0x59, 0xC3F5),
    ];
    let inputs: Vec<[u8; 5]> = (0..INPUTS)
        .map(|place| {
            let (code, word) = LIMITS[place % LIMITS.len()];
            let [low, high] = (word - place as u16 % 2).to_le_bytes();
            let bytes = [WRITE_ADDRESS, code, low, high];
            let check = pec::pec(&bytes) ^ u8::from(wanted != 0);
            [WRITE_ADDRESS, code, low, high, check]
        })
        .collect();
    let value = black_box(by_value::write as fn(Device, &[u8]) -> Done);
    let place = black_box(in_place::write as fn(&mut Device, &[u8]) -> u8);
    device_calls(
        name,
        wanted,
        supplying(selected),
        |device, _, input| {
            let done = library::write(*device, &inputs[input]);
            *device = done.device;
            done.answer
        },
        |device, _, input| {
            let done = value(*device, &inputs[input]);
            *device = done.device;
            done.answer
        },
        |device, _, input| place(device, &inputs[input]),
    );
}

/// A read of a code with its data bytes and the PEC clocked.
pub fn read(name: &str, code: u8, data: usize) {
    let header = [WRITE_ADDRESS, code, READ_ADDRESS];
    let header = black_box(&header);
    let n = black_box(data + 1);
    let value = black_box(by_value::read as fn(Device, &[u8], &mut [u8]) -> Done);
    let place = black_box(in_place::read as fn(&mut Device, &[u8], &mut [u8]) -> u8);
    device_calls(
        name,
        0,
        supplying(ONE_PAGE),
        |device, reply, _| {
            let done = library::read(*device, header, &mut reply[..n]);
            *device = done.device;
            done.answer
        },
        |device, reply, _| {
            let done = value(*device, header, &mut reply[..n]);
            *device = done.device;
            done.answer
        },
        |device, reply, _| place(device, header, &mut reply[..n]),
    );
}

/// Words within the limits, on pages and quantities in turn.
pub fn measure(name: &str) {
    const WORDS: [u16; 4] = [0x2666, 0xD240, 0xD300, 0xEA00];
    let inputs: Vec<(u8, u8, u16)> = (0..INPUTS)
        .map(|place| {
            let quantity = place % 4;
            (
                (place % 8) as u8,
                quantity as u8,
                WORDS[quantity] + (place / 8) as u16,
            )
        })
        .collect();
    let value = black_box(by_value::measure as fn(Device, u8, u8, u16) -> Done);
    let place = black_box(in_place::measure as fn(&mut Device, u8, u8, u16) -> u8);
    device_calls(
        name,
        0,
        supplying(ONE_PAGE),
        |device, _, input| {
            let (page, quantity, word) = inputs[input];
            let done = library::measure(*device, page, quantity, word);
            *device = done.device;
            done.answer
        },
        |device, _, input| {
            let (page, quantity, word) = inputs[input];
            let done = value(*device, page, quantity, word);
            *device = done.device;
            done.answer
        },
        |device, _, input| {
            let (page, quantity, word) = inputs[input];
            place(device, page, quantity, word)
        },
    );
}

pub fn sample(name: &str) {
    let mut random = Random::new(21);
    let inputs: Vec<u16> = (0..INPUTS).map(|_| random.u16() & 0x7FFF).collect();
    let value = black_box(by_value::sample as fn(Device, u16) -> Done);
    let place = black_box(in_place::sample as fn(&mut Device, u16) -> u8);
    device_calls(
        name,
        0,
        supplying(ONE_PAGE),
        |device, _, input| {
            let done = library::sample(*device, inputs[input]);
            *device = done.device;
            done.answer
        },
        |device, _, input| {
            let done = value(*device, inputs[input]);
            *device = done.device;
            done.answer
        },
        |device, _, input| place(device, inputs[input]),
    );
}

/// A tick with every page within its limits; and with VOUT above its limit on each, under retries for ever and delay 2.
pub fn tick(name: &str, failing: bool) {
    let value = black_box(by_value::tick as fn(Device) -> Done);
    let place = black_box(in_place::tick as fn(&mut Device) -> u8);
    let mut start = supplying(ONE_PAGE);
    if failing {
        for page in &mut start.pages {
            page.responses[0] = 0xBA;
        }
        for page in 0..8 {
            start.measure(page, 0, 0x7BFF);
        }
    }
    device_calls(
        name,
        0,
        start,
        |device, _, _| {
            let done = library::tick(*device);
            *device = done.device;
            done.answer
        },
        |device, _, _| {
            let done = value(*device);
            *device = done.device;
            done.answer
        },
        |device, _, _| place(device),
    );
}

/// An answered alert response: the alert is put up before each.
pub fn alert_response(name: &str) {
    let n = black_box(1);
    let value = black_box(by_value::alert_response as fn(Device, &mut [u8]) -> Done);
    let place = black_box(in_place::alert_response as fn(&mut Device, &mut [u8]) -> u8);
    device_calls(
        name,
        0,
        supplying(ONE_PAGE),
        |device, reply, _| {
            device.unpaged.alert = true;
            let done = library::alert_response(*device, &mut reply[..n]);
            *device = done.device;
            done.answer
        },
        |device, reply, _| {
            device.alert = true;
            let done = value(*device, &mut reply[..n]);
            *device = done.device;
            done.answer
        },
        |device, reply, _| {
            device.alert = true;
            place(device, &mut reply[..n])
        },
    );
}

/// Replies of an account that moves on, each accepted.
pub fn totalizer(name: &str) {
    let mut random = Random::new(22);
    let mut device = Device::power_on();
    let inputs: Vec<[u8; 8]> = (0..INPUTS)
        .map(|_| {
            for _ in 0..50 {
                device.sample(random.u16() & 0x7FFF);
            }
            let mut reply = [0; 8];
            device.read(&[WRITE_ADDRESS, 0x86, READ_ADDRESS], &mut reply);
            reply
        })
        .collect();
    let value = black_box(by_value::take as fn(Totalizer, &[u8]) -> Taken);
    let place = black_box(in_place::take as fn(&mut Totalizer, &[u8]) -> u8);

    let ours = |totalizer: &mut library::Totalizer, _: &mut Reply, input: usize| {
        let taken = library::totalizer_take(*totalizer, &inputs[input]);
        *totalizer = taken.totalizer;
        taken.answer
    };
    let theirs = |totalizer: &mut Totalizer, _: &mut Reply, input: usize| {
        let taken = value(*totalizer, &inputs[input]);
        *totalizer = taken.totalizer;
        taken.answer
    };
    let in_place =
        |totalizer: &mut Totalizer, _: &mut Reply, input: usize| place(totalizer, &inputs[input]);
    let (mut a, mut b, mut c) = (
        library::totalizer_fresh(),
        Totalizer::fresh(),
        Totalizer::fresh(),
    );
    for input in 0..4 * INPUTS {
        let input = input % INPUTS;
        let answers = [
            ours(&mut a, &mut [0; 8], input),
            theirs(&mut b, &mut [0; 8], input),
            in_place(&mut c, &mut [0; 8], input),
        ];
        assert_eq!(answers, [0; 3], "{name}");
        assert_eq!((mirror::totalizer_to_reference(&a), b), (b, c), "{name}");
    }
    let times = race(
        CALLS,
        &mut [
            batch(&mut a, ours),
            batch(&mut b, theirs),
            batch(&mut c, in_place),
        ],
    );
    print_row(name, &times);
}
