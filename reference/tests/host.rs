//! The frames that the host builds and the replies that it reads, against the device.

mod common;
use common::{byte, device, length, word, READABLE, WRITTEN};
use reference::device::{Account, Device};
use reference::host::{self, Built, Reply};
use reference::pec::{pec, pec_from};
use reference::random::Random;
use reference::totalizer::Totalizer;

/// The most data bytes tried; the table has seven at most.
const MOST_DATA: usize = 9;
const MOST_ROOM: usize = 16;

/// Places in and about the end of a buffer, and the last there is.
fn places(size: usize) -> impl Iterator<Item = usize> {
    (0..=size + 2).chain([usize::MAX - 1, usize::MAX])
}

const fn refused(answer: u8) -> Built {
    Built {
        answer,
        length: 0,
        count: 0,
    }
}

/// Builds into every buffer of up to 16 bytes, from every place about its ends. Where
/// the table has no objection (`due`: frame and count, or a refusal), the frame stands
/// at the place if it fits; nothing else is touched. Gives the number of buffers.
fn everywhere(
    random: &mut Random,
    due: Result<(&[u8], usize), u8>,
    build: impl Fn(&mut [u8], usize) -> Built,
) -> usize {
    let mut count = 0;
    for size in 0..=MOST_ROOM {
        for place in places(size) {
            let before = random.bytes(size);
            let mut expected = before.clone();
            let built = match due {
                Err(answer) => refused(answer),
                Ok((frame, _)) if size < frame.len() || place > size - frame.len() => refused(26),
                Ok((frame, count)) => {
                    expected[place..place + frame.len()].copy_from_slice(frame);
                    Built {
                        answer: 0,
                        length: frame.len(),
                        count,
                    }
                }
            };
            let mut buffer = before;
            assert_eq!(build(&mut buffer, place), built, "{due:02x?} at {place}");
            assert_eq!(buffer, expected, "{due:02x?} at {place}");
            count += 1;
        }
    }
    count
}

#[test]
fn every_write_in_every_small_buffer() {
    let mut random = Random::new(1);
    let mut count = 0;
    for code in 0..=0xFF {
        for number in 0..=MOST_DATA {
            for check in [false, true] {
                let data = random.bytes(number);
                let mut frame = [&[0xC0, code], &data[..]].concat();
                if check {
                    frame.push(pec(&frame));
                }
                let due = match length(&WRITTEN, code) {
                    None => Err(3),
                    Some(most) if number < most => Err(5),
                    Some(most) if number > most => Err(6),
                    Some(_) => Ok((&frame[..], 0)),
                };
                count += everywhere(&mut random, due, |buffer, place| {
                    host::write(buffer, place, code, &data, check)
                });
            }
        }
    }
    assert_eq!(count, 1_131_520);
}

#[test]
fn every_read_in_every_small_buffer() {
    let mut random = Random::new(2);
    let mut count = 0;
    for code in 0..=0xFF {
        for check in [false, true] {
            let header = [0xC0, code, 0xC1];
            let due = match length(&READABLE, code) {
                None => Err(3),
                Some(data) => Ok((&header[..], data + usize::from(check))),
            };
            count += everywhere(&mut random, due, |buffer, place| {
                host::read(buffer, place, code, check)
            });
        }
    }
    assert_eq!(count, 113_152);
}

/// The frame of a write that is not refused.
fn written(code: u8, data: &[u8], check: bool) -> Vec<u8> {
    let mut buffer = [0; MOST_ROOM];
    let built = host::write(&mut buffer, 0, code, data, check);
    assert_eq!((built.answer, built.count), (0, 0));
    buffer[..built.length].to_vec()
}

/// A read on the device and its reply, read into fields.
fn asked(device: &mut Device, code: u8, check: bool) -> (u8, Reply) {
    let mut buffer = [0; MOST_ROOM];
    let built = host::read(&mut buffer, 0, code, check);
    let mut bytes = vec![0x55; built.count];
    let answer = device.read(&buffer[..built.length], &mut bytes);
    (answer, host::reply(code, check, &bytes))
}

/// A reply of one byte or of a word.
fn number(code: u8, value: u16) -> Reply {
    match length(&READABLE, code) {
        Some(1) => Reply {
            byte: value as u8,
            ..Reply::default()
        },
        _ => Reply {
            word: value,
            ..Reply::default()
        },
    }
}

/// A device with any of the fields that the reads show.
fn any_device(random: &mut Random) -> Device {
    device(|device| {
        device.page = random.below(8) as u8;
        device.protect = random.pick(&[0x00, 0x20, 0x40, 0x80]);
        device.cml = random.byte();
        device.account = any_account(random);
        for page in &mut device.pages {
            page.operation = random.pick(&[0x00, 0x40, 0x80]);
            page.status = [(); 4].map(|_| random.byte());
        }
        for _ in 0..8 {
            device.measure(random.below(8) as u8, random.below(4) as u8, random.word());
        }
    })
}

fn any_account(random: &mut Random) -> Account {
    Account {
        accumulator: random.word() & 0x7FFF,
        rollover: u16::from(random.byte()),
        samples: u32::from_le_bytes([random.byte(), random.byte(), random.byte(), 0]),
    }
}

/// Codes whose accepted data are read back as they were written.
fn stores(code: u8) -> bool {
    !matches!(code, 0x03 | 0x7A..=0x7E)
}

/// The device takes each write as that code and data: it is accepted, protected or its
/// data are invalid, and what was stored comes back in the reply to a read.
#[test]
fn the_device_understands_what_is_written() {
    let mut random = Random::new(3);
    let mut seen = [0; 10];
    for (code, length) in WRITTEN {
        for turn in 0..2000 {
            let mut device = any_device(&mut random);
            let mut data = random.bytes(length);
            if turn % 2 == 0 {
                data.fill_with(|| random.pick(&[0x00, 0x40, 0x80, 0xC0, 0x07, 0x20]));
            }
            let check = random.percent(50);
            let answer = device.write(&written(code, &data, check));
            assert!([0, 8, 9].contains(&answer), "{answer} {code:02x}");
            seen[usize::from(answer)] += 1;
            if answer == 0 && stores(code) {
                let low = u16::from(data[0]);
                let high = u16::from(*data.get(1).unwrap_or(&0));
                let due = (0, number(code, high << 8 | low));
                assert_eq!(asked(&mut device, code, check), due, "{code:02x}");
            }
        }
    }
    assert!(
        seen[0] > 10_000 && seen[8] > 1000 && seen[9] > 1000,
        "{seen:?}"
    );
}

/// Each read is answered 0, and the fields of its reply are what the device holds.
#[test]
fn replies_carry_what_the_device_holds() {
    let mut random = Random::new(4);
    for (code, length) in READABLE {
        for _ in 0..500 {
            let mut device = any_device(&mut random);
            for check in [false, true] {
                let due = match length {
                    1 => number(code, u16::from(byte(&mut device, code))),
                    2 => number(code, word(&mut device, code)),
                    _ => Reply {
                        account: device.account,
                        ..Reply::default()
                    },
                };
                assert_eq!(asked(&mut device, code, check), (0, due), "{code:02x}");
            }
        }
    }
}

/// Data with the PEC of a reply to the code.
fn sealed(code: u8, data: &[u8]) -> Vec<u8> {
    let check = pec_from(pec(&[0xC0, code, 0xC1]), data);
    [data, &[check]].concat()
}

fn answers(answer: u8) -> Reply {
    Reply {
        answer,
        ..Reply::default()
    }
}

#[test]
fn replies_of_other_lengths() {
    let mut random = Random::new(5);
    for code in 0..=0xFF {
        for count in 0..=12 {
            for check in [false, true] {
                let due = match length(&READABLE, code) {
                    None => 3,
                    Some(data) if count == data + usize::from(check) => continue,
                    Some(_) => 20,
                };
                let bytes = random.bytes(count);
                assert_eq!(host::reply(code, check, &bytes), answers(due));
                // A right PEC at the end makes no other length right.
                if count > 0 {
                    let bytes = sealed(code, &bytes[1..]);
                    assert_eq!(host::reply(code, check, &bytes), answers(due));
                }
            }
        }
    }
}

/// Any bit of a reply with its PEC: 21. Without a PEC a changed bit is a changed field.
#[test]
fn replies_with_a_changed_bit() {
    let mut random = Random::new(6);
    for (code, length) in READABLE {
        for _ in 0..20 {
            let mut data = random.bytes(length);
            if length == 7 {
                (data[0], data[2]) = (0x06, data[2] & 0x7F);
            }
            let whole = sealed(code, &data);
            let clean = host::reply(code, true, &whole);
            assert_eq!(clean.answer, 0);
            assert_eq!(clean, host::reply(code, false, &data));
            for bit in 0..8 * whole.len() {
                let mut changed = whole.clone();
                changed[bit / 8] ^= 0x80 >> (bit % 8);
                assert_eq!(host::reply(code, true, &changed), answers(21));
                if bit / 8 < length {
                    assert_ne!(host::reply(code, false, &changed[..length]), clean);
                }
            }
        }
    }
}

/// 22 and 23 for an account, 21 before them, with a PEC and without.
#[test]
fn energy_replies() {
    for first in 0..=0xFF {
        for high in 0..=0xFF {
            let data = [first, 0x34, high, 0x56, 0xBC, 0x9A, 0x78];
            let due = if first != 0x06 {
                answers(22)
            } else if high > 0x7F {
                answers(23)
            } else {
                Reply {
                    account: Account {
                        accumulator: u16::from(high) << 8 | 0x34,
                        rollover: 0x56,
                        samples: 0x789ABC,
                    },
                    ..Reply::default()
                }
            };
            let mut whole = sealed(0x86, &data);
            assert_eq!(host::reply(0x86, false, &data), due);
            assert_eq!(host::reply(0x86, true, &whole), due);
            whole[7] ^= 0x10;
            assert_eq!(host::reply(0x86, true, &whole), answers(21));
        }
    }
}

/// A well-formed write comes from exactly one code, data and PEC choice, a read header
/// with a count from exactly one code and choice.
#[test]
fn built_in_one_way_only() {
    let mut random = Random::new(7);
    for (code, length) in WRITTEN {
        for check in [false, true] {
            let frame = written(code, &random.bytes(length), check);
            let mut ways = 0;
            for other in 0..=0xFF {
                for number in 0..=frame.len() - 2 {
                    for choice in [false, true] {
                        let mut buffer = [0; MOST_ROOM];
                        let data = &frame[2..2 + number];
                        let built = host::write(&mut buffer, 0, other, data, choice);
                        let same = built.answer == 0 && buffer[..built.length] == frame[..];
                        ways += usize::from(same);
                    }
                }
            }
            assert_eq!(ways, 1, "{frame:02x?}");
        }
    }
    for (code, length) in READABLE {
        for count in [length, length + 1] {
            let mut ways = 0;
            for other in 0..=0xFF {
                for choice in [false, true] {
                    let mut buffer = [0; 3];
                    let built = host::read(&mut buffer, 0, other, choice);
                    let same = built.count == count && buffer == [0xC0, code, 0xC1];
                    ways += usize::from(same);
                }
            }
            assert_eq!(ways, 1, "{code:02x}");
        }
    }
}

/// The totalizer of a code takes replies whose PEC covers the header with that code.
#[test]
fn totalizer_by_code() {
    let data = [0x06, 0x05, 0x00, 0x01, 0x03, 0x00, 0x00];
    for code in 0..=0xFF {
        for other in 0..=0xFF {
            let mut totalizer = Totalizer::fresh();
            let answer = totalizer.take_of(code, &sealed(other, &data));
            assert_eq!(answer, if code == other { 0 } else { 21 });
            assert_eq!(totalizer.started, code == other);
        }
    }
    let (mut by_code, mut usual) = (Totalizer::fresh(), Totalizer::fresh());
    let mut random = Random::new(8);
    for _ in 0..10_000 {
        let mut data = random.bytes(7);
        data[0] = random.pick(&[0x06, 0x06, 0x06, data[0]]);
        let mut reply = sealed(0x86, &data);
        reply.truncate(random.pick(&[8, 8, 8, 7]));
        assert_eq!(by_code.take_of(0x86, &reply), usual.take(&reply));
        assert_eq!(by_code, usual);
    }
}
