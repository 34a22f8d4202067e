//! The device: the library against the second program, on random states and along runs from power-on.

use conformance::calls::{on_both, random_call, Call};
use conformance::headers;
use conformance::library::{self, Format, PageChoice};
use conformance::mirror;
use conformance::random::Random;
use conformance::states;
use conformance::tally::{Changes, Seen};
use reference::device;

const CALLS: usize = 1_000_000;
const RUN: usize = 1_000;

#[test]
fn power_on() {
    assert_eq!(
        mirror::to_reference(&library::power_on()),
        device::Device::power_on()
    );
    println!("  power-on: every field agrees");
}

#[test]
fn power_on_by_choices() {
    let mut random = Random::new(13);
    let mut refused = 0;
    for _ in 0..CALLS / 20 {
        let choices = states::eight_choices(&mut random);
        let done = library::power_on_by(choices);
        let chosen = choices.each_ref().map(mirror::choice_to_reference);
        let (device, answer) = device::Device::power_on_with(&chosen);
        assert_eq!(
            (mirror::to_reference(&done.device), done.answer),
            (device, answer),
            "{choices:04x?}"
        );
        if answer == 27 {
            assert_eq!(done.device, library::power_on(), "{choices:04x?}");
            refused += 1;
        }
    }
    assert!(refused > CALLS / 200, "{refused}");
    // Each single format of each page, m and R at and beyond their ends.
    for place in 0..24 {
        for (m, r, answer) in [
            (0x0000, 0x00, 27),
            (0x0001, 0x06, 0),
            (0x0001, 0x07, 27),
            (0xFFFF, 0xFA, 0),
            (0xFFFF, 0xF9, 27),
            (0x8000, 0x80, 27),
            (0x7FFF, 0x7F, 27),
        ] {
            let linear = Format {
                direct: false,
                m,
                b: 0,
                r,
            };
            let mut choices = [PageChoice {
                formats: [linear; 3],
                limits: [0; 6],
            }; 8];
            assert_eq!(library::power_on_by(choices).answer, 0);
            choices[place / 3].formats[place % 3].direct = true;
            assert_eq!(
                library::power_on_by(choices).answer,
                answer,
                "{m:04x} {r:02x}"
            );
        }
    }
    println!(
        "  device: power-on by {} choices agrees in every field, {refused} of them with 27 and all linear; each format of each page gets 27 alike",
        CALLS / 20
    );
}

/// Words at, next to and far from a limit, for the limits of each DIRECT quantity, with both signs of m: which bits stand is what the signed
/// words say, turned round under a negative m.
#[test]
fn direct_words_cross_their_limits() {
    const WORDS: [u16; 7] = [0x8000, 0x8001, 0xFFFF, 0x0000, 0x0001, 0x7FFE, 0x7FFF];
    // Limit, quantity, register bit, and whether the cause or warning is above.
    const LIMITS: [(u8, u8, u8, bool); 9] = [
        (0x46, 1, 0x80, true),
        (0x4A, 1, 0x20, true),
        (0x4F, 3, 0x80, true),
        (0x51, 3, 0x40, true),
        (0x53, 3, 0x10, false),
        (0x55, 2, 0x80, true),
        (0x57, 2, 0x40, true),
        (0x58, 2, 0x20, false),
        (0x59, 2, 0x10, false),
    ];
    let mut random = Random::new(14);
    let (mut count, mut present) = (0, [0; 2]);
    for m in [0x0001, 0x7FFF, 0xFFFF, 0x8000] {
        for r in [0x00, 0x06, 0xFA] {
            let format = Format {
                direct: true,
                m,
                b: random.u16(),
                r,
            };
            for (code, quantity, bit, above) in LIMITS {
                for (limit, word) in WORDS.iter().flat_map(|&l| WORDS.map(|w| (l, w))) {
                    let mut choice = states::choice(&mut random);
                    choice.formats[usize::from(quantity) - 1] = format;
                    let page = random.below(8) as u8;
                    let mut device = library::power_on_by([choice; 8]).device;
                    device.unpaged.page = page;
                    let [low, high] = limit.to_le_bytes();
                    let write = Call::Write(vec![0xC0, code, low, high]);
                    let measure = Call::Measure(page, quantity, word);
                    // Either may come last.
                    let calls = match random.bool() {
                        true => [write, measure],
                        false => [measure, write],
                    };
                    for call in calls {
                        let outcome = on_both(device, &call, 0);
                        assert_eq!(outcome.answer, 0);
                        device = outcome.device;
                    }
                    // Bits of other limits that the word met on the way.
                    device.pages[usize::from(page)].status = [0; 4];
                    let outcome = on_both(device, &Call::Measure(page, quantity, word), 0);
                    let status = outcome.device.pages[usize::from(page)].status;
                    let (y, l) = (word as i16, limit as i16);
                    let beyond = if above == (m < 0x8000) { y > l } else { y < l };
                    let stands = status[usize::from(quantity)] & bit != 0;
                    assert_eq!(stands, beyond, "{code:02x} {limit:04x} {word:04x} {m:04x}");
                    present[usize::from(beyond)] += 1;
                    count += 1;
                }
            }
        }
    }
    println!(
        "  device: {count} DIRECT words at and about their limits, m and R at their ends, have the bits that signed words say ({} present, {} not)",
        present[1], present[0]
    );
}

/// COEFFICIENTS on pages with DIRECT quantities: every code in four directions, and headers of every other kind.
#[test]
fn coefficients() {
    let mut random = Random::new(15);
    let (mut seen, mut count) = (Seen::default(), 0);
    for state in 0..12 {
        let mut device = states::valid(&mut random);
        device.unpaged.page = if state < 8 { state } else { 0xFF };
        for header in headers::every_code() {
            for n in [0, 5, 6, 7, 8] {
                let outcome = on_both(device, &Call::Read(header.clone(), n), random.u8());
                let due = headers::sent(&device, &header);
                match &due {
                    None => assert_eq!(outcome.answer, 9, "{header:02x?}"),
                    Some(sent) => {
                        assert_eq!(
                            outcome.answer,
                            [10, 0, 11][(n > 5) as usize + (n > 7) as usize]
                        );
                        assert_eq!(outcome.reply[..n.min(7)], sent[..n.min(7)], "{header:02x?}");
                    }
                }
                seen.note(&Call::Read(header.clone(), n), outcome.answer);
                count += 1;
            }
        }
        for header in headers::wrong(&mut random) {
            let n = random.below(10);
            let outcome = on_both(device, &Call::Read(header.clone(), n), random.u8());
            let due = if header == [0xC0, 0x30, 0xC1] { 3 } else { 2 };
            assert_eq!(outcome.answer, due, "{header:02x?}");
            assert_eq!(outcome.reply, vec![0xFF; n], "{header:02x?}");
            count += 1;
        }
        for length in 0..8 {
            let mut bytes = vec![0xC0, 0x30, 0x02, 0x46, 0x01];
            bytes.extend(random.bytes(3));
            bytes.truncate(2 + length);
            let outcome = on_both(device, &Call::Write(bytes.clone()), 0);
            assert_eq!(outcome.answer, 3, "{bytes:02x?}");
            count += 1;
        }
    }
    seen.require([&[], &[0, 9, 10, 11], &[], &[], &[], &[]]);
    println!("  device: COEFFICIENTS of every code in four directions, wrong headers of every kind and writes ({count} calls) agree");
}

#[test]
fn supplies() {
    let mut random = Random::new(12);
    let mut on = 0;
    for _ in 0..CALLS / 100 {
        let mut device = match random.below(4) {
            0 => states::anything(&mut random),
            _ => states::valid(&mut random),
        };
        device
            .pages
            .iter_mut()
            .for_each(states::without_iout_oc_machine);
        // A page that nothing but a present cause keeps off, in a format that gets 15 half of the time.
        let page = &mut device.pages[random.below(8)];
        (page.operation, page.tripped) = (0x80, false);
        (page.machines, page.responses) = ([0; 6], [0xC0; 6]);
        if random.bool() {
            page.formats[random.below(3)] = states::invalid_format(&mut random);
        }
        let pages = mirror::to_reference(&device).pages;
        for page in 0..=u8::MAX {
            let expected = pages.get(usize::from(page)).is_some_and(|p| p.supplies());
            assert_eq!(
                library::supplies(device, page),
                expected,
                "page {page} of {device:?}"
            );
            on += usize::from(expected);
        }
    }
    assert!(on > CALLS / 1000, "{on}");
    println!(
        "  supplies: 256 page numbers of {} states agree, {on} on",
        CALLS / 100
    );
}

#[test]
fn random_calls_on_random_states() {
    let mut random = Random::new(10);
    let (mut seen, mut changes) = (Seen::default(), Changes::default());
    for _ in 0..CALLS {
        let device = match random.below(10) {
            0 => states::anything(&mut random),
            1 | 2 => states::one_field_invalid(&mut random),
            _ => states::valid(&mut random),
        };
        let call = random_call(&mut random, &device.unpaged, &device.pages);
        let outcome = on_both(device, &call, random.u8());
        assert_eq!(outcome.answer == 15, !mirror::to_reference(&device).valid());
        seen.note(&call, outcome.answer);
        changes.note(&device, &outcome.device);
    }
    seen.require([
        &[0, 1, 2, 3, 5, 6, 7, 8, 9, 15],
        &[0, 1, 2, 3, 9, 10, 11, 15],
        &[0, 12, 15],
        &[0, 13, 15],
        &[0, 2, 14, 15],
        &[0, 15],
    ]);
    println!(
        "  device: {CALLS} calls on random states agree in every field, answer and reply byte"
    );
    seen.print();
    changes.print(CALLS / 1000);
}

#[test]
fn random_runs_from_power_on() {
    let mut random = Random::new(11);
    let (mut seen, mut changes) = (Seen::default(), Changes::default());
    for _ in 0..CALLS / RUN {
        let mut device = match random.bool() {
            true => library::power_on(),
            false => library::power_on_by(states::eight_choices(&mut random)).device,
        };
        for _ in 0..RUN {
            let call = random_call(&mut random, &device.unpaged, &device.pages);
            let outcome = on_both(device, &call, random.u8());
            seen.note(&call, outcome.answer);
            changes.note(&device, &outcome.device);
            device = outcome.device;
        }
    }
    seen.require([
        &[0, 1, 2, 3, 5, 6, 7, 8, 9],
        &[0, 1, 2, 3, 9, 10, 11],
        &[0, 12],
        &[0, 13],
        &[0, 2, 14],
        &[0],
    ]);
    println!(
        "  device: {} runs of {RUN} calls from power-on agree",
        CALLS / RUN
    );
    seen.print();
    changes.print(CALLS / 1000);
}

/// At each level of WRITE_PROTECT, with one page selected and with every one: every code written with every first data byte and 0 to 4
/// data bytes, without and with the right PEC, and read with every small n.
#[test]
fn every_code_at_every_length() {
    let mut random = Random::new(12);
    let mut count = 0;
    for state in 0..8 {
        let mut device = states::valid(&mut random);
        device.unpaged.protect = [0x00, 0x20, 0x40, 0x80][state % 4];
        device.unpaged.page = if state < 4 { state as u8 } else { 0xFF };
        for code in 0..=0xFF {
            for n in 0..12 {
                on_both(device, &Call::Read(vec![0xC0, code, 0xC1], n), random.u8());
                count += 1;
            }
            for first in 0..=0xFF {
                for length in 0..5 {
                    let mut bytes = vec![0xC0, code, first];
                    bytes.extend(random.bytes(4));
                    bytes.truncate(2 + length);
                    on_both(device, &Call::Write(bytes.clone()), 0);
                    bytes.push(reference::pec::pec(&bytes));
                    on_both(device, &Call::Write(bytes), 0);
                    count += 2;
                }
            }
        }
    }
    println!("  device: every code with every first data byte, 0 to 4 data bytes, with PEC and without, at each protection, with a page selected and with FFh ({count} calls) agree");
}
