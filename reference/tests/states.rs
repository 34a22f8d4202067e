//! States handed in: answer 15, and states not reached from power-on.

mod common;
use common::*;
use reference::device::{Device, Format, Machine, Page, Reading};

/// Makes every kind of call on a state that must get 15 and stay as it is.
fn all_calls_get_15(mut state: Device) {
    let before = state;
    for bytes in [&[][..], &[0x00], &[0xC0], &[0xC0, 0x03], &[0xC0, 0x99]] {
        assert_eq!(state.write(bytes), 15);
    }
    for header in [&[][..], &[0x00], &[0xC0, 0x98, 0xC1], &[0xC0, 0x99, 0xC1]] {
        for n in [0, 1, 2, 9] {
            assert_eq!(read_header(&mut state, header, n), (15, vec![0xFF; n]));
        }
    }
    assert_eq!(state.measure(0, 0, 0), 15);
    assert_eq!(state.measure(8, 4, 0), 15);
    assert_eq!(state.sample(0), 15);
    assert_eq!(state.sample(32768), 15);
    assert_eq!(state.tick(), 15);
    for n in [0, 1, 2] {
        assert_eq!(alert(&mut state, n), (15, vec![0xFF; n]));
    }
    assert_eq!(state, before);
}

#[test]
fn answer_15_unpaged_fields() {
    all_calls_get_15(device(|device| device.page = 8));
    all_calls_get_15(device(|device| device.page = 254));
    all_calls_get_15(device(|device| device.protect = 0x10));
    all_calls_get_15(device(|device| device.protect = 0xC0));
    all_calls_get_15(device(|device| device.account.accumulator = 0x8000));
    all_calls_get_15(device(|device| device.account.rollover = 256));
    all_calls_get_15(device(|device| device.account.samples = 0x0100_0000));
    all_calls_get_15(device(|device| {
        device.page = 8;
        device.alert = true;
    }));
}

#[test]
fn answer_15_fields_of_every_page() {
    for page in 0..8 {
        for value in [0x01, 0x20, 0xC0, 0xFF] {
            all_calls_get_15(device(|device| device.pages[page].operation = value));
        }
        for value in [0x40, 0x80, 0xC1, 0xFF] {
            all_calls_get_15(device(|device| device.pages[page].responses[1] = value));
        }
        for machine in 0..5 {
            for (phase, ticks, tries) in [(0, 0, 1), (1, 0, 0), (2, 8, 1), (3, 0, 6), (5, 0, 0)] {
                all_calls_get_15(device(|device| {
                    device.pages[page].machines[machine] = Machine {
                        phase,
                        ticks,
                        tries,
                    };
                }));
            }
        }
    }
}

#[test]
fn answer_15_a_format_of_any_quantity_of_any_page() {
    for page in 0..8 {
        for quantity in 0..3 {
            for (m, r) in [(0, 0), (1, 7), (1, -7), (-1, 127), (-1, -128), (0, 7)] {
                let bad = Format::direct(m, 5, r);
                all_calls_get_15(device(|device| device.pages[page].formats[quantity] = bad));
            }
            for (m, r) in [(1, 6), (-1, -6), (i16::MIN, 0), (i16::MAX, 1)] {
                let good = Format::direct(m, i16::MIN, r);
                assert!(device(|device| device.pages[page].formats[quantity] = good).valid());
            }
        }
    }
}

#[test]
fn every_other_field_may_hold_anything() {
    let mut state = device(|device| {
        device.cml = 0xFF;
        device.alert = true;
        device.account.accumulator = 0x7FFF;
        device.account.rollover = 255;
        device.account.samples = 0xFF_FFFF;
        device.pages = [Page {
            operation: 0x40,
            vout_command: 0xFFFF,
            limits: [0xFFFF; 6],
            warn_limits: [0xFFFF; 5],
            responses: [0xC0; 6],
            status: [0xFF; 4],
            tripped: true,
            machines: [Machine {
                phase: 2,
                ticks: 7,
                tries: 7,
            }; 5],
            readings: [Reading {
                measured: true,
                word: 0xFFFF,
            }; 4],
            // Under a linear mark coefficients are not looked at.
            formats: [Format {
                direct: false,
                m: 0,
                b: -1,
                r: 127,
            }; 3],
        }; 8];
    });
    assert!(state.valid());
    assert_eq!(write(&mut state, &[0x00, 0x07]), 0);
    assert_eq!(word(&mut state, 0x79), 0xE87F);
}

/// A device whose pages all have a present VOUT_OV with nothing made of it.
fn behind() -> Device {
    device(|device| {
        for page in &mut device.pages {
            page.operation = 0x80;
            page.readings[0] = Reading {
                measured: true,
                word: 0xFFFF,
            };
        }
    })
}

/// The pages that have been brought up to date.
fn touched(state: &Device) -> Vec<usize> {
    let done = |&index: &usize| {
        let page = &state.pages[index];
        assert_eq!(page.tripped, page.status[0] == 0xC0);
        page.tripped
    };
    (0..8).filter(done).collect()
}

#[test]
fn only_the_touched_page_is_brought_up_to_date() {
    let mut state = behind();
    assert_eq!(state.measure(4, 1, 0x0000), 0);
    assert_eq!(touched(&state), [4]);
    assert!(state.alert);
    assert_eq!(write(&mut state, &[0x21, 0x00, 0x00]), 0);
    assert_eq!(touched(&state), [0, 4]);
    let mut state = behind();
    assert_eq!(write(&mut state, &[0x03]), 0);
    assert_eq!(touched(&state), [0]);
    assert!(state.alert);
}

#[test]
fn unpaged_writes_reads_samples_and_refusals_touch_no_page() {
    let mut state = behind();
    assert_eq!(write(&mut state, &[0x00, 0x01]), 0);
    assert_eq!(write(&mut state, &[0x10, 0x00]), 0);
    assert_eq!(word(&mut state, 0x79), 0x0000); // the reply shows the state handed in
    assert_eq!(state.sample(1), 0);
    assert!(!state.alert);
    assert_eq!(write(&mut state, &[0x99]), 3);
    assert_eq!(write(&mut state, &[0x40, 0x00]), 5);
    assert_eq!(read(&mut state, 0x79, 4).0, 11);
    assert_eq!(state.measure(0, 4, 0), 12);
    assert_eq!(state.sample(32768), 13);
    assert_eq!(alert(&mut state, 1).0, 0);
    assert_eq!(alert(&mut state, 1).0, 14);
    assert_eq!(touched(&state), [0usize; 0]);
}

#[test]
fn a_word_without_measurement_counts_for_nothing() {
    let mut state = behind();
    state.pages[0].readings[0].measured = false;
    assert_eq!(word(&mut state, 0x8B), 0x0000);
    assert_eq!(write(&mut state, &[0x21, 0x00, 0x00]), 0);
    assert_eq!(touched(&state), [0usize; 0]);
}

#[test]
fn off_while_the_fault_lasts_is_seen_by_a_read() {
    let mut state = behind();
    state.pages[0].responses[0] = 0xC0;
    assert_eq!(word(&mut state, 0x79), 0x0840);
}

/// The value of a word as a floating-point number, exact for both formats.
fn value(quantity: usize, word: u16) -> f64 {
    if quantity == 0 {
        return f64::from(word);
    }
    let mantissa = f64::from((word << 5) as i16 >> 5);
    mantissa * 2f64.powi(i32::from(word as i16 >> 11))
}

/// The bits of the present causes and warnings, and whether a cause trips.
fn due(page: &Page) -> ([u8; 4], bool) {
    let causes = [
        (0, true, 0x80, 0x80),
        (1, true, 0x80, 0xC0),
        (3, true, 0x80, 0x80),
        (3, false, 0x10, 0x80),
        (2, true, 0x80, 0x80),
        (2, false, 0x10, 0x80),
    ];
    let (mut bits, mut trip) = ([0; 4], false);
    let warnings = [
        (0, true, 0x40),
        (1, true, 0x20),
        (3, true, 0x40),
        (2, true, 0x40),
        (2, false, 0x20),
    ];
    for (index, (quantity, above, bit)) in warnings.into_iter().enumerate() {
        let reading = page.readings[quantity];
        let measured = value(quantity, reading.word);
        let limit = value(quantity, page.warn_limits[index]);
        let past = if above {
            measured > limit
        } else {
            measured < limit
        };
        if reading.measured && past {
            bits[quantity] |= bit;
        }
    }
    for (index, (quantity, above, bit, shut_down)) in causes.into_iter().enumerate() {
        let reading = page.readings[quantity];
        let measured = value(quantity, reading.word);
        let limit = value(quantity, page.limits[index]);
        let past = if above {
            measured > limit
        } else {
            measured < limit
        };
        if reading.measured && past {
            bits[quantity] |= bit;
            trip |= page.responses[index] == shut_down;
        }
    }
    (bits, trip)
}

/// From power-on, every page is up to date after every call.
#[test]
fn present_causes_have_their_bits_after_every_call() {
    let mut device = Device::power_on();
    let mut seed = 7u64;
    let mut next = |bound: u64| {
        seed = seed.wrapping_mul(6_364_136_223_846_793_005).wrapping_add(1);
        (seed >> 33) % bound
    };
    for _ in 0..200_000 {
        match next(5) {
            4 => {
                assert_eq!(device.tick(), 0);
            }
            0 | 1 => {
                device.measure(next(9) as u8, next(5) as u8, next(65_536) as u16);
            }
            2 => {
                let (code, data) = WRITTEN[next(WRITTEN.len() as u64) as usize];
                let mut bytes = vec![code, (next(8) << 5) as u8, next(256) as u8];
                if code == 0x00 {
                    // Pages 0 to 6, or all.
                    bytes[1] = if bytes[1] == 0xE0 {
                        0xFF
                    } else {
                        bytes[1] >> 5
                    };
                }
                bytes.truncate(1 + data);
                let protected = code == 0x10;
                if !protected {
                    write(&mut device, &bytes);
                }
            }
            _ => {
                read(&mut device, 0x70 + next(32) as u8, next(4) as usize);
            }
        }
        assert!(device.valid());
        for page in &device.pages {
            let (bits, trip) = due(page);
            for (register, bit) in page.status.iter().zip(bits) {
                assert_eq!(register & bit, bit);
            }
            assert!(page.tripped || !trip);
        }
    }
}
