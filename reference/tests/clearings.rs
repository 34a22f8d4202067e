//! Ones written to a status register.

mod common;
use common::*;
use reference::device::Device;

/// A device with these bits in every status register.
fn full(bits: u8) -> Device {
    device(|device| {
        device.cml = bits;
        for page in &mut device.pages {
            page.status = [bits; 4];
        }
    })
}

#[test]
fn each_1_clears_and_each_0_spares() {
    for code in 0x7A..=0x7E {
        for ones in 0..=255 {
            for bits in [0x00, 0x0F, 0xA5, 0xFF] {
                let before = full(bits);
                let mut after = before;
                assert_eq!(write(&mut after, &[code, ones]), 0);
                let mut expected = before;
                expected.alert = bits != 0; // other registers keep theirs
                if code == 0x7E {
                    expected.cml = bits & !ones;
                } else {
                    expected.pages[0].status[usize::from(code - 0x7A)] = bits & !ones;
                }
                assert_eq!(after, expected, "{code:02x} {ones:02x}");
            }
        }
    }
}

#[test]
fn the_selected_page_only() {
    for page in 0..=7 {
        let mut state = full(0xFF);
        write(&mut state, &[0x00, page]);
        assert_eq!(write_pec(&mut state, &[0x7C, 0xF0]), 0);
        for (index, held) in state.pages.iter().enumerate() {
            let input = if index == usize::from(page) {
                0x0F
            } else {
                0xFF
            };
            assert_eq!(held.status, [0xFF, 0xFF, input, 0xFF]);
        }
        assert_eq!(state.cml, 0xFF);
    }
}

#[test]
fn never_protected_and_never_invalid() {
    for level in [0x00, 0x20, 0x40, 0x80] {
        for code in 0x7A..=0x7E {
            for ones in 0..=255 {
                let mut state = device(|device| device.protect = level);
                assert_eq!(write(&mut state, &[code, ones]), 0);
                assert_eq!(write_pec(&mut state, &[code, ones]), 0);
            }
        }
    }
}

#[test]
fn refused_by_length_and_pec_without_clearing() {
    for code in 0x7A..=0x7D {
        let mut state = full(0x80);
        state.cml = 0;
        assert_eq!(write(&mut state, &[code]), 5);
        assert_eq!(write(&mut state, &[code, 0xFF, 0x00, 0x00]), 6);
        let wrong = reference::pec::pec(&[0xC0, code, 0xFF]) ^ 1;
        assert_eq!(write(&mut state, &[code, 0xFF, wrong]), 7);
        assert_eq!(state.pages, full(0x80).pages);
        assert_eq!(state.cml, 0x62);
    }
}

#[test]
fn status_byte_and_word_stay_read_only() {
    for code in [0x78, 0x79] {
        for count in 0..4 {
            let mut state = full(0xFF);
            let bytes = [&[code][..], &vec![0xFF; count]].concat();
            assert_eq!(write(&mut state, &bytes), 3);
            assert_eq!(state, full(0xFF));
        }
    }
}

#[test]
fn a_present_cause_sets_its_bit_again() {
    let mut state = Device::power_on();
    state.measure(0, 0, 0xFFFF);
    state.pages[0].status[0] = 0xFF;
    assert_eq!(write(&mut state, &[0x7A, 0xFF]), 0);
    assert_eq!(state.pages[0].status[0], 0xC0);
    assert!(state.alert && state.pages[0].tripped);
    state.measure(0, 0, 0x0000);
    assert_eq!(write(&mut state, &[0x7A, 0xC0]), 0);
    assert_eq!(state.pages[0].status[0], 0x00);
    // The trip stays.
    assert!(!state.alert && state.pages[0].tripped);
}

#[test]
fn the_alert_follows_the_bits_after_every_such_write() {
    // It falls with the last bit anywhere, and not before.
    let mut state = Device::power_on();
    state.measure(3, 0, 0xFFFF);
    state.measure(3, 0, 0x0000);
    write(&mut state, &[0x99]);
    assert_eq!(write(&mut state, &[0x7E, 0x80]), 0);
    assert!(state.alert);
    write(&mut state, &[0x00, 0x03]);
    assert_eq!(write(&mut state, &[0x7A, 0x7F]), 0);
    assert_eq!(state.pages[3].status[0], 0x80);
    assert!(state.alert);
    assert_eq!(write(&mut state, &[0x7A, 0x80]), 0);
    assert!(!state.alert);
    // An answered alert comes up again, also by a write of no ones.
    for code in 0x7A..=0x7E {
        let mut state = Device::power_on();
        state.measure(3, 0, 0xFFFF);
        assert_eq!(alert(&mut state, 1).0, 0);
        assert_eq!(write(&mut state, &[code, 0x00]), 0);
        assert_eq!(alert(&mut state, 1).0, 0);
    }
    // An alert without bits goes.
    let mut state = device(|device| device.alert = true);
    assert_eq!(write(&mut state, &[0x7B, 0x00]), 0);
    assert!(!state.alert);
}

#[test]
fn a_write_to_cml_touches_no_page() {
    let mut state = device(|device| device.cml = 0x80);
    state.pages[0].readings[0].measured = true;
    state.pages[0].readings[0].word = 0xFFFF;
    let pages = state.pages;
    assert_eq!(write(&mut state, &[0x7E, 0x80]), 0);
    assert_eq!((state.cml, state.pages, state.alert), (0, pages, false));
}
