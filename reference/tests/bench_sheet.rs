//! The bench sheet (data sheet, section 14).
//! The frames above it are in frames.rs.

mod common;
use common::{read, write};
use reference::device::{Account, Device};
use reference::linear11::{order, scaled};
use reference::pec::{pec, pec_from};
use reference::totalizer::Totalizer;
use std::cmp::Ordering;

#[test]
fn linear11_words() {
    assert_eq!(scaled(0xD280), 10 * 65_536);
    assert_eq!(scaled(0xC3F5), 1013 * 65_536 / 256);
    assert_eq!(order(0x0001, 0xF802), Ordering::Equal);
    assert_eq!(scaled(0x7C00), -33_554_432 * 65_536);
    assert_eq!(scaled(0x7BFF), 33_521_664 * 65_536);
    assert_eq!(scaled(0x8001), 1);
    assert_eq!(scaled(0xEEC0), -40 * 65_536);
}

#[test]
fn every_word_is_mantissa_times_power() {
    for word in 0..=0xFFFFu16 {
        let mantissa = f64::from((word << 5) as i16 >> 5);
        let exponent = i32::from(word as i16 >> 11);
        let value = mantissa * 2f64.powi(exponent);
        assert_eq!(scaled(word) as f64, value * 65_536.0);
    }
}

#[test]
fn packet_check() {
    assert_eq!(pec(&[0x01]), 0x07);
    assert_eq!(pec(b"123456789"), 0xF4);
    assert_eq!(pec(&[]), 0);
    assert_eq!(pec_from(pec(b"1234"), b"56789"), 0xF4);
}

#[test]
fn accumulator_7ffe_and_sample_3() {
    let mut device = Device::power_on();
    device.account.accumulator = 0x7FFE;
    assert_eq!(device.sample(3), 0);
    let expected = Account {
        accumulator: 1,
        rollover: 1,
        samples: 1,
    };
    assert_eq!(device.account, expected);
}

#[test]
fn totalizer_past_every_top() {
    let mut totalizer = Totalizer {
        started: true,
        last_accumulator: 0x7FFF,
        last_rollover: 255,
        last_count: 16_777_215,
        ..Totalizer::fresh()
    };
    let mut reply = vec![0x06, 0, 0, 0, 0, 0, 0];
    reply.push(pec_from(pec(&[0xC0, 0x86, 0xC1]), &reply));
    assert_eq!(totalizer.take(&reply), 0);
    assert_eq!((totalizer.energy, totalizer.samples), (1, 1));
}

#[test]
fn vout_limit_is_strict() {
    let mut device = Device::power_on();
    assert_eq!(device.measure(0, 0, 0x2A3D), 0);
    assert!(!device.pages[0].present(0));
    assert_eq!(device.pages[0].status[0], 0x00);
    assert_eq!(device.measure(0, 0, 0x2A3E), 0);
    assert!(device.pages[0].present(0));
    assert_eq!(device.pages[0].status[0], 0xC0); // and the warning
}

#[test]
fn writes_by_program() {
    for (bytes, answer) in [
        (&[0x00, 0x07][..], 0),
        (&[0x00, 0x08], 9),
        (&[0x00], 5),
        (&[0x00, 0x01, 0x00, 0x00], 6),
        (&[0x47, 0x80], 9),
        (&[0x7A, 0x80], 0),
    ] {
        assert_eq!(
            write(&mut Device::power_on(), bytes),
            answer,
            "{bytes:02x?}"
        );
    }
}

#[test]
fn samples_by_program() {
    assert_eq!(Device::power_on().sample(32767), 0);
    assert_eq!(Device::power_on().sample(32768), 13);
}

#[test]
fn reads_of_79_by_program() {
    for (n, answer) in [(1, 10), (2, 0), (3, 0), (4, 11)] {
        assert_eq!(read(&mut Device::power_on(), 0x79, n).0, answer, "n {n}");
    }
}
