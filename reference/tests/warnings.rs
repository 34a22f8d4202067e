//! Warnings: limits of their own, bits that arise and latch like those of causes, and
//! no say in whether a page supplies.

mod common;
use common::*;
use reference::device::{Device, Page};

/// Limit code, quantity, a word at the power-on limit, one inside it and one past it,
/// status code, bit of the warning, fault limit, a fault limit out of reach, response.
struct Row {
    code: u8,
    quantity: u8,
    words: [u16; 3],
    status: u8,
    bit: u8,
    fault: u8,
    far: u16,
    response: u8,
}

const ROWS: [Row; 5] = [
    Row {
        code: 0x42,
        quantity: 0,
        words: [0x2A3D, 0x2A3C, 0x2A3E],
        status: 0x7A,
        bit: 0x40,
        fault: 0x40,
        far: 0xFFFF,
        response: 0x41,
    },
    Row {
        code: 0x4A,
        quantity: 1,
        words: [0x000A, 0xD27F, 0xD281],
        status: 0x7B,
        bit: 0x20,
        fault: 0x46,
        far: 0x7BFF,
        response: 0x47,
    },
    Row {
        code: 0x51,
        quantity: 3,
        words: [0x006E, 0xEB6F, 0x006F],
        status: 0x7D,
        bit: 0x40,
        fault: 0x4F,
        far: 0x7BFF,
        response: 0x50,
    },
    Row {
        code: 0x57,
        quantity: 2,
        words: [0xD3FF, 0xD3FE, 0x0010],
        status: 0x7C,
        bit: 0x40,
        fault: 0x55,
        far: 0x7BFF,
        response: 0x56,
    },
    Row {
        code: 0x58,
        quantity: 2,
        words: [0xC3F5, 0x0004, 0xC3F4],
        status: 0x7C,
        bit: 0x20,
        fault: 0x59,
        far: 0x7C00,
        response: 0x5A,
    },
];

fn write_word(device: &mut Device, code: u8, word: u16) {
    let [low, high] = word.to_le_bytes();
    assert_eq!(write(device, &[code, low, high]), 0);
}

/// On, with the fault limit of the row out of reach.
fn warned_only(row: &Row) -> Device {
    let mut device = Device::power_on();
    write(&mut device, &[0x01, 0x80]);
    write_word(&mut device, row.fault, row.far);
    device
}

#[test]
fn each_warning_is_strict_and_stops_nothing() {
    for row in &ROWS {
        for response in [0x00, 0x80, 0xC0] {
            let mut device = warned_only(row);
            write(&mut device, &[row.response, response]);
            let [at, inside, past] = row.words;
            for word in [at, inside] {
                assert_eq!(device.measure(0, row.quantity, word), 0);
                assert_eq!(device.pages[0].status, [0; 4]);
            }
            device.alert = false;
            assert_eq!(device.measure(0, row.quantity, past), 0);
            assert_eq!(byte(&mut device, row.status), row.bit);
            assert_eq!(
                device.pages[0].status.iter().filter(|&&s| s != 0).count(),
                1
            );
            assert!(device.alert && device.pages[0].supplies() && !device.pages[0].tripped);
            // It latches, and comes back while it lasts.
            assert_eq!(device.measure(0, row.quantity, at), 0);
            assert_eq!(byte(&mut device, row.status), row.bit);
            assert_eq!(device.measure(0, row.quantity, past), 0);
            assert_eq!(write(&mut device, &[row.status, 0xFF]), 0);
            assert_eq!(byte(&mut device, row.status), row.bit);
            assert_eq!(device.measure(0, row.quantity, inside), 0);
            assert_eq!(write(&mut device, &[row.status, row.bit]), 0);
            assert_eq!(byte(&mut device, row.status), 0x00);
            assert_eq!(device.pages[1..], Device::power_on().pages[1..]);
        }
    }
}

#[test]
fn past_both_limits_both_bits() {
    for row in &ROWS {
        let mut device = Device::power_on();
        device.measure(0, row.quantity, row.words[2]);
        let fault = if row.fault == 0x59 { 0x10 } else { 0x80 };
        assert_eq!(byte(&mut device, row.status), row.bit | fault);
        assert!(device.pages[0].tripped);
    }
}

#[test]
fn a_warn_limit_is_written_and_read_like_any_limit() {
    for row in &ROWS {
        let mut device = Device::power_on();
        let [at, ..] = row.words;
        device.measure(0, row.quantity, at);
        assert_eq!(device.pages[0].status, [0; 4]);
        // Another limit just inside the measured word warns in that call; the fault
        // limit stays.
        let before = word(&mut device, row.fault);
        write_word(&mut device, row.code, row.words[1]);
        assert_eq!(word(&mut device, row.code), row.words[1]);
        assert_eq!(word(&mut device, row.fault), before);
        assert_eq!(byte(&mut device, row.status), row.bit);
        assert!(device.alert && !device.pages[0].tripped);
        // Protected like the limits.
        for level in [0x20, 0x40, 0x80] {
            write(&mut device, &[0x10, level]);
            assert_eq!(write(&mut device, &[row.code, 0x00, 0x00]), 8);
        }
        assert_eq!(word(&mut device, row.code), row.words[1]);
    }
}

#[test]
fn a_fault_limit_does_not_move_the_warn_limit() {
    let mut device = Device::power_on();
    for code in [0x40, 0x46, 0x4F, 0x53, 0x55, 0x59] {
        write_word(&mut device, code, 0x1234);
    }
    assert_eq!(device.pages[0].warn_limits, Page::power_on().warn_limits);
}

#[test]
fn status_byte_of_warnings() {
    for row in &ROWS {
        let mut device = warned_only(row);
        device.measure(0, row.quantity, row.words[2]);
        let low = if row.status == 0x7D { 0x04 } else { 0x01 };
        assert_eq!(byte(&mut device, 0x78), low);
    }
}
