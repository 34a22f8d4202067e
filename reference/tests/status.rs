//! Causes, status registers, STATUS_BYTE, STATUS_WORD and the alert.

mod common;
use common::*;
use reference::device::{Device, IOUT, TEMPERATURE, VIN, VOUT};

#[test]
fn power_on_values() {
    let mut device = Device::power_on();
    for page in 0..=7 {
        assert_eq!(write(&mut device, &[0x00, page]), 0);
        assert_eq!(byte(&mut device, 0x00), page);
        for (code, value) in [
            (0x21, 0x2666),
            (0x40, 0x2A3D),
            (0x46, 0xD280),
            (0x4F, 0xEB70),
            (0x53, 0xEEC0),
            (0x55, 0xD3FF),
            (0x59, 0xC3F5),
            (0x42, 0x2A3D),
            (0x4A, 0xD280),
            (0x51, 0xEB70),
            (0x57, 0xD3FF),
            (0x58, 0xC3F5),
            (0x79, 0x0840),
            (0x88, 0),
            (0x8B, 0),
            (0x8C, 0),
            (0x8D, 0),
        ] {
            assert_eq!(word(&mut device, code), value, "{code:02x}");
        }
        for code in [0x01, 0x10, 0x7A, 0x7B, 0x7C, 0x7D, 0x7E] {
            assert_eq!(byte(&mut device, code), 0x00, "{code:02x}");
        }
        for code in [0x41, 0x50, 0x54, 0x56, 0x5A] {
            assert_eq!(byte(&mut device, code), 0x80, "{code:02x}");
        }
        assert_eq!(byte(&mut device, 0x47), 0xC0);
        assert_eq!(byte(&mut device, 0x19), 0xB0);
        assert_eq!(byte(&mut device, 0x20), 0x13);
        assert_eq!(byte(&mut device, 0x98), 0x22);
    }
    assert_eq!(read(&mut device, 0x86, 7).1, [6, 0, 0, 0, 0, 0, 0]);
    assert!(!device.alert);
}

/// Quantity, a word at the limit, a word just past it, status code and bits: that of
/// the cause and, the limits being equal at power-on, that of the warning.
const EDGES: [(u8, u16, u16, u8, u8); 6] = [
    (0, 0x2A3D, 0x2A3E, 0x7A, 0xC0), // VOUT_OV
    (1, 0xD280, 0xD281, 0x7B, 0xA0), // IOUT_OC
    (2, 0xD3FF, 0xDA00, 0x7C, 0xC0), // VIN_OV: 1023/64, then 512/32
    (2, 0xC3F5, 0xC3F4, 0x7C, 0x30), // VIN_UV
    (3, 0xEB70, 0xEB71, 0x7D, 0xC0), // OT
    (3, 0xEEC0, 0xEEBF, 0x7D, 0x10), // UT
];

#[test]
fn each_cause_is_strict_and_sets_its_bit() {
    for (quantity, at, past, code, bit) in EDGES {
        let mut device = Device::power_on();
        assert_eq!(device.measure(0, quantity, at), 0);
        assert_eq!(byte(&mut device, code), 0);
        assert!(!device.alert && !device.pages[0].tripped);
        assert_eq!(device.measure(0, quantity, past), 0);
        assert_eq!(byte(&mut device, code), bit);
        assert!(device.alert && device.pages[0].tripped);
        // The cause goes, its bit stays.
        assert_eq!(device.measure(0, quantity, at), 0);
        assert_eq!(byte(&mut device, code), bit);
        // The other pages are as before.
        assert_eq!(device.pages[1..], Device::power_on().pages[1..]);
    }
}

#[test]
fn no_cause_before_a_measurement() {
    let mut device = Device::power_on();
    // Limits that 0000h would break: OC below 0, UT and VIN_UV above 0.
    for code in [0x46, 0x4F, 0x55, 0x4A, 0x51, 0x57] {
        assert_eq!(write(&mut device, &[code, 0xFF, 0xFF]), 0);
    }
    for code in [0x53, 0x59, 0x58] {
        assert_eq!(write(&mut device, &[code, 0x01, 0x00]), 0);
    }
    assert_eq!(device.pages[0].status, [0; 4]);
    assert!(!device.alert && !device.pages[0].tripped);
}

#[test]
fn read_codes_give_the_latest_word() {
    let mut device = Device::power_on();
    for (quantity, code) in [(0, 0x8B), (1, 0x8C), (2, 0x88), (3, 0x8D)] {
        for value in [0x1234, 0x0000, 0xFFEE] {
            device.measure(0, quantity, value);
            assert_eq!(word(&mut device, code), value);
        }
    }
    write(&mut device, &[0x00, 0x01]);
    assert_eq!(word(&mut device, 0x8B), 0);
}

#[test]
fn a_limit_written_makes_a_cause_present_in_that_call() {
    let mut device = Device::power_on();
    device.measure(0, 1, 0xD200); // 8 A
    assert_eq!(device.pages[0].status[IOUT], 0);
    assert_eq!(write(&mut device, &[0x46, 0xFF, 0xD1]), 0); // just below 8 A
    assert_eq!(device.pages[0].status[IOUT], 0x80);
    assert!(device.alert && device.pages[0].tripped);
}

#[test]
fn a_response_written_trips_in_that_call() {
    let mut device = Device::power_on();
    write(&mut device, &[0x41, 0x00]);
    device.measure(0, 0, 0xFFFF);
    assert!(!device.pages[0].tripped);
    write(&mut device, &[0x41, 0x80]);
    assert!(device.pages[0].tripped);
}

#[test]
fn a_bit_falls_by_clear_faults() {
    let mut device = Device::power_on();
    device.measure(0, 0, 0xFFFF);
    device.measure(0, 0, 0x0000);
    for data in [0x00, 0x80, 0x40, 0x80] {
        write(&mut device, &[0x01, data]);
        assert_eq!(byte(&mut device, 0x7A), 0xC0);
    }
    assert_eq!(write(&mut device, &[0x78, 0x80]), 3);
    assert_eq!(byte(&mut device, 0x7A), 0xC0);
    assert_eq!(write(&mut device, &[0x03, 0x00]), 7);
    assert_eq!(write(&mut device, &[0x03, 0x00, 0x00]), 6);
    assert_eq!(byte(&mut device, 0x7A), 0xC0);
    assert_eq!(byte(&mut device, 0x7E), 0xE0);
    assert_eq!(write(&mut device, &[0x03]), 0);
    assert_eq!(byte(&mut device, 0x7A), 0x00);
    assert_eq!(byte(&mut device, 0x7E), 0x00);
}

#[test]
fn clear_faults_sets_present_causes_again() {
    let mut device = Device::power_on();
    device.measure(0, 0, 0xFFFF);
    device.measure(0, 3, 0x7BFF);
    device.measure(0, 3, 0x0000);
    assert_eq!(write_pec(&mut device, &[0x03]), 0);
    assert_eq!(device.pages[0].status, [0xC0, 0, 0, 0]);
    assert!(device.alert && device.pages[0].tripped);
}

#[test]
fn clear_faults_clears_the_selected_page_only() {
    let mut device = device(|device| {
        device.cml = 0xFF;
        device.pages = device.pages.map(|mut page| {
            page.status = [0xFF; 4];
            page
        });
    });
    write(&mut device, &[0x00, 0x05]);
    assert_eq!(write(&mut device, &[0x03]), 0);
    for (index, page) in device.pages.iter().enumerate() {
        let left = if index == 5 { 0x00 } else { 0xFF };
        assert_eq!(page.status, [left; 4]);
    }
    assert_eq!(device.cml, 0);
    assert!(device.alert);
}

/// STATUS_BYTE and the high byte of STATUS_WORD of a page that supplies, for
/// each single bit of the four registers.
#[test]
fn status_byte_and_word_bit_by_bit() {
    for register in [VOUT, IOUT, VIN, TEMPERATURE] {
        for bit in (0..8).map(|place| 1u8 << place) {
            let mut device = device(|device| {
                device.pages[0].operation = 0x80;
                device.pages[0].status[register] = bit;
            });
            let low = match (register, bit) {
                (VOUT, 0x80) => 0x20,
                (IOUT, 0x80 | 0x40) => 0x10,
                (VIN, 0x10) => 0x08,
                (TEMPERATURE, _) => 0x04,
                _ => 0x01,
            };
            let high = [0x80, 0x40, 0x20, 0x00][register];
            assert_eq!(byte(&mut device, 0x78), low);
            assert_eq!(word(&mut device, 0x79), u16::from_le_bytes([low, high]));
        }
    }
}

#[test]
fn cml_shows_on_every_page() {
    let mut device = device(|device| device.cml = 0x01);
    for page in 0..=7 {
        write(&mut device, &[0x00, page]);
        assert_eq!(byte(&mut device, 0x78), 0x42);
        assert_eq!(word(&mut device, 0x79), 0x0842);
    }
}

#[test]
fn not_supplying_shows_twice() {
    let mut device = Device::power_on();
    assert_eq!(word(&mut device, 0x79), 0x0840);
    write(&mut device, &[0x01, 0x80]);
    assert_eq!(word(&mut device, 0x79), 0x0000);
}

#[test]
fn alert_rises_only_from_0_to_1() {
    let mut device = Device::power_on();
    assert_eq!(write(&mut device, &[0x78, 0x80]), 3);
    assert_eq!(alert(&mut device, 1).0, 0);
    assert_eq!(write(&mut device, &[0x78, 0x80]), 3);
    assert_eq!(alert(&mut device, 1).0, 14);
    device.measure(0, 0, 0xFFFF);
    assert_eq!(alert(&mut device, 1).0, 0);
    device.measure(0, 0, 0xFFFE);
    assert_eq!(alert(&mut device, 1).0, 14);
}

#[test]
fn alert_after_clear_faults_with_another_page() {
    let mut device = Device::power_on();
    device.measure(3, 0, 0xFFFF);
    assert_eq!(alert(&mut device, 1).0, 0);
    // Page 0 is clear, but page 3 has a bit: the alert comes up again.
    assert_eq!(write(&mut device, &[0x03]), 0);
    assert_eq!(alert(&mut device, 1).0, 0);
    device.measure(3, 0, 0x0000);
    write(&mut device, &[0x00, 0x03]);
    assert!(!device.alert);
    assert_eq!(write(&mut device, &[0x03]), 0);
    assert!(!device.alert);
}

#[test]
fn alert_falls_by_clear_faults() {
    let mut device = Device::power_on();
    write(&mut device, &[0x99]);
    assert!(device.alert);
    write(&mut device, &[0x03]);
    assert!(!device.alert);
}
