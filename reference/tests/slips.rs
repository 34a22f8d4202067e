//! Places where a hasty reading of the rules goes wrong, one test each.

mod common;
use common::*;
use reference::device::Device;
use reference::pec::pec;

#[test]
fn input_is_bit_5_of_the_high_byte() {
    let mut device = Device::power_on();
    device.measure(0, 2, 0x7BFF);
    assert_eq!(word(&mut device, 0x79) >> 8, 0x28);
}

#[test]
fn temperature_is_at_8d() {
    let mut device = Device::power_on();
    device.measure(0, 3, 0xE8C8);
    assert_eq!(word(&mut device, 0x8D), 0xE8C8);
    assert_eq!(read(&mut device, 0x8E, 2), (3, vec![0xFF; 2]));
}

#[test]
fn clear_faults_keeps_the_alert_for_another_page() {
    let mut device = Device::power_on();
    device.measure(7, 0, 0xFFFF);
    assert_eq!(write(&mut device, &[0x03]), 0);
    assert!(device.alert);
}

#[test]
fn y_is_signed_and_values_are_compared() {
    let mut device = Device::power_on();
    // -1 A is no overcurrent, though its word is above D280h.
    device.measure(0, 1, 0xFFFF);
    assert_eq!(byte(&mut device, 0x7B), 0x00);
    // 11 A as 0Bh is, though its word is below.
    device.measure(0, 1, 0x000B);
    assert_eq!(byte(&mut device, 0x7B), 0xA0);
    // -41 degrees is an undertemperature.
    device.measure(0, 3, 0x07D7);
    assert_eq!(byte(&mut device, 0x7D), 0x10);
}

#[test]
fn vout_is_unsigned() {
    let mut device = Device::power_on();
    device.measure(0, 0, 0x8000);
    assert_eq!(byte(&mut device, 0x7A), 0xC0);
}

#[test]
fn response_47_has_its_own_codes() {
    let mut device = Device::power_on();
    assert_eq!(write(&mut device, &[0x47, 0x80]), 9);
    assert_eq!(write(&mut device, &[0x47, 0xC0]), 0);
    device.measure(0, 1, 0x7BFF);
    assert!(device.pages[0].tripped);
}

#[test]
fn pec_covers_the_address_bytes() {
    let mut device = Device::power_on();
    let check = pec(&[0x00, 0x03]);
    assert_eq!(device.write(&[0xC0, 0x00, 0x03, check]), 7);
    let check = pec(&[0xC0, 0x00, 0x03]);
    assert_eq!(device.write(&[0xC0, 0x00, 0x03, check]), 0);
    let (_, reply) = read(&mut device, 0x00, 2);
    assert_eq!(reply, [0x03, pec(&[0xC0, 0x00, 0xC1, 0x03])]);
}
