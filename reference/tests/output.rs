//! Trips, responses and when a page supplies.

mod common;
use common::*;
use reference::device::Device;

/// Response codes with the quantity and a word that makes the cause present.
const CAUSES: [(u8, u8, u16); 6] = [
    (0x41, 0, 0xFFFF),
    (0x47, 1, 0x7BFF),
    (0x50, 3, 0x7BFF),
    (0x54, 3, 0x7C00),
    (0x56, 2, 0x7BFF),
    (0x5A, 2, 0x7C00),
];

/// A word with no cause at the power-on limits, by quantity.
const CALM: [u16; 4] = [0x2666, 0xD080, 0xD300, 0xE8C8];

/// Page 0 switched on, with one response set.
fn on(code: u8, response: u8) -> Device {
    let mut device = Device::power_on();
    assert_eq!(write(&mut device, &[0x01, 0x80]), 0);
    assert_eq!(write(&mut device, &[code, response]), 0);
    device
}

#[test]
fn go_on() {
    for (code, quantity, past) in CAUSES {
        let mut device = on(code, 0x00);
        device.measure(0, quantity, past);
        assert!(device.pages[0].supplies());
        assert!(!device.pages[0].tripped);
    }
}

#[test]
fn shut_down_and_stay_off() {
    for (code, quantity, past) in CAUSES {
        let response = if code == 0x47 { 0xC0 } else { 0x80 };
        let mut device = on(code, response);
        device.measure(0, quantity, past);
        device.measure(0, quantity, CALM[usize::from(quantity)]);
        assert!(device.pages[0].tripped && !device.pages[0].supplies());
        // Neither CLEAR_FAULTS nor OPERATION 80h untrips.
        write(&mut device, &[0x03]);
        write(&mut device, &[0x01, 0x80]);
        assert!(device.pages[0].tripped);
        assert_eq!(byte(&mut device, 0x78), 0x40);
        // Off untrips, and on supplies again.
        write(&mut device, &[0x01, 0x40]);
        assert!(!device.pages[0].tripped);
        write(&mut device, &[0x01, 0x80]);
        assert!(device.pages[0].supplies());
    }
}

#[test]
fn off_while_the_fault_lasts() {
    for (code, quantity, past) in CAUSES.into_iter().filter(|cause| cause.0 != 0x47) {
        let mut device = on(code, 0xC0);
        device.measure(0, quantity, past);
        assert!(!device.pages[0].tripped && !device.pages[0].supplies());
        device.measure(0, quantity, CALM[usize::from(quantity)]);
        assert!(device.pages[0].supplies());
    }
}

#[test]
fn a_cause_still_present_trips_again() {
    for data in [0x00, 0x40] {
        let mut device = Device::power_on();
        device.measure(0, 0, 0xFFFF);
        assert_eq!(write(&mut device, &[0x01, data]), 0);
        assert!(device.pages[0].tripped);
        device.measure(0, 0, 0x0000);
        assert!(device.pages[0].tripped);
        assert_eq!(write(&mut device, &[0x01, data]), 0);
        assert!(!device.pages[0].tripped);
    }
}

#[test]
fn a_page_trips_while_off() {
    let mut device = Device::power_on();
    device.measure(0, 0, 0xFFFF);
    device.measure(0, 0, 0x0000);
    write(&mut device, &[0x01, 0x80]);
    assert!(!device.pages[0].supplies());
}

#[test]
fn untrips_only_when_accepted_and_only_the_selected_page() {
    let mut device = Device::power_on();
    for page in 0..=7 {
        device.measure(page, 0, 0xFFFF);
        device.measure(page, 0, 0x0000);
    }
    write(&mut device, &[0x00, 0x06]);
    assert_eq!(write(&mut device, &[0x01, 0x00, 0x00]), 7);
    assert_eq!(write(&mut device, &[0x01, 0x01]), 9);
    assert!(device.pages.iter().all(|page| page.tripped));
    assert_eq!(write(&mut device, &[0x01, 0x00]), 0);
    for (index, page) in device.pages.iter().enumerate() {
        assert_eq!(page.tripped, index != 6);
    }
}

#[test]
fn a_measurement_keeps_the_selected_page() {
    let mut device = Device::power_on();
    write(&mut device, &[0x00, 0x02]);
    device.measure(5, 0, 0xFFFF);
    assert_eq!(byte(&mut device, 0x00), 2);
    assert_eq!(byte(&mut device, 0x7A), 0);
    write(&mut device, &[0x00, 0x05]);
    assert_eq!(byte(&mut device, 0x7A), 0xC0);
}
