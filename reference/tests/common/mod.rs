//! Short forms for the tests.

#![allow(dead_code)]

use reference::device::Device;
use reference::pec::pec;

/// A write of C0h and these bytes.
pub fn write(device: &mut Device, bytes: &[u8]) -> u8 {
    device.write(&[&[0xC0], bytes].concat())
}

/// The same with the right PEC behind it.
pub fn write_pec(device: &mut Device, bytes: &[u8]) -> u8 {
    let mut whole = [&[0xC0], bytes].concat();
    whole.push(pec(&whole));
    device.write(&whole)
}

/// A read with any header. The buffer starts with 55h everywhere.
pub fn read_header(device: &mut Device, header: &[u8], n: usize) -> (u8, Vec<u8>) {
    let mut reply = vec![0x55; n];
    let answer = device.read(header, &mut reply);
    (answer, reply)
}

/// A read of `code` with n bytes clocked.
pub fn read(device: &mut Device, code: u8, n: usize) -> (u8, Vec<u8>) {
    read_header(device, &[0xC0, code, 0xC1], n)
}

/// The one data byte of `code`.
pub fn byte(device: &mut Device, code: u8) -> u8 {
    let (answer, reply) = read(device, code, 1);
    assert_eq!(answer, 0, "read of {code:02x}");
    reply[0]
}

/// The data word of `code`.
pub fn word(device: &mut Device, code: u8) -> u16 {
    let (answer, reply) = read(device, code, 2);
    assert_eq!(answer, 0, "read of {code:02x}");
    u16::from_le_bytes([reply[0], reply[1]])
}

/// An alert response with n bytes clocked.
pub fn alert(device: &mut Device, n: usize) -> (u8, Vec<u8>) {
    let mut reply = vec![0x55; n];
    let answer = device.alert_response(&mut reply);
    (answer, reply)
}

/// A device at power-on with one change made.
pub fn device(change: impl FnOnce(&mut Device)) -> Device {
    let mut device = Device::power_on();
    change(&mut device);
    device
}

/// Codes that are written, with their data lengths (data sheet 3.1).
pub const WRITTEN: [(u8, usize); 27] = [
    (0x00, 1),
    (0x01, 1),
    (0x03, 0),
    (0x10, 1),
    (0x21, 2),
    (0x40, 2),
    (0x46, 2),
    (0x4F, 2),
    (0x53, 2),
    (0x55, 2),
    (0x59, 2),
    (0x42, 2),
    (0x4A, 2),
    (0x51, 2),
    (0x57, 2),
    (0x58, 2),
    (0x41, 1),
    (0x47, 1),
    (0x50, 1),
    (0x54, 1),
    (0x56, 1),
    (0x5A, 1),
    (0x7A, 1),
    (0x7B, 1),
    (0x7C, 1),
    (0x7D, 1),
    (0x7E, 1),
];

/// Codes marked r with their data lengths.
pub const READABLE: [(u8, usize); 36] = [
    (0x00, 1),
    (0x01, 1),
    (0x10, 1),
    (0x19, 1),
    (0x20, 1),
    (0x21, 2),
    (0x40, 2),
    (0x46, 2),
    (0x4F, 2),
    (0x53, 2),
    (0x55, 2),
    (0x59, 2),
    (0x42, 2),
    (0x4A, 2),
    (0x51, 2),
    (0x57, 2),
    (0x58, 2),
    (0x41, 1),
    (0x47, 1),
    (0x50, 1),
    (0x54, 1),
    (0x56, 1),
    (0x5A, 1),
    (0x78, 1),
    (0x79, 2),
    (0x7A, 1),
    (0x7B, 1),
    (0x7C, 1),
    (0x7D, 1),
    (0x7E, 1),
    (0x86, 7),
    (0x88, 2),
    (0x8B, 2),
    (0x8C, 2),
    (0x8D, 2),
    (0x98, 1),
];

/// The data length of a code in one of the two lists, or none.
pub fn length(list: &[(u8, usize)], code: u8) -> Option<usize> {
    list.iter().find(|row| row.0 == code).map(|row| row.1)
}
