//! PAGE FFh (data sheet 3.8).

mod common;
use common::*;
use reference::device::Device;

/// Codes that have no page.
const UNPAGED: [u8; 7] = [0x00, 0x10, 0x19, 0x20, 0x7E, 0x86, 0x98];

/// A device whose pages differ in OPERATION, readings, bits and trips.
fn varied() -> Device {
    let mut device = Device::power_on();
    for page in 0..8 {
        write(&mut device, &[0x00, page]);
        write(&mut device, &[0x01, (page % 3) << 6]);
        device.measure(page, 0, 0x2A38 + 2 * u16::from(page));
        device.measure(page, 1, 0xD27D + u16::from(page));
        device.measure(page, 3, 0xEB6C + u16::from(page));
        write(&mut device, &[0x41, (page % 2) << 7]);
    }
    write(&mut device, &[0x99]);
    assert_eq!(alert(&mut device, 1).0, 0);
    write(&mut device, &[0x00, 0x00]);
    device
}

/// The same with all pages selected.
fn varied_all() -> Device {
    let mut device = varied();
    assert_eq!(write(&mut device, &[0x00, 0xFF]), 0);
    device
}

#[test]
fn page_takes_ff_and_gives_it_back() {
    let mut device = Device::power_on();
    assert_eq!(write_pec(&mut device, &[0x00, 0xFF]), 0);
    assert_eq!(byte(&mut device, 0x00), 0xFF);
    assert_eq!(write(&mut device, &[0x00, 0x08]), 9);
    assert_eq!(write(&mut device, &[0x00, 0xFE]), 9);
    assert_eq!(byte(&mut device, 0x00), 0xFF);
    assert_eq!(write(&mut device, &[0x00, 0x05]), 0);
    assert_eq!(byte(&mut device, 0x00), 0x05);
}

/// One write to all pages leaves each page as a write to that page alone.
#[test]
fn a_paged_write_acts_on_every_page() {
    for (code, length) in WRITTEN {
        if UNPAGED.contains(&code) {
            continue;
        }
        for value in [0x00, 0x40, 0x80, 0xC0, 0xFF, 0x3C, 0xD2, 0xEB] {
            let bytes = [&[code][..], &vec![value; length]].concat();
            let before = varied_all();
            let mut all = before;
            let answer = write(&mut all, &bytes);
            let mut rose = false;
            for page in 0..8u8 {
                let mut one = varied();
                write(&mut one, &[0x00, page]);
                assert_eq!(write(&mut one, &bytes), answer, "{code:02x} {value:02x}");
                let index = usize::from(page);
                assert_eq!(all.pages[index], one.pages[index], "{code:02x} {value:02x}");
                let bits = all.pages[index].status.into_iter();
                rose |= bits
                    .zip(before.pages[index].status)
                    .any(|(new, old)| new & !old != 0);
            }
            if answer == 0 && code != 0x03 && code < 0x7A {
                assert_eq!((all.cml, all.alert), (before.cml, rose));
            }
        }
    }
}

#[test]
fn a_refused_write_acts_on_none() {
    for (bytes, answer) in [
        (&[0x01][..], 5),
        (&[0x40, 0x00], 5),
        (&[0x7A, 0xFF, 0x00, 0x00], 6),
        (&[0x03, 0x00], 7),
        (&[0x01, 0x01], 9),
        (&[0x47, 0x80], 9),
        (&[0x78, 0x00], 3),
    ] {
        let mut device = varied_all();
        assert_eq!(write(&mut device, bytes), answer);
        assert_eq!(device.pages, varied().pages);
    }
    let mut device = varied_all();
    write(&mut device, &[0x10, 0x40]);
    assert_eq!(write(&mut device, &[0x40, 0x00, 0x00]), 8);
    assert_eq!(device.pages, varied().pages);
    assert_eq!(write(&mut device, &[0x01, 0x80]), 0);
    assert!(device.pages.iter().all(|page| page.operation == 0x80));
}

#[test]
fn clear_faults_clears_every_page_and_cml() {
    let mut device = varied_all();
    assert_eq!(write(&mut device, &[0x03]), 0);
    for page in &device.pages {
        let due = [
            u8::from(page.present(0)) << 7 | u8::from(page.warned(0)) << 6,
            u8::from(page.present(1)) << 7 | u8::from(page.warned(1)) << 5,
            0x00,
            u8::from(page.present(2)) << 7 | u8::from(page.warned(2)) << 6,
        ];
        assert_eq!(page.status, due);
    }
    assert_eq!(device.cml, 0);
    assert!(device.alert);
    for page in 0..8 {
        for quantity in [0, 1, 3] {
            device.measure(page, quantity, 0x0000);
        }
    }
    assert_eq!(write(&mut device, &[0x03]), 0);
    assert!(device.pages.iter().all(|page| page.status == [0; 4]));
    assert!(!device.alert);
}

#[test]
fn ones_clear_a_register_of_every_page() {
    let mut device = varied_all();
    for page in &mut device.pages {
        page.status = [0x0F; 4];
    }
    assert_eq!(write(&mut device, &[0x7C, 0x05]), 0);
    assert!(device.pages.iter().all(|page| page.status[2] == 0x0A));
    assert_eq!(device.cml, 0x80);
    assert_eq!(write(&mut device, &[0x7E, 0x80]), 0);
    assert_eq!(device.cml, 0x00);
}

#[test]
fn a_paged_read_gets_9_whatever_n() {
    for (code, data) in READABLE {
        for n in (0..=data + 3).chain([255, 300]) {
            let mut device = device(|device| device.page = 0xFF);
            let before = device;
            let (answer, reply) = read(&mut device, code, n);
            if UNPAGED.contains(&code) {
                let expected = read(&mut Device::power_on(), code, n);
                if code != 0x00 {
                    assert_eq!((answer, reply), expected, "{code:02x}");
                } else if n > 0 {
                    assert_eq!((answer, reply[0]), (expected.0, 0xFF));
                }
            } else {
                assert_eq!((answer, reply), (9, vec![0xFF; n]), "{code:02x}");
                let after = Device {
                    cml: 0x40,
                    alert: true,
                    ..before
                };
                assert_eq!(device, after);
            }
        }
    }
}

#[test]
fn answers_1_2_and_3_come_before_9() {
    let mut device = device(|device| device.page = 0xFF);
    assert_eq!(read_header(&mut device, &[0xC1, 0x79, 0xC1], 2).0, 1);
    assert_eq!(read_header(&mut device, &[0xC0, 0x79, 0xC0], 2).0, 2);
    assert_eq!(read(&mut device, 0x03, 0).0, 3);
    assert_eq!(read(&mut device, 0x99, 2).0, 3);
    assert_eq!(device.cml, 0x80);
}

#[test]
fn a_measurement_names_its_page() {
    let mut device = device(|device| device.page = 0xFF);
    assert_eq!(device.measure(3, 0, 0xFFFF), 0);
    assert_eq!(device.measure(0xFF, 0, 0xFFFF), 12);
    for (index, page) in device.pages.iter().enumerate() {
        assert_eq!(page.tripped, index == 3);
    }
    assert_eq!(device.page, 0xFF);
}

#[test]
fn unpaged_writes_touch_no_page() {
    let mut device = varied_all();
    device.pages[4].readings[0].word = 0xFFFF;
    let pages = device.pages;
    for bytes in [[0x10, 0x40], [0x10, 0x00], [0x7E, 0xFF], [0x00, 0xFF]] {
        assert_eq!(write(&mut device, &bytes), 0);
        assert_eq!(device.pages, pages);
    }
}
