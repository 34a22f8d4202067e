//! Answers 0 to 14: when each is given, in which order, and what it leaves.

mod common;
use common::*;
use reference::command;
use reference::device::Device;
use reference::pec::pec;

/// A well-formed write of `code`, without the address byte.
fn good_data(code: u8, length: usize) -> Vec<u8> {
    [&[code][..], &vec![0x00; length]].concat()
}

/// Device as before but for CML and the alert.
fn with_cml(before: &Device, cml: u8) -> Device {
    Device {
        cml,
        alert: true,
        ..*before
    }
}

#[test]
fn table_has_the_thirty_eight_codes() {
    assert_eq!(command::TABLE.len(), 38);
    for code in 0..=255 {
        let row = command::lookup(code);
        let written = row.filter(|row| row.written()).map(|row| row.data);
        let readable = row.filter(|row| row.read()).map(|row| row.data);
        assert_eq!(written, length(&WRITTEN, code), "{code:02x}");
        assert_eq!(readable, length(&READABLE, code), "{code:02x}");
    }
}

#[test]
fn answer_1_first_byte_not_c0() {
    let before = Device::power_on();
    for first in (0..=255).filter(|&first| first != 0xC0) {
        let mut device = before;
        for bytes in [&[first][..], &[first, 0x00, 0x01], &[first, 0x99]] {
            assert_eq!(device.write(bytes), 1);
        }
        for header in [&[first][..], &[first, 0x79, 0xC1], &[first, 0x79]] {
            let answer = read_header(&mut device, header, 3);
            assert_eq!(answer, (1, vec![0xFF; 3]));
        }
        assert_eq!(device, before);
    }
}

#[test]
fn answer_2_empty_short_or_wrong_header() {
    let before = Device::power_on();
    let mut device = before;
    assert_eq!(device.write(&[]), 2);
    assert_eq!(device.write(&[0xC0]), 2);
    for header in [
        &[][..],
        &[0xC0],
        &[0xC0, 0x79],
        &[0xC0, 0x79, 0xC0],
        &[0xC0, 0x79, 0xC1, 0x00],
        &[0xC0, 0x99, 0xC0],
    ] {
        for n in [0, 1, 2, 300] {
            let answer = read_header(&mut device, header, n);
            assert_eq!(answer, (2, vec![0xFF; n]));
        }
    }
    assert_eq!(device, before);
}

#[test]
fn answer_2_alert_response_with_n_not_1() {
    for up in [false, true] {
        let before = device(|device| device.alert = up);
        let mut device = before;
        for n in [0, 2, 3, 255] {
            assert_eq!(alert(&mut device, n), (2, vec![0xFF; n]));
        }
        assert_eq!(device, before);
    }
}

#[test]
fn answer_3_absent_or_not_written() {
    for code in (0..=255).filter(|&code| length(&WRITTEN, code).is_none()) {
        for count in [0, 1, 2, 3, 8, 300] {
            let before = device(|device| device.protect = 0x80);
            let mut device = before;
            assert_eq!(write(&mut device, &good_data(code, count)), 3);
            assert_eq!(device, with_cml(&before, 0x80));
        }
    }
}

#[test]
fn answer_3_absent_or_not_read() {
    for code in (0..=255).filter(|&code| length(&READABLE, code).is_none()) {
        for n in [0, 1, 2, 255] {
            let before = Device::power_on();
            let mut device = before;
            assert_eq!(read(&mut device, code, n), (3, vec![0xFF; n]));
            assert_eq!(device, with_cml(&before, 0x80));
        }
    }
}

#[test]
fn answers_5_and_6_by_length() {
    for (code, data) in WRITTEN {
        for count in 0..=data + 5 {
            let before = device(|device| device.protect = 0x80);
            let mut after = before;
            let answer = write(&mut after, &good_data(code, count));
            if count < data {
                assert_eq!(answer, 5, "{code:02x}");
                assert_eq!(after, with_cml(&before, 0x02));
            } else if count > data + 1 {
                assert_eq!(answer, 6, "{code:02x}");
                assert_eq!(after, with_cml(&before, 0x40));
            } else {
                assert!(answer != 5 && answer != 6);
            }
        }
    }
}

#[test]
fn lengths_do_not_wrap() {
    for extra in [253, 254, 255, 256, 257, 258, 65_535, 65_536, 65_537] {
        let data = good_data(0x40, 2 + extra);
        assert_eq!(write(&mut Device::power_on(), &data), 6);
        let data = good_data(0x98, 2 + extra);
        assert_eq!(write(&mut Device::power_on(), &data), 3);
    }
}

#[test]
fn answer_7_for_every_wrong_pec() {
    for (code, data) in WRITTEN {
        let bytes = [&[0xC0], &good_data(code, data)[..]].concat();
        for check in 0..=255 {
            let before = Device::power_on();
            let mut after = before;
            let answer = after.write(&[&bytes[..], &[check]].concat());
            if check == pec(&bytes) {
                assert_eq!(answer, 0, "{code:02x}");
            } else {
                assert_eq!(answer, 7, "{code:02x}");
                assert_eq!(after, with_cml(&before, 0x20));
            }
        }
    }
}

#[test]
fn answer_8_by_level() {
    let permits: [(u8, &[u8]); 4] = [
        (0x80, &[0x10, 0x03]),
        (0x40, &[0x10, 0x03, 0x01, 0x00]),
        (0x20, &[0x10, 0x03, 0x01, 0x00, 0x21]),
        (0x00, &WRITTEN.map(|row| row.0)),
    ];
    for (level, permitted) in permits {
        for (code, data) in WRITTEN {
            let before = device(|device| device.protect = level);
            let mut after = before;
            let answer = write_pec(&mut after, &good_data(code, data));
            let clears = (0x7A..=0x7E).contains(&code);
            if permitted.contains(&code) || clears {
                assert_eq!(answer, 0, "{level:02x} {code:02x}");
            } else {
                assert_eq!(answer, 8, "{level:02x} {code:02x}");
                assert_eq!(after, with_cml(&before, 0x80));
            }
        }
    }
}

#[test]
fn answer_9_by_data() {
    let all: Vec<u8> = (0..=255).collect();
    for (code, _) in WRITTEN.into_iter().filter(|row| row.1 == 1) {
        let valid: &[u8] = match code {
            0x00 => &[0, 1, 2, 3, 4, 5, 6, 7, 0xFF],
            0x01 => &[0x00, 0x40, 0x80],
            0x10 => &[0x00, 0x20, 0x40, 0x80],
            0x47 => &[0x00, 0xC0],
            0x7A..=0x7E => continue, // any byte; see clearings.rs
            0x41 | 0x50 | 0x54 | 0x56 | 0x5A => &all,
            _ => unreachable!("{code:02x}"),
        };
        for value in 0..=255 {
            let before = Device::power_on();
            let mut after = before;
            let answer = write(&mut after, &[code, value]);
            if valid.contains(&value) {
                assert_eq!(answer, 0, "{code:02x} {value:02x}");
                assert_eq!(byte(&mut after, code), value);
            } else {
                assert_eq!(answer, 9, "{code:02x} {value:02x}");
                assert_eq!(after, with_cml(&before, 0x40));
            }
        }
    }
}

#[test]
fn words_take_any_data() {
    for (code, _) in WRITTEN.into_iter().filter(|row| row.1 == 2) {
        for value in [0x0000, 0x00FF, 0xFF00, 0x7C00, 0x8001, 0xFFFF, 0x1234] {
            let mut device = Device::power_on();
            let [low, high] = u16::to_le_bytes(value);
            assert_eq!(write(&mut device, &[code, low, high]), 0);
            assert_eq!(word(&mut device, code), value);
        }
    }
}

#[test]
fn order_of_write_answers() {
    let protected = device(|device| device.protect = 0x80);
    let answer = |bytes: &[u8]| write(&mut { protected }, bytes);
    assert_eq!(answer(&[0x78, 0x80, 0x00]), 3); // 3 before 7
    assert_eq!(answer(&[0x47]), 5); // 5 before 8
    assert_eq!(answer(&[0x47, 0x12, 0x00, 0x00]), 6); // 6 before 8 and 9
    assert_eq!(answer(&[0x47, 0x12, 0x00]), 7); // 7 before 8 and 9
    assert_eq!(answer(&[0x47, 0x12]), 8); // 8 before 9
    assert_eq!(answer(&[0x10, 0x12]), 9); // 10 is permitted, so 9
    assert_eq!(answer(&[0x10, 0x12, 0x00]), 7); // 7 before 9
}

#[test]
fn reads_by_n() {
    for (code, data) in READABLE {
        let before = device(|device| device.protect = 0x80);
        let full = read(&mut { before }, code, data).1;
        let check = pec(&[&[0xC0, code, 0xC1], &full[..]].concat());
        for n in (0..=data + 4).chain([255, 300]) {
            let mut after = before;
            let (answer, reply) = read(&mut after, code, n);
            let mut expected = [&full[..], &[check]].concat();
            expected.resize(n.max(data + 1), 0xFF);
            assert_eq!(reply, expected[..n], "{code:02x}");
            if n < data {
                assert_eq!((answer, after), (10, with_cml(&before, 0x02)));
            } else if n > data + 1 {
                assert_eq!((answer, after), (11, with_cml(&before, 0x02)));
            } else {
                assert_eq!((answer, after), (0, before));
            }
        }
    }
}

#[test]
fn reply_is_made_before_the_cml_bit() {
    for code in [0x7E, 0x78, 0x79] {
        let mut device = Device::power_on();
        let (answer, reply) = read(&mut device, code, 4);
        assert_eq!(answer, 11);
        assert_eq!(reply[0] & 0x02, 0);
        assert_eq!(device.cml, 0x02);
    }
    let mut device = Device::power_on();
    assert_eq!(read(&mut device, 0x79, 1), (10, vec![0x40]));
    assert_eq!(byte(&mut device, 0x78), 0x42);
}

#[test]
fn answer_12_page_or_quantity() {
    let before = Device::power_on();
    for page in 0..=255 {
        for quantity in 0..=255 {
            let mut after = before;
            let answer = after.measure(page, quantity, 0x7BFF);
            if page > 7 || quantity > 3 {
                assert_eq!((answer, after), (12, before));
            } else {
                assert_eq!(answer, 0);
                assert_eq!(after.page, 0);
            }
        }
    }
}

#[test]
fn answer_13_sample() {
    let before = Device::power_on();
    for sample in 0..=0xFFFF {
        let mut after = before;
        let answer = after.sample(sample);
        assert_eq!(answer, if sample > 32767 { 13 } else { 0 });
        assert_eq!(after == before, answer == 13);
    }
}

#[test]
fn answer_14_alert_down() {
    let mut device = Device::power_on();
    assert_eq!(alert(&mut device, 1), (14, vec![0xFF]));
    assert_eq!(device, Device::power_on());
    device.alert = true;
    assert_eq!(alert(&mut device, 1), (0, vec![0xC0]));
    assert_eq!(device, Device::power_on());
}
