//! DIRECT format: the exact order of values, choices at power-on, causes and the process
//! call COEFFICIENTS.

mod common;
use common::*;
use reference::device::{Choice, Device, Format};
use reference::format::compare;
use reference::pec::pec;
use reference::random::Random;
use reference::stream::Stream;
use std::cmp::Ordering::{self, Equal, Greater, Less};

const LINEAR: Format = Format::LINEAR;

/// Limit and READ codes with their quantities: 1 IOUT, 2 VIN, 3 temperature.
const LIMITS: [(u8, usize); 9] = [
    (0x46, 1),
    (0x4A, 1),
    (0x4F, 3),
    (0x51, 3),
    (0x53, 3),
    (0x55, 2),
    (0x57, 2),
    (0x58, 2),
    (0x59, 2),
];
const READS: [(u8, usize); 3] = [(0x88, 2), (0x8C, 1), (0x8D, 3)];

fn quantity_of(codes: &[(u8, usize)], code: u8) -> Option<usize> {
    codes.iter().find(|row| row.0 == code).map(|row| row.1)
}

/// The order of a DIRECT word to a Linear11 word.
fn beside(m: i16, b: i16, r: i8, y: i16, linear: u16) -> Ordering {
    let direct = (Format::direct(m, b, r), y as u16);
    let found = compare(direct, (LINEAR, linear)).unwrap();
    let turned = compare((LINEAR, linear), direct).unwrap();
    assert_eq!(found, turned.reverse());
    found
}

#[test]
fn known_values() {
    // D280h is 10, EEC0h is -40, C3F5h is 1013/256, 8001h is 1/65536.
    assert_eq!(beside(1, 0, 0, 10, 0xD280), Equal);
    assert_eq!(beside(1, 0, 0, 11, 0xD280), Greater);
    assert_eq!(beside(1, 0, -1, 1, 0xD280), Equal);
    assert_eq!(beside(1, 0, 2, 1000, 0xD280), Equal);
    assert_eq!(beside(1, 0, 2, 999, 0xD280), Less);
    assert_eq!(beside(-1, 0, 0, -10, 0xD280), Equal);
    assert_eq!(beside(-1, 0, 0, -9, 0xD280), Less);
    // (850 * 10^-1 - 5) / -2
    assert_eq!(beside(-2, 5, 1, 850, 0xEEC0), Equal);
    assert_eq!(beside(-2, 5, 1, 849, 0xEEC0), Greater);
    assert_eq!(beside(-2, 5, 1, 851, 0xEEC0), Less);
    assert_eq!(beside(256, 0, 0, 1013, 0xC3F5), Equal);
    assert_eq!(beside(256, -1, 0, 1012, 0xC3F5), Equal);
    assert_eq!(beside(-32768, 0, 0, -2, 0x8004), Equal);
    assert_eq!(beside(-32768, 0, 0, -1, 0x8001), Greater);
    assert_eq!(beside(32767, 0, 6, 1, 0x8001), Less);
    assert_eq!(beside(32767, 0, 6, 1, 0x8000), Greater);
    // 32,767,032,768 is more than 7BFFh, 33,521,664; the same below 7C00h.
    assert_eq!(beside(1, -32768, -6, 32767, 0x7BFF), Greater);
    assert_eq!(beside(-1, -32768, -6, 32767, 0x7C00), Less);
    // 33 millions, and 34 millions.
    assert_eq!(beside(1, 0, -6, 33, 0x7BFF), Less);
    assert_eq!(beside(1, 0, -6, 34, 0x7BFF), Greater);
    assert_eq!(beside(1, 0, -6, -33, 0x7C00), Greater);
    assert_eq!(beside(1, 0, -6, -34, 0x7C00), Less);
    // Two DIRECT values: 1/3 both, and a third less a little.
    let third = (Format::direct(3, 0, 0), 1);
    assert_eq!(
        compare(third, (Format::direct(-9, 0, 0), -3i16 as u16)),
        Ok(Equal)
    );
    assert_eq!(compare(third, (Format::direct(1, 0, 4), 3333)), Ok(Greater));
    assert_eq!(compare(third, (Format::direct(1, 0, 4), 3334)), Ok(Less));
    assert_eq!(compare(third, (Format::direct(3, -1, 0), 0)), Ok(Equal));
}

#[test]
fn answer_27_of_a_comparison() {
    for (m, r) in [(0, 0), (1, 7), (1, -7), (1, 127), (1, -128)] {
        let bad = (Format::direct(m, 0, r), 5);
        assert_eq!(compare(bad, (LINEAR, 5)), Err(27));
        assert_eq!(compare((LINEAR, 5), bad), Err(27));
        assert_eq!(compare(bad, bad), Err(27));
    }
    // Not looked at under a linear mark.
    let linear = Format {
        direct: false,
        ..Format::direct(0, 9, 99)
    };
    assert_eq!(compare((linear, 0x0001), (LINEAR, 0xF802)), Ok(Equal));
}

fn any_format(random: &mut Random) -> Format {
    let (m, b) = (random.word() as i16, random.word() as i16);
    let m = random.pick(&[m, 1, -1, 10, i16::MIN, i16::MAX]);
    Format {
        direct: random.percent(75),
        m: if m == 0 { 1 } else { m },
        b: random.pick(&[b, 0, i16::MIN, i16::MAX]),
        r: random.below(13) as i8 - 6,
    }
}

/// The value times 65,536 * 10^6 * m, and m: nothing is divided, whatever R is.
fn times_m((format, word): (Format, u16)) -> (i128, i128) {
    if !format.direct {
        let mantissa = i128::from((word << 5) as i16 >> 5);
        return ((mantissa << (16 + (word as i16 >> 11))) * 1_000_000, 1);
    }
    let y = i128::from(word as i16) * 10i128.pow((6 - i32::from(format.r)) as u32);
    let b = i128::from(format.b) * 1_000_000;
    ((y - b) << 16, i128::from(format.m))
}

#[test]
fn any_two_values() {
    let mut random = Random::new(10);
    let mut seen = [0; 3];
    for _ in 0..300_000 {
        let format = any_format(&mut random);
        let other = if random.percent(50) {
            format
        } else {
            any_format(&mut random)
        };
        let word = random.word();
        let near = word.wrapping_add(random.pick(&[0, 1, 0xFFFF]));
        let (left, right) = ((format, word), (other, near));
        let ((a, m), (b, n)) = (times_m(left), times_m(right));
        let mut due = (a * n).cmp(&(b * m));
        if (m < 0) != (n < 0) {
            due = due.reverse();
        }
        assert_eq!(compare(left, right), Ok(due), "{left:?} {right:?}");
        seen[match due {
            Less => 0,
            Equal => 1,
            Greater => 2,
        }] += 1;
    }
    assert!(seen.iter().all(|&count| count > 10_000), "{seen:?}");
}

/// In one format the order is that of the words, turned round by a negative m.
#[test]
fn one_format_orders_words() {
    for format in [
        Format::direct(7, -3, 6),
        Format::direct(1, 9, -6),
        Format::direct(-7, -3, 6),
        Format::direct(-1, 9, -6),
    ] {
        let words = [i16::MIN, -1000, -1, 0, 1, 1000, i16::MAX];
        for left in words {
            for right in words {
                let due = left.cmp(&right);
                let due = if format.m < 0 { due.reverse() } else { due };
                let found = compare((format, left as u16), (format, right as u16));
                assert_eq!(found, Ok(due));
            }
        }
    }
}

/// Choices with one page told apart.
fn choices(page: usize, formats: [Format; 3], limits: [u16; 6]) -> [Choice; 8] {
    let mut choices = [Choice::default(); 8];
    choices[page] = Choice { formats, limits };
    choices
}

/// A device whose page 2 has these formats and limits.
fn chosen(formats: [Format; 3], limits: [u16; 6]) -> Device {
    let (mut device, answer) = Device::power_on_with(&choices(2, formats, limits));
    assert_eq!(answer, 0);
    assert_eq!(write(&mut device, &[0x00, 2]), 0);
    device
}

const FORMATS: [Format; 3] = [
    Format::direct(0x0123, -2, 1),
    Format::direct(-0x0456, 0x0789, -6),
    Format::direct(i16::MIN, i16::MAX, 6),
];
const CHOSEN: [u16; 6] = [0x1111, 0x2222, 0x3333, 0x4444, 0x5555, 0x6666];

#[test]
fn limits_at_power_on() {
    // By limit code: the chosen word, and that of a linear quantity.
    let limits = [
        (0x40, 0, 0x2A3D, 0x2A3D),
        (0x42, 0, 0x2A3D, 0x2A3D),
        (0x46, 1, 0x2222, 0xD280),
        (0x4A, 1, 0x2222, 0xD280),
        (0x4F, 3, 0x3333, 0xEB70),
        (0x51, 3, 0x3333, 0xEB70),
        (0x53, 3, 0x4444, 0xEEC0),
        (0x55, 2, 0x5555, 0xD3FF),
        (0x57, 2, 0x5555, 0xD3FF),
        (0x58, 2, 0x6666, 0xC3F5),
        (0x59, 2, 0x6666, 0xC3F5),
    ];
    for marks in 0..8 {
        let formats = std::array::from_fn(|place| Format {
            direct: marks >> place & 1 == 1,
            ..FORMATS[place]
        });
        let mut device = chosen(formats, CHOSEN);
        assert_eq!(device.pages[2].formats, formats);
        for (code, quantity, direct, linear) in limits {
            let marked = quantity > 0 && marks >> (quantity - 1) & 1 == 1;
            let due = if marked { direct } else { linear };
            assert_eq!(word(&mut device, code), due, "{marks:03b} {code:02x}");
        }
        // All else, and every other page, is as ever.
        let mut usual = Device::power_on();
        write(&mut usual, &[0x00, 2]);
        device.pages[2].limits = usual.pages[2].limits;
        device.pages[2].warn_limits = usual.pages[2].warn_limits;
        device.pages[2].formats = usual.pages[2].formats;
        assert_eq!(device, usual);
    }
}

#[test]
fn answer_27_of_power_on() {
    for page in 0..8 {
        for place in 0..3 {
            for (m, r) in [(0, 0), (5, 7), (5, -7), (5, 127), (5, -128)] {
                let mut formats = FORMATS;
                formats[place] = Format::direct(m, 1, r);
                let choices = choices(page, formats, CHOSEN);
                assert_eq!(Device::power_on_with(&choices), (Device::power_on(), 27));
                let (stream, answer) = Stream::power_on_with(&choices);
                assert_eq!((stream, answer), (Stream::power_on(), 27));
                // The same under a linear mark is not looked at.
                let mut choices = choices;
                choices[page].formats[place].direct = false;
                assert_eq!(Device::power_on_with(&choices).1, 0);
            }
        }
    }
}

/// Each limit is strict and by value: quantity, limit code, above or below, register and
/// bit, with m above and below 0.
#[test]
fn causes_and_warnings_of_direct_quantities() {
    let watches = [
        (1, 0x46, true, 0x7B, 0x80),
        (1, 0x4A, true, 0x7B, 0x20),
        (2, 0x55, true, 0x7C, 0x80),
        (2, 0x57, true, 0x7C, 0x40),
        (2, 0x58, false, 0x7C, 0x20),
        (2, 0x59, false, 0x7C, 0x10),
        (3, 0x4F, true, 0x7D, 0x80),
        (3, 0x51, true, 0x7D, 0x40),
        (3, 0x53, false, 0x7D, 0x10),
    ];
    for m in [3, -3] {
        let format = Format::direct(m, 100, 2);
        for (quantity, code, above, register, bit) in watches {
            for limit in [0, 77, -77, i16::MAX - 1, i16::MIN + 1] {
                for step in [-1, 0, 1] {
                    let mut device = chosen([format; 3], [0; 6]);
                    let [low, high] = limit.to_le_bytes();
                    assert_eq!(write(&mut device, &[code, low, high]), 0);
                    assert_eq!(device.measure(2, quantity, (limit + step) as u16), 0);
                    let past = if above == (m > 0) { step > 0 } else { step < 0 };
                    let status = byte(&mut device, register);
                    assert_eq!(status & bit != 0, past, "{code:02x} {limit} {step} {m}");
                    let read = [0x8C, 0x88, 0x8D][usize::from(quantity) - 1];
                    assert_eq!(word(&mut device, read), (limit + step) as u16);
                }
            }
        }
    }
}

/// Linear quantities beside DIRECT ones, and other pages, stay linear.
#[test]
fn linear_beside_direct() {
    let mut device = chosen([LINEAR, FORMATS[1], LINEAR], CHOSEN);
    // D280h is the limit of IOUT; its value at another exponent is equal, one more is not.
    assert_eq!(device.measure(2, 1, 0xD940), 0);
    assert_eq!(byte(&mut device, 0x7B), 0x00);
    assert_eq!(device.measure(2, 1, 0xD281), 0);
    assert_eq!(byte(&mut device, 0x7B), 0xA0);
    assert_eq!(device.measure(3, 2, 0x7BFF), 0);
    assert_eq!(device.pages[3].status, [0, 0, 0xC0, 0]);
}

/// A header of COEFFICIENTS.
fn header(of: u8, direction: u8) -> [u8; 6] {
    [0xC0, 0x30, 0x02, of, direction, 0xC1]
}

#[test]
fn replies_of_coefficients() {
    let bytes: [[u8; 6]; 3] = [
        [0x05, 0x23, 0x01, 0xFE, 0xFF, 0x01],
        [0x05, 0xAA, 0xFB, 0x89, 0x07, 0xFA],
        [0x05, 0x00, 0x80, 0xFF, 0x7F, 0x06],
    ];
    for of in 0..=255 {
        for direction in 0..=255 {
            let device = chosen(FORMATS, CHOSEN);
            let header = header(of, direction);
            let quantity = match direction {
                0x00 => quantity_of(&LIMITS, of),
                0x01 => quantity_of(&LIMITS, of).or(quantity_of(&READS, of)),
                _ => None,
            };
            let ends = direction < 3 || direction == 255;
            for n in (0..=9).filter(|&n| ends || n == 6).chain([255]) {
                let mut after = device;
                let (answer, reply) = read_header(&mut after, &header, n);
                let Some(quantity) = quantity else {
                    assert_eq!((answer, reply), (9, vec![0xFF; n]), "{header:02x?}");
                    assert_eq!((after.cml, after.alert), (0x40, true));
                    continue;
                };
                let data = bytes[quantity - 1];
                let check = pec(&[&header[..], &data].concat());
                let mut due = [&data[..], &[check]].concat();
                due.resize(n.max(7), 0xFF);
                assert_eq!(reply, due[..n]);
                let (due, cml) = match n {
                    0..=5 => (10, 0x02),
                    6 | 7 => (0, 0x00),
                    _ => (11, 0x02),
                };
                assert_eq!((answer, after.cml), (due, cml), "{header:02x?} {n}");
                assert_eq!(after.pages, device.pages);
            }
        }
    }
}

/// The format of the selected page counts, and with all selected there is none.
#[test]
fn coefficients_are_paged() {
    let mut device = chosen(FORMATS, CHOSEN);
    for page in [0, 1, 3, 7, 0xFF] {
        write(&mut device, &[0x00, page]);
        for n in [0, 5, 6, 7, 8] {
            device.cml = 0;
            let answer = read_header(&mut device, &header(0x46, 0x00), n);
            assert_eq!((answer, device.cml), ((9, vec![0xFF; n]), 0x40));
        }
    }
    write(&mut device, &[0x00, 2]);
    assert_eq!(read_header(&mut device, &header(0x46, 0x00), 6).0, 0);
}

#[test]
fn headers_that_are_not_the_one() {
    let right = header(0x46, 0x01);
    let mut device = chosen(FORMATS, CHOSEN);
    let before = device;
    for n in [0, 1, 6, 7] {
        // Another count, more or fewer bytes, another last byte.
        for count in (0..=255).filter(|&count| count != 0x02) {
            let mut wrong = right;
            wrong[2] = count;
            assert_eq!(read_header(&mut device, &wrong, n), (2, vec![0xFF; n]));
        }
        for last in (0..=255).filter(|&last| last != 0xC1) {
            let mut wrong = right;
            wrong[5] = last;
            assert_eq!(read_header(&mut device, &wrong, n), (2, vec![0xFF; n]));
        }
        for length in (1..6).filter(|&length| length != 3) {
            let mut wrong = right[..length].to_vec();
            assert_eq!(read_header(&mut device, &wrong, n), (2, vec![0xFF; n]));
            if length > 3 {
                wrong[length - 1] = 0xC1;
                assert_eq!(read_header(&mut device, &wrong, n), (2, vec![0xFF; n]));
            }
        }
        let long = [&right[..5], &[0x00, 0xC1]].concat();
        assert_eq!(read_header(&mut device, &long, n), (2, vec![0xFF; n]));
        let counted = [0xC0, 0x30, 0x03, 0x46, 0x01, 0x00, 0xC1];
        assert_eq!(read_header(&mut device, &counted, n), (2, vec![0xFF; n]));
        // The same bytes behind another code.
        let other = [0xC0, 0x46, 0x02, 0x46, 0x01, 0xC1];
        assert_eq!(read_header(&mut device, &other, n), (2, vec![0xFF; n]));
        for first in (0..=255).filter(|&first| first != 0xC0) {
            let mut wrong = right;
            wrong[0] = first;
            assert_eq!(read_header(&mut device, &wrong, n), (1, vec![0xFF; n]));
        }
    }
    assert_eq!(device, before);
}

#[test]
fn a_process_call_is_not_written_and_not_read() {
    for protect in [0x00, 0x80] {
        for n in [0, 1, 6, 7] {
            let mut device = chosen(FORMATS, CHOSEN);
            device.protect = protect;
            assert_eq!(read(&mut device, 0x30, n), (3, vec![0xFF; n]));
            assert_eq!(device.cml, 0x80);
        }
        for bytes in [
            &[0x30][..],
            &[0x30, 0x02],
            &[0x30, 0x02, 0x46, 0x01],
            &[0x30, 0x02, 0x46, 0x01, 0x00],
            &[0x30, 0x02, 0x46, 0x01, 0xC1],
            &[0x30, 0, 0, 0, 0, 0, 0],
        ] {
            let mut device = chosen(FORMATS, CHOSEN);
            device.protect = protect;
            assert_eq!(write(&mut device, bytes), 3);
            assert_eq!(device.cml, 0x80);
        }
    }
}

/// Three written bytes and one more are ACKed, the second address byte behind any number.
#[test]
fn streamed() {
    for count in 0..9 {
        let bytes = [0x02, 0x46, 0x01, 0x11, 0x22, 0x33, 0x44, 0x55, 0x66];
        let mut stream = Stream::new(chosen(FORMATS, CHOSEN));
        stream.start();
        assert!(stream.byte(0xC0) && stream.byte(0x30));
        for (place, &byte) in bytes[..count].iter().enumerate() {
            assert_eq!(stream.byte(byte), place < 4);
        }
        let mut written = stream.clone();
        assert_eq!(written.stop(), 3);
        stream.repeated_start();
        assert!(stream.byte(0xC1));
        let sent: Vec<u8> = (0..7).map(|_| stream.clock()).collect();
        let header = [&[0xC0, 0x30], &bytes[..count], &[0xC1]].concat();
        let mut whole = chosen(FORMATS, CHOSEN);
        let (answer, reply) = read_header(&mut whole, &header, 7);
        assert_eq!((stream.stop(), sent), (answer, reply));
        assert_eq!(stream.device, whole);
        let due = match count {
            0 => 3,
            3 => 0,
            _ => 2,
        };
        assert_eq!(answer, due);
    }
}

/// A refusal 9 that was sent stays a refusal, and its bit falls at STOP.
#[test]
fn streamed_with_a_call_between() {
    let mut stream = Stream::power_on();
    stream.start();
    for byte in [0xC0, 0x30, 0x02, 0x46, 0x01] {
        assert!(stream.byte(byte));
    }
    stream.repeated_start();
    assert!(stream.byte(0xC1));
    assert_eq!(stream.sample(5), 0);
    assert_eq!(stream.clock(), 0xFF);
    assert_eq!(stream.measure(0, 1, 0x7BFF), 0);
    assert_eq!(stream.device.cml, 0x00);
    assert_eq!(stream.stop(), 9);
    assert_eq!(stream.device.cml, 0x40);
}
