//! The device fed byte by byte, against the device that takes whole transactions.

mod common;
use common::*;
use reference::command;
use reference::device::{Device, Machine, Reading};
use reference::pec::pec;
use reference::stream::Stream;

/// What happens on the bus.
#[derive(Clone, Copy, Debug, PartialEq, Eq)]
enum Event {
    Start,
    Byte(u8),
    Repeated,
    Clock,
    Stop,
}

use Event::*;

/// What the stream gives for an event: 0 or 1 for a byte (1 is ACK), the byte sent for
/// a clock, the answer for the others.
fn feed(stream: &mut Stream, event: Event) -> u8 {
    match event {
        Start => stream.start(),
        Byte(byte) => u8::from(stream.byte(byte)),
        Repeated => stream.repeated_start(),
        Clock => stream.clock(),
        Stop => stream.stop(),
    }
}

/// What the events after START are: the bytes of a write, the header of a read and the
/// number of bytes clocked so far, a read before its second address byte, or a breach.
#[derive(Debug, PartialEq)]
enum Meaning {
    Write(Vec<u8>),
    Turned(Vec<u8>),
    Read(Vec<u8>, usize),
    Breach,
}

fn meaning(events: &[Event]) -> Meaning {
    let byte = |event: &Event| match event {
        Byte(byte) => Some(*byte),
        _ => None,
    };
    let first: Vec<u8> = events.iter().map_while(byte).collect();
    match &events[first.len()..] {
        [] => Meaning::Write(first),
        [Repeated] => Meaning::Turned(first),
        [Repeated, Byte(address), rest @ ..] if rest.iter().all(|event| *event == Clock) => {
            Meaning::Read([&first[..], &[*address]].concat(), rest.len())
        }
        _ => Meaning::Breach,
    }
}

/// Whether the last of these events, a byte, is ACKed.
fn acked(events: &[Event]) -> bool {
    // A wrong address byte or an absent code before or at it.
    let clean = |bytes: &[u8]| {
        bytes.first().is_none_or(|&byte| byte == 0xC0)
            && bytes
                .get(1)
                .is_none_or(|&code| command::lookup(code).is_some())
    };
    match meaning(events) {
        Meaning::Write(bytes) => {
            let data = bytes.get(1).and_then(|&code| command::lookup(code));
            let room = data.map_or(usize::MAX, |command| 2 + command.data + 1);
            clean(&bytes) && bytes.len() <= room
        }
        Meaning::Read(header, 0) => {
            let (address, first) = header.split_last().unwrap();
            clean(first) && *address == 0xC1
        }
        _ => false,
    }
}

/// The stream must give what the paper says, event by event, from this device, with
/// nothing between.
fn check(device: Device, events: &[Event]) {
    let mut stream = Stream::new(device);
    let mut whole = device;
    // The events since the last START, none before one or after a STOP.
    let mut since: Option<Vec<Event>> = None;
    for (place, &event) in events.iter().enumerate() {
        let got = feed(&mut stream, event);
        let told = &events[..=place];
        match (event, &mut since) {
            (Start, since) => {
                *since = Some(Vec::new());
                assert_eq!(got, 0);
            }
            (Stop, since) => {
                let due = match since.take().map(|since| meaning(&since)) {
                    Some(Meaning::Write(bytes)) => whole.write(&bytes),
                    Some(Meaning::Read(header, n)) => whole.read(&header, &mut vec![0; n]),
                    _ => 2,
                };
                assert_eq!(got, due, "{told:02x?}");
            }
            (event, Some(since)) => {
                since.push(event);
                match event {
                    Byte(_) => assert_eq!(got != 0, acked(since), "{told:02x?}"),
                    Clock => assert_eq!(got, sent(&whole, since), "{told:02x?}"),
                    _ => assert_eq!(got, 0),
                }
            }
            (event, since) => {
                // Without START: a breach up to the next START or STOP.
                assert_eq!(got, if event == Clock { 0xFF } else { 0 }, "{told:02x?}");
                *since = None;
            }
        }
        assert_eq!(stream.device, whole, "{told:02x?}");
    }
}

/// The byte sent at the last of these events, a clock.
fn sent(device: &Device, events: &[Event]) -> u8 {
    match meaning(events) {
        Meaning::Read(header, n) => {
            let mut reply = vec![0; n];
            { *device }.read(&header, &mut reply);
            reply[n - 1]
        }
        _ => 0xFF,
    }
}

/// A device with something in every field that a reply shows.
fn varied() -> Device {
    let mut device = Device::power_on();
    device.sample(0x1234);
    device.measure(0, 0, 0x1999);
    device.measure(0, 2, 0x7BFF);
    write(&mut device, &[0x99]);
    device
}

/// Every list of six events of nine kinds, and of five with all pages selected.
#[test]
fn every_short_list_of_events() {
    let kinds = [
        Start,
        Byte(0xC0),
        Byte(0xC1),
        Byte(0x03),
        Byte(0x79),
        Byte(0x99),
        Repeated,
        Clock,
        Stop,
    ];
    let all_pages = device(|device| device.page = 0xFF);
    let count = kinds.len();
    for (length, device) in [(6, varied()), (5, all_pages)] {
        for number in 0..count.pow(length) {
            let mut rest = number;
            let events: Vec<Event> = (0..length)
                .map(|_| {
                    let kind = kinds[rest % count];
                    rest /= count;
                    kind
                })
                .collect();
            check(device, &events);
        }
    }
}

/// The same after a START and the beginning of a read or a write.
#[test]
fn every_list_after_a_beginning() {
    let kinds = [
        Start,
        Byte(0xC1),
        Byte(0x00),
        Byte(0x79),
        Repeated,
        Clock,
        Stop,
    ];
    let beginnings: [&[Event]; 6] = [
        &[Start, Byte(0xC0), Byte(0x79), Repeated, Byte(0xC1)],
        &[Start, Byte(0xC0), Byte(0x19), Repeated],
        &[Start, Byte(0xC0), Byte(0x21), Byte(0x11), Byte(0x22)],
        &[Start, Byte(0xC0), Byte(0x00)],
        &[Start, Byte(0xC2)],
        &[Start, Repeated],
    ];
    let count = kinds.len();
    for beginning in beginnings {
        for number in 0..count.pow(5) {
            let mut events = beginning.to_vec();
            let mut rest = number;
            for _ in 0..5 {
                events.push(kinds[rest % count]);
                rest /= count;
            }
            check(varied(), &events);
        }
    }
}

#[test]
fn all_codes_written_and_read() {
    for code in 0..=255 {
        for data in 0..12 {
            let mut events = vec![Start, Byte(0xC0), Byte(code)];
            events.extend((0..data).map(|_| Byte(0x00)));
            events.push(Stop);
            check(varied(), &events);
            // With the PEC as last byte.
            if data > 0 {
                let mut bytes = vec![0xC0, code];
                bytes.extend(vec![0x00; data - 1]);
                let check_byte = pec(&bytes);
                events[2 + data] = Byte(check_byte);
                check(varied(), &events);
            }
            let mut events = vec![Start, Byte(0xC0), Byte(code), Repeated, Byte(0xC1)];
            events.extend((0..data).map(|_| Clock));
            events.push(Stop);
            check(varied(), &events);
        }
    }
}

#[test]
fn the_sent_bytes_are_the_reply() {
    let mut stream = Stream::new(varied());
    for event in [Start, Byte(0xC0), Byte(0x79), Repeated, Byte(0xC1)] {
        assert_eq!(feed(&mut stream, event), u8::from(matches!(event, Byte(_))));
    }
    let sent: Vec<u8> = (0..5).map(|_| stream.clock()).collect();
    let (answer, reply) = read(&mut varied(), 0x79, 5);
    assert_eq!((stream.stop(), sent), (answer, reply));
}

/// Nothing wraps, however many bytes come.
#[test]
fn long_transactions() {
    for count in [
        11, 12, 255, 256, 257, 258, 259, 65_535, 65_536, 65_538, 131_074,
    ] {
        for code in [0x03, 0x00, 0x21] {
            let mut stream = Stream::power_on();
            stream.start();
            let data = command::lookup(code).unwrap().data;
            for place in 0..count {
                let byte = *[0xC0, code].get(place).unwrap_or(&0x00);
                assert_eq!(stream.byte(byte), place < 3 + data);
            }
            assert_eq!(stream.stop(), 6);
            assert_eq!(stream.device.cml, 0x40);
        }
        let mut stream = Stream::power_on();
        stream.start();
        stream.byte(0xC0);
        stream.byte(0x98);
        stream.repeated_start();
        assert!(stream.byte(0xC1));
        let sent: Vec<u8> = (0..count).map(|_| stream.clock()).collect();
        assert_eq!(sent[..2], [0x22, pec(&[0xC0, 0x98, 0xC1, 0x22])]);
        assert!(sent[2..].iter().all(|&byte| byte == 0xFF));
        assert_eq!(stream.stop(), 11);
        // A header too long: the right second address byte is ACKed all the same.
        stream.start();
        for place in 0..count {
            stream.byte(*[0xC0, 0x98].get(place).unwrap_or(&0x00));
        }
        stream.repeated_start();
        assert!(stream.byte(0xC1));
        assert_eq!(stream.clock(), 0xFF);
        assert_eq!(stream.stop(), 2);
    }
}

/// Calls that may come between the events of a transaction.
fn between(stream: &mut Stream, kind: usize) {
    match kind {
        0 => assert_eq!(stream.sample(77), 0),
        1 => assert_eq!(stream.measure(0, 0, 0xFFFF), 0),
        2 => assert_eq!(stream.tick(), 0),
        _ => {
            stream.alert_response(&mut [0]);
        }
    }
}

/// Before any event of a read: the reply is that of the state at the second address
/// byte, the rest falls on the state at STOP.
#[test]
fn calls_between_the_events_of_a_read() {
    for (code, data) in READABLE {
        for n in [0, 1, data, data + 1, data + 2] {
            let mut events = vec![Start, Byte(0xC0), Byte(code), Repeated, Byte(0xC1)];
            events.extend(vec![Clock; n]);
            events.push(Stop);
            for place in 1..events.len() {
                for kind in 0..4 {
                    let mut stream = Stream::new(varied());
                    let mut reply_from = varied();
                    let mut sent = Vec::new();
                    let mut answer = 0;
                    for (index, &event) in events.iter().enumerate() {
                        if index == place {
                            between(&mut stream, kind);
                        }
                        if index == 4 {
                            reply_from = stream.device;
                        }
                        let last = stream.device;
                        let got = feed(&mut stream, event);
                        match event {
                            Clock => sent.push(got),
                            Stop => answer = got,
                            _ => {}
                        }
                        if event != Stop {
                            assert_eq!(stream.device, last);
                        }
                    }
                    let (due, reply) = read(&mut reply_from, code, n);
                    assert_eq!((answer, sent), (due, reply), "{code:02x} {n} {place}");
                    let mut stream_before = Stream::new(varied());
                    between(&mut stream_before, kind);
                    let mut whole = stream_before.device;
                    read(&mut whole, code, n);
                    assert_eq!(stream.device, whole);
                }
            }
        }
    }
}

#[test]
fn calls_between_the_events_of_a_write() {
    for (code, data) in WRITTEN {
        for count in [0, data, data + 1, data + 3] {
            let mut bytes = vec![0xC0, code];
            bytes.extend(vec![0x00; count]);
            for place in 0..=bytes.len() {
                for kind in 0..4 {
                    let mut stream = Stream::new(varied());
                    stream.start();
                    for (index, &byte) in bytes.iter().enumerate() {
                        if index == place {
                            between(&mut stream, kind);
                        }
                        stream.byte(byte);
                    }
                    if place == bytes.len() {
                        between(&mut stream, kind);
                    }
                    let mut whole = stream.device;
                    let answer = stream.stop();
                    assert_eq!(answer, whole.write(&bytes));
                    assert_eq!(stream.device, whole);
                    // The answer is that without the call between.
                    assert_eq!(answer, { varied() }.write(&bytes));
                }
            }
        }
    }
}

#[test]
fn a_start_drops_what_was_unfinished() {
    let mut stream = Stream::power_on();
    for events in [
        &[Start, Byte(0xC0), Byte(0x01), Byte(0x80)][..],
        &[Start, Byte(0xC0), Byte(0x79), Repeated, Byte(0xC1), Clock],
        &[Start, Byte(0x99), Repeated, Repeated],
        &[Start, Byte(0xC0), Byte(0x99)],
    ] {
        for &event in events {
            feed(&mut stream, event);
        }
        assert_eq!(stream.start(), 0);
        assert_eq!(stream.device, Device::power_on());
        assert!(stream.byte(0xC0) && stream.byte(0x98));
    }
}

#[test]
fn an_empty_first_part_is_a_header_of_one_byte() {
    for byte in 0..=255 {
        let mut stream = Stream::power_on();
        stream.start();
        stream.repeated_start();
        assert_eq!(stream.byte(byte), byte == 0xC1);
        assert_eq!(stream.clock(), 0xFF);
        let due = { Device::power_on() }.read(&[byte], &mut [0]);
        assert_eq!(stream.stop(), due);
        assert_eq!(due, if byte == 0xC0 { 2 } else { 1 });
    }
}

#[test]
fn everything_under_15() {
    let bad = device(|device| {
        device.pages[7].machines[4] = Machine {
            phase: 3,
            ticks: 0,
            tries: 6,
        };
        device.pages[7].readings[0] = Reading {
            measured: true,
            word: 0xFFFF,
        };
        device.alert = true;
    });
    // From each phase of a transaction.
    let events = [Start, Byte(0xC0), Byte(0x79), Repeated, Byte(0xC1), Clock];
    for count in 0..=events.len() {
        let mut stream = Stream::power_on();
        for &event in &events[..count] {
            feed(&mut stream, event);
        }
        stream.device = bad;
        let before = stream.clone();
        for (event, due) in [
            (Start, 15),
            (Byte(0xC0), 0),
            (Repeated, 15),
            (Clock, 0xFF),
            (Stop, 15),
        ] {
            assert_eq!(feed(&mut stream, event), due);
            assert_eq!(stream, before);
        }
        assert_eq!(stream.sample(1), 15);
        assert_eq!(stream.measure(0, 0, 0), 15);
        assert_eq!(stream.tick(), 15);
        let mut reply = [0];
        assert_eq!((stream.alert_response(&mut reply), reply), (15, [0xFF]));
        assert_eq!(stream, before);
    }
}
