//! The streaming device: the library against the data sheet's layout and rules on any buffer, against the second program along runs, and
//! against the library's own whole-transaction device.

use conformance::buffer::{
    decode, device_in, encode, encode_choices, encode_with, Lent, Part, AT_REST, PART, READING,
};
use conformance::calls::{self, random_call, Call};
use conformance::headers;
use conformance::library::stream::{self, ACK, CHOICES, NACK, SIZE};
use conformance::library::{self, Device, PageChoice};
use conformance::mirror;
use conformance::random::Random;
use conformance::states;
use conformance::streaming::{
    events_of, on_library, on_second, random_event, random_events, random_part, refused, Event,
    Gives, ANSWERS, REASONS,
};
use conformance::tally::{Changes, Given};
use reference::stream::Stream;

const EVENTS: usize = 2_000_000;
/// Events of a run from power-on, at least.
const RUN: usize = 2_000;
const BUFFERS: usize = 300_000;

/// A device that gets no 15 most of the time.
fn random_device(random: &mut Random) -> Device {
    match random.below(10) {
        0 => states::anything(random),
        1 => states::one_field_invalid(random),
        _ => states::valid(random),
    }
}

/// A buffer of a part and a device, where a mark that is set is any byte but 0.
fn with_any_marks(random: &mut Random, part: Part, device: Device) -> Vec<u8> {
    encode_with(part, device, &mut || random.u8().max(1))
}

/// The questions: whether each page supplies and whether the alert is up, for some page numbers.
fn check_questions(random: &mut Random, buffer: &[u8], device: &reference::device::Device) {
    for page in (0..10).chain([random.u8()]) {
        let pages = &device.pages;
        let on = pages.get(usize::from(page)).is_some_and(|p| p.supplies());
        assert_eq!(stream::supplies(buffer, page), u8::from(on), "page {page}");
    }
    assert_eq!(stream::alert(buffer), u8::from(device.alert));
}

/// An event on a buffer that may hold anything. Fails unless the library gives what the data sheet says and leaves the part and the device
/// that it says, or under 15 every byte.
fn step(random: &mut Random, lent: &mut Lent, event: &Event, given: &mut Given) -> Gives {
    let before = lent.bytes().to_vec();
    let (mut part, mut device) = decode(&before);
    let mut second = mirror::to_reference(&device);
    let filler = random.u8();
    let got = on_library(lent.bytes_mut(), event, filler);
    lent.check();
    let after = lent.bytes();
    if let Some(name) = event.answers() {
        given.note(name, got.0);
    }
    if !part.valid() || !second.valid() {
        assert_eq!(got, refused(event), "{event:02x?} under 15");
        assert_eq!(after, before, "{event:02x?} under 15");
        return got;
    }
    note_byte(given, &part, event, got.0);
    let due = match event {
        Event::Beside(call) => {
            assert_eq!(after[..PART], before[..PART], "{event:02x?}: the part");
            let outcome = calls::on_reference(device, call, filler);
            device = outcome.device;
            (outcome.answer, outcome.reply)
        }
        event => {
            let number = part.take(&mut second, event);
            device = mirror::from_reference(&second);
            (number, vec![])
        }
    };
    let (part_left, device_left) = decode(after);
    assert_eq!(got, due, "{event:02x?} on {before:02x?}");
    assert_eq!(part_left.meant(), part.meant(), "{event:02x?}");
    assert_eq!(device_left, device, "{event:02x?} on {before:02x?}");
    got
}

/// Notes why a byte got ACK or NACK, and the bytes sent that are FFh whatever the device holds.
fn note_byte(given: &mut Given, part: &Part, event: &Event, number: u8) {
    match *event {
        Event::Byte(byte) => given.note(part.reason(byte).0, number),
        Event::Clock if part.phase != READING => given.note("clocked out of order", number),
        Event::Clock if part.clocked > 7 => given.note("clocked behind the reply", number),
        _ => {}
    }
}

/// Fails unless each reason for ACK and NACK was met and gave that alone.
fn require_bytes(given: &Given) {
    for (name, number) in REASONS {
        given.require(name, &[number]);
    }
    given.require("clocked out of order", &[0xFF]);
    given.require("clocked behind the reply", &[0xFF]);
}

fn print(given: &Given) {
    for (name, _) in ANSWERS {
        println!("    {name}: answers {}", given.counts(name));
    }
    for (title, number) in [("ACK", ACK), ("NACK", NACK)] {
        let rows = REASONS.iter().filter(|row| row.1 == number);
        let counts: Vec<String> = rows
            .map(|(name, _)| format!("{name} {}", given.count(name, number)))
            .collect();
        println!("    {title}: {}", counts.join(", "));
    }
}

#[test]
fn layout() {
    let mut random = Random::new(30);
    let due = encode(AT_REST, library::power_on());
    for _ in 0..1000 {
        let held = random.bytes(SIZE);
        let mut lent = Lent::new(&mut random, &held);
        assert_eq!(stream::power_on(lent.bytes_mut()), 0);
        lent.check();
        assert_eq!(lent.bytes(), due);

        let device = states::anything(&mut random);
        let part = random_part(&mut random, &device);
        let buffer = with_any_marks(&mut random, part, device);
        assert_eq!(decode(&buffer), (part, device));
    }
    println!("  stream: power-on leaves the {SIZE} bytes of the data sheet's layout, whatever the buffer held");
}

/// Choices as bytes, in which a mark that is set is any byte but 0.
fn choices_with_any_marks(random: &mut Random, choices: &[PageChoice]) -> Vec<u8> {
    encode_choices(choices, &mut || random.u8().max(1))
}

#[test]
fn power_on_by_choices() {
    let mut random = Random::new(36);
    let mut refused = 0;
    for _ in 0..BUFFERS / 20 {
        let choices = states::eight_choices(&mut random);
        let bytes = choices_with_any_marks(&mut random, &choices);
        assert_eq!(bytes.len(), CHOICES);
        let held = random.bytes(SIZE);
        let mut lent = Lent::new(&mut random, &held);
        let answer = stream::power_on_by(lent.bytes_mut(), &bytes);
        lent.check();
        let whole = library::power_on_by(choices);
        assert_eq!(answer, whole.answer, "{choices:04x?}");
        assert_eq!(
            lent.bytes(),
            encode(AT_REST, whole.device),
            "{choices:04x?}"
        );
        let chosen = choices.each_ref().map(mirror::choice_to_reference);
        let (second, due) = Stream::power_on_with(&chosen);
        assert_eq!((device_in(lent.bytes()), answer), (second.device, due));
        refused += usize::from(answer == 27);
    }
    assert!(refused > BUFFERS / 200, "{refused}");
    let linear = encode(AT_REST, library::power_on());
    for length in [
        0,
        1,
        30,
        CHOICES - 1,
        CHOICES + 1,
        CHOICES + 30,
        2 * CHOICES,
    ] {
        let mut bytes = vec![];
        while bytes.len() < length {
            let choice = states::choice(&mut random);
            bytes.extend(choices_with_any_marks(&mut random, &[choice]));
        }
        bytes.truncate(length);
        let held = random.bytes(SIZE);
        let mut lent = Lent::new(&mut random, &held);
        assert_eq!(
            stream::power_on_by(lent.bytes_mut(), &bytes),
            27,
            "{length} bytes"
        );
        lent.check();
        assert_eq!(lent.bytes(), linear, "{length} bytes");
        for size in [0, SIZE - 1, SIZE + 1] {
            let held = random.bytes(size);
            let mut lent = Lent::new(&mut random, &held);
            assert_eq!(stream::power_on_by(lent.bytes_mut(), &bytes), 15);
            lent.check();
            assert_eq!(lent.bytes(), held, "{size} bytes");
        }
    }
    println!(
        "  stream: power-on by {} choices leaves the bytes of the whole device's, {refused} of them with 27; another number of bytes gets 27 too",
        BUFFERS / 20
    );
}

/// COEFFICIENTS event by event: every code in four directions, and wrong headers.
#[test]
fn coefficients() {
    let mut random = Random::new(37);
    let (mut count, mut told) = (0, 0);
    for state in 0..9 {
        let mut device = states::valid(&mut random);
        device.unpaged.page = if state < 8 { state } else { 0xFF };
        let right = headers::every_code();
        told += right
            .iter()
            .filter(|h| headers::sent(&device, h).is_some())
            .count();
        for header in right.into_iter().chain(headers::wrong(&mut random)) {
            let n = random.pick(&[0, 5, 6, 7, 8, 9]);
            whole(&mut random, device, &Call::Read(header, n));
            count += 1;
        }
    }
    assert!(told > 50, "{told}");
    // The fifth byte behind the code is NACKed, and the second address byte gets ACK behind it.
    let mut state = encode(AT_REST, library::power_on());
    assert_eq!(stream::start(&mut state), 0);
    let given =
        [0xC0, 0x30, 0x02, 0x46, 0x01, 0x00, 0x00, 0x00].map(|byte| stream::byte(&mut state, byte));
    assert_eq!(given, [ACK, ACK, ACK, ACK, ACK, ACK, NACK, NACK]);
    assert_eq!(stream::repeated_start(&mut state), 0);
    assert_eq!(stream::byte(&mut state, 0xC1), ACK);
    assert_eq!(stream::clock(&mut state), 0xFF);
    assert_eq!(stream::stop(&mut state), 2);
    println!("  stream: COEFFICIENTS event by event, {count} headers right and wrong, does what tongsorrel_read does");
}

#[test]
fn wrong_lengths() {
    let mut random = Random::new(31);
    let lengths = [0, 1, SIZE - 1, SIZE + 1, 2 * SIZE];
    for length in lengths {
        for _ in 0..1000 {
            let device = states::valid(&mut random);
            let mut bytes = encode(random_part(&mut random, &device), device).repeat(2);
            bytes.truncate(length);
            let mut lent = Lent::new(&mut random, &bytes);
            assert_eq!(stream::power_on(lent.bytes_mut()), 15);
            let beside = [
                Call::Measure(0, 0, 0x7BFF),
                Call::Sample(1),
                Call::Tick,
                Call::AlertResponse(0),
                Call::AlertResponse(1),
                Call::AlertResponse(7),
            ];
            let events = [Event::Start, Event::Repeated, Event::Clock, Event::Stop];
            let beside = beside.map(Event::Beside);
            let any = Event::Byte(random.pick(&[0xC0, 0xC1, 0x79]));
            for event in events.iter().chain(&beside).chain([&any]) {
                let got = on_library(lent.bytes_mut(), event, random.u8());
                assert_eq!(got, refused(event), "{event:02x?}, {length} bytes");
            }
            assert_eq!(stream::supplies(lent.bytes(), random.u8() % 8), 0);
            assert_eq!(stream::alert(lent.bytes()), 0);
            lent.check();
            assert_eq!(lent.bytes(), bytes, "{length} bytes");
        }
    }
    println!("  stream: with {lengths:?} bytes every function gives 15, NACK, FFh or off and changes no byte");
}

#[test]
fn random_runs_from_power_on() {
    let mut random = Random::new(32);
    let (mut given, mut changes) = (Given::default(), Changes::default());
    let mut count = 0;
    while count < EVENTS {
        let mut lent = Lent::new(&mut random, &[0xA5; SIZE]);
        let choices = states::eight_choices(&mut random);
        let mut second = if random.bool() {
            stream::power_on(lent.bytes_mut());
            Stream::power_on()
        } else {
            stream::power_on_by(lent.bytes_mut(), &encode_choices(&choices, &mut || 1));
            Stream::power_on_with(&choices.each_ref().map(mirror::choice_to_reference)).0
        };
        let end = count + RUN;
        while count < end {
            let before = decode(lent.bytes()).1;
            let events = random_events(&mut random, &before);
            count += events.len();
            for event in &events {
                let ours = step(&mut random, &mut lent, event, &mut given);
                let theirs = on_second(&mut second, event, 0);
                assert_eq!(
                    ours, theirs,
                    "library left, second program right: {event:02x?} of {events:02x?}"
                );
                assert_eq!(device_in(lent.bytes()), second.device, "{events:02x?}");
                check_questions(&mut random, lent.bytes(), &second.device);
            }
            changes.note(&before, &decode(lent.bytes()).1);
        }
    }
    for (name, answers) in ANSWERS {
        given.require(name, answers);
    }
    require_bytes(&given);
    println!("  stream: {count} events in runs from power-on agree in what is given and in every field of the device");
    print(&given);
    changes.print(EVENTS / 10_000);
}

#[test]
fn random_buffers() {
    let mut random = Random::new(33);
    let mut given = Given::default();
    let mut count = 0;
    for _ in 0..BUFFERS {
        let device = random_device(&mut random);
        let part = random_part(&mut random, &device);
        let buffer = with_any_marks(&mut random, part, device);
        let mut lent = Lent::new(&mut random, &buffer);
        for _ in 0..=random.below(5) {
            let device = decode(lent.bytes()).1;
            let event = random_event(&mut random, &device);
            step(&mut random, &mut lent, &event, &mut given);
            count += 1;
        }
    }
    for (name, answers) in ANSWERS {
        given.require(name, &[answers, &[15]].concat());
    }
    require_bytes(&given);
    println!(
        "  stream: {count} events on {BUFFERS} random buffers, most of which no run leaves, agree"
    );
    print(&given);
}

#[test]
fn questions_of_random_buffers() {
    let mut random = Random::new(34);
    let mut on = 0;
    for _ in 0..BUFFERS / 10 {
        let mut device = random_device(&mut random);
        let pages = &mut device.pages;
        pages.iter_mut().for_each(states::without_iout_oc_machine);
        let part = random_part(&mut random, &device);
        let buffer = with_any_marks(&mut random, part, device);
        check_questions(&mut random, &buffer, &mirror::to_reference(&device));
        for page in 0..8 {
            let own = u8::from(library::supplies(device, page));
            assert_eq!(stream::supplies(&buffer, page), own);
            on += usize::from(own);
        }
    }
    assert!(on > BUFFERS / 100, "{on}");
    println!(
        "  stream: whether the pages of {} random buffers supply, and the alert, agree, {on} on",
        BUFFERS / 10
    );
}

/// A whole transaction event by event: what it leaves, answers and sends is what the library's own call does.
fn whole(random: &mut Random, device: Device, call: &Call) {
    let mut part = random_part(random, &device);
    while !part.valid() {
        part = random_part(random, &device);
    }
    let mut lent = Lent::new(random, &encode(part, device));
    let due = calls::on_both(device, call, random.u8());
    let events = events_of(call.clone());
    let (mut sent, mut answer) = (vec![], 0xFF);
    for event in &events {
        let (number, _) = on_library(lent.bytes_mut(), event, 0);
        match event {
            Event::Clock => sent.push(number),
            Event::Stop => answer = number,
            Event::Start | Event::Repeated => assert_eq!(number == 15, due.answer == 15),
            _ => assert!(due.answer != 15 || number == NACK),
        }
    }
    lent.check();
    assert_eq!((answer, sent), (due.answer, due.reply), "{call:02x?}");
    assert_eq!(decode(lent.bytes()).1, due.device, "{call:02x?}");
}

#[test]
fn whole_transactions() {
    let mut random = Random::new(35);
    let mut transactions = 0;
    while transactions < BUFFERS {
        let device = random_device(&mut random);
        let call = random_call(&mut random, &device.unpaged, &device.pages);
        if matches!(call, Call::Write(_) | Call::Read(..)) {
            whole(&mut random, device, &call);
            transactions += 1;
        }
    }
    for state in 0..8 {
        let mut device = states::valid(&mut random);
        device.unpaged.protect = [0x00, 0x20, 0x40, 0x80][state % 4];
        device.unpaged.page = if state < 4 { state as u8 } else { 0xFF };
        for code in 0..=0xFF {
            for length in 0..12 {
                let read = Call::Read(vec![0xC0, code, 0xC1], length);
                whole(&mut random, device, &read);
                let mut bytes = vec![0xC0, code];
                bytes.extend(random.bytes(length));
                whole(&mut random, device, &Call::Write(bytes.clone()));
                bytes.push(reference::pec::pec(&bytes));
                whole(&mut random, device, &Call::Write(bytes));
                transactions += 3;
            }
        }
    }
    println!("  stream: {transactions} transactions event by event, every code with 0 to 11 bytes among them, do what tongsorrel_write and tongsorrel_read do");
}
