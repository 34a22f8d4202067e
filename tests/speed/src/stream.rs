//! The streaming device: each event and call of the library beside Rust on `&mut`. Before every call the transaction is put back to where it
//! stood, on each side alike.

use crate::calls::{supplying, EVERY_PAGE, ONE_PAGE};
use crate::race::{print_head, print_row, race, Candidate};
use crate::routines::plain::{self, Plain};
use crate::routines::second;
use conformance::buffer::{decode, encode, Part, AT_REST, PART};
use conformance::library;
use conformance::library::stream::{self, SIZE};
use conformance::mirror;
use conformance::streaming::{on_library, on_second, Event};
use reference::device::Device;
use reference::pec;
use reference::stream::{Stream, Transaction};
use std::hint::black_box;

const CALLS: usize = 1000;
/// Inputs that a case goes round through.
const INPUTS: usize = 16;

use Event::{Byte, Clock, Repeated, Start};

/// A device in the middle of a transaction, in three forms.
struct Trio {
    ours: [u8; SIZE],
    second: Stream,
    plain: Plain,
}

/// How a transaction stands, in the same three forms.
struct Place {
    ours: [u8; PART],
    second: Transaction,
    plain: Part,
}

impl Trio {
    fn new(device: Device) -> Trio {
        let own = mirror::from_reference(&device);
        let buffer = encode(AT_REST, own);
        Trio {
            ours: buffer.try_into().expect("the size of a buffer"),
            second: Stream::new(device),
            plain: Plain {
                part: AT_REST,
                device: own,
            },
        }
    }

    /// Where these events lead.
    fn after(device: Device, events: &[Event]) -> Place {
        let Trio {
            mut ours,
            mut second,
            ..
        } = Trio::new(device);
        for event in events {
            assert_eq!(
                on_library(&mut ours, event, 0),
                on_second(&mut second, event, 0)
            );
        }
        Place {
            ours: std::array::from_fn(|place| ours[place]),
            second: second.transaction,
            plain: decode(&ours).0,
        }
    }
}

fn put_ours(state: &mut [u8; SIZE], place: &Place) {
    state[..PART].copy_from_slice(&place.ours);
}

/// The bytes go into the vector that is there.
fn put_second(stream: &mut Stream, place: &Place) {
    let (to, from) = (&mut stream.transaction, &place.second);
    to.phase = from.phase;
    to.foreign = from.foreign;
    to.bytes.clear();
    to.bytes.extend_from_slice(&from.bytes);
}

fn put_plain(plain: &mut Plain, place: &Place) {
    plain.part = place.plain;
}

/// A batch: each call after the transaction was put back.
fn batch<'a, S>(
    state: &'a mut S,
    places: &'a [Place],
    put: fn(&mut S, &Place),
    mut call: impl FnMut(&mut S, usize) -> u8 + 'a,
) -> Candidate<'a> {
    Candidate(Box::new(move || {
        for input in 0..CALLS {
            put(state, &places[input % places.len()]);
            black_box(call(state, input % INPUTS));
        }
    }))
}

/// A step on the struct; those without a byte leave it unused.
type Step = fn(&mut Plain, u8) -> u8;

/// A row: all forms along a run first, then timed. `given` is what the call must give, on each side.
fn row(
    name: &str,
    device: Device,
    before: &[Vec<Event>],
    given: u8,
    mut ours: impl FnMut(&mut [u8; SIZE], usize) -> u8,
    mut theirs: impl FnMut(&mut Stream, usize) -> u8,
    step: Option<(Step, u8)>,
) {
    let places: Vec<Place> = before
        .iter()
        .map(|events| Trio::after(device, events))
        .collect();
    let mut trio = Trio::new(device);
    for input in 0..4 * INPUTS {
        let place = &places[input % places.len()];
        put_ours(&mut trio.ours, place);
        put_second(&mut trio.second, place);
        put_plain(&mut trio.plain, place);
        let input = input % INPUTS;
        assert_eq!(ours(&mut trio.ours, input), given, "{name}");
        assert_eq!(theirs(&mut trio.second, input), given, "{name}");
        let (part, left) = decode(&trio.ours);
        assert_eq!(mirror::to_reference(&left), trio.second.device, "{name}");
        if let Some((step, byte)) = step {
            assert_eq!(step(&mut trio.plain, byte), given, "{name}");
            assert_eq!(part.meant(), trio.plain.part.meant(), "{name}");
        }
    }
    let mut candidates = vec![
        batch(&mut trio.ours, &places, put_ours, ours),
        batch(&mut trio.second, &places, put_second, theirs),
    ];
    if let Some((step, byte)) = step.map(black_box) {
        let call = move |plain: &mut Plain, _| step(plain, byte);
        candidates.push(batch(&mut trio.plain, &places, put_plain, call));
    }
    print_row(name, &race(CALLS, &mut candidates));
}

/// The bytes of a write from START on.
fn written(bytes: &[u8]) -> Vec<Event> {
    [Start]
        .into_iter()
        .chain(bytes.iter().copied().map(Byte))
        .collect()
}

/// A read of STATUS_WORD up to the bytes clocked.
fn header() -> Vec<Event> {
    let mut events = written(&[0xC0, 0x79]);
    events.extend([Repeated, Byte(0xC1)]);
    events
}

/// A byte behind these.
fn byte(name: &str, before: Vec<Event>, byte: u8, given: u8, step: Option<Step>) {
    row(
        name,
        supplying(ONE_PAGE),
        &[before],
        given,
        |state, _| stream::byte(state, black_box(byte)),
        |second, _| second::byte(second, black_box(byte)),
        step.map(|step| (step, byte)),
    );
}

/// The steps, of which the device sees nothing.
fn steps() {
    let device = supplying(ONE_PAGE);
    print_head(&[
        "Rust, second program on `&mut`",
        "Rust, a struct of numbers on `&mut`",
    ]);
    row(
        "START",
        device,
        &[vec![]],
        0,
        |state, _| stream::start(state),
        |second, _| second::start(second),
        Some((|plain, _| plain::start(plain), 0)),
    );
    byte("address byte", written(&[]), 0xC0, 1, Some(plain::byte));
    byte("code", written(&[0xC0]), 0x21, 1, Some(plain::byte));
    let first = written(&[0xC0, 0x21, 0x66]);
    byte("data byte", first, 0x26, 1, Some(plain::byte));
    let whole = written(&[0xC0, 0x01, 0x80, 0x00]);
    byte("byte too many, NACK", whole, 0x00, 0, Some(plain::byte));
    row(
        "repeated START",
        device,
        &[written(&[0xC0, 0x79])],
        0,
        |state, _| stream::repeated_start(state),
        |second, _| second::repeated_start(second),
        Some((|plain, _| plain::repeated_start(plain), 0)),
    );
    row(
        "clocked byte",
        device,
        &[header()],
        0x00,
        |state, _| stream::clock(state),
        |second, _| second::clock(second),
        Some((|plain, _| plain::clock(plain), 0)),
    );
    let mut turned = header();
    turned.pop();
    byte(
        "second address byte, STATUS_WORD's reply made",
        turned,
        0xC1,
        1,
        None,
    );
}

/// STOP behind these.
fn stop(name: &str, selected: u8, before: &[Vec<Event>], answer: u8) {
    row(
        name,
        supplying(selected),
        before,
        answer,
        |state, _| stream::stop(state),
        |second, _| second::stop(second),
        None,
    );
}

/// Writes of limits with their PEC, or a wrong one.
fn limits(wrong: u8) -> Vec<Vec<Event>> {
    const LIMITS: [(u8, u16); 3] = [(0x40, 0x2A3D), (0x46, 0xD280), (0x59, 0xC3F5)];
    let write = |place: usize| {
        let (code, word) = LIMITS[place % LIMITS.len()];
        let [low, high] = (word - place as u16 % 2).to_le_bytes();
        let bytes = [0xC0, code, low, high];
        let check = pec::pec(&bytes) ^ wrong;
        written(&[0xC0, code, low, high, check])
    };
    (0..INPUTS).map(write).collect()
}

fn stops() {
    stop("STOP, limit with PEC", ONE_PAGE, &limits(0), 0);
    stop("the same with PAGE FFh", EVERY_PAGE, &limits(0), 0);
    stop("STOP, wrong PEC, refused", ONE_PAGE, &limits(1), 7);
    let clear = written(&[0xC0, 0x03]);
    stop("STOP, CLEAR_FAULTS", ONE_PAGE, &[clear], 0);
    let mut read = header();
    read.extend([Clock, Clock, Clock]);
    stop("STOP, read of STATUS_WORD", ONE_PAGE, &[read], 0);
}

/// The calls beside the bus, with no transaction under way.
fn beside() {
    let device = supplying(ONE_PAGE);
    let word = |input: usize| 0x2666 + (input / 8) as u16;
    row(
        "measure",
        device,
        &[vec![]],
        0,
        |state, input| stream::measure(state, (input % 8) as u8, 0, word(input)),
        |second, input| second::measure(second, (input % 8) as u8, 0, word(input)),
        None,
    );
    row(
        "sample",
        device,
        &[vec![]],
        0,
        |state, input| stream::sample(state, 1000 + input as u16),
        |second, input| second::sample(second, 1000 + input as u16),
        None,
    );
    row(
        "tick",
        device,
        &[vec![]],
        0,
        |state, _| stream::tick(state),
        |second, _| second::tick(second),
        None,
    );
    const ALERT: usize = 25;
    let n = black_box(1);
    let mut replies = [[0; 8]; 2];
    let [first, last] = &mut replies;
    row(
        "alert response",
        device,
        &[vec![]],
        0,
        |state, _| {
            state[ALERT] = 1;
            stream::alert_response(state, &mut first[..n])
        },
        |second, _| {
            second.device.alert = true;
            second::alert_response(second, &mut last[..n])
        },
        None,
    );
}

/// Reads STATUS_WORD with its PEC event by event, through the functions of a module; gives the answer at STOP and the bytes sent.
macro_rules! read_by_events {
    ($of:ident, $state:expr) => {{
        $of::start($state);
        $of::byte($state, 0xC0);
        $of::byte($state, 0x79);
        $of::repeated_start($state);
        $of::byte($state, 0xC1);
        let sent = [$of::clock($state), $of::clock($state), $of::clock($state)];
        ($of::stop($state), sent)
    }};
}

/// A whole read event by event beside one call on a device by value.
fn whole_read() {
    let device = supplying(ONE_PAGE);
    let Trio {
        mut ours,
        mut second,
        plain,
    } = Trio::new(device);
    let header = black_box(&[0xC0, 0x79, 0xC1]);
    let mut whole = plain.device;
    let mut one_call = || {
        let mut reply = [0; 3];
        let done = library::read(whole, header, &mut reply);
        whole = done.device;
        (done.answer, reply)
    };
    let due = one_call();
    assert_eq!(read_by_events!(stream, &mut ours), due);
    assert_eq!(read_by_events!(second, &mut second), due);
    print_head(&["Rust, second program on `&mut`", "tongsorrel_read"]);
    let times = race(
        CALLS,
        &mut [
            Candidate(Box::new(|| {
                for _ in 0..CALLS {
                    black_box(read_by_events!(stream, &mut ours));
                }
            })),
            Candidate(Box::new(|| {
                for _ in 0..CALLS {
                    black_box(read_by_events!(second, &mut second));
                }
            })),
            Candidate(Box::new(|| {
                for _ in 0..CALLS {
                    black_box(one_call());
                }
            })),
        ],
    );
    print_row("read of STATUS_WORD with PEC, nine events", &times);
}

pub fn tables() {
    steps();
    println!();
    print_head(&["Rust, second program on `&mut`"]);
    stops();
    beside();
    println!();
    whole_read();
}
