//! Events on the streaming device: what the data sheet (17.3 to 17.6) makes of one on any buffer, the same on the library and on the second
//! program, and random ones.

use crate::buffer::{Part, BROKEN, IDLE, READING, TURNING, WRITING};
use crate::calls::{random_call, Call, GUARD};
use crate::library::stream::{self, ACK, NACK};
use crate::library::Device;
use crate::random::Random;
use reference::command;
use reference::stream::Stream;

/// What happens to the device: on the bus, or beside it.
#[derive(Clone, Debug, PartialEq, Eq)]
pub enum Event {
    Start,
    Byte(u8),
    Repeated,
    Clock,
    Stop,
    /// A measurement, a sample, an alert response or a tick.
    Beside(Call),
}

use Event::{Beside, Byte, Clock, Repeated, Start, Stop};

/// The names of the events that give answer numbers, with the answers of a run from power-on.
pub const ANSWERS: [(&str, &[u8]); 7] = [
    ("START", &[0]),
    ("repeated START", &[0]),
    ("STOP", &[0, 1, 2, 3, 5, 6, 7, 8, 9, 10, 11]),
    ("measurement", &[0, 12]),
    ("sample", &[0, 13]),
    ("alert response", &[0, 2, 14]),
    ("tick", &[0]),
];

impl Event {
    /// The name of one that gives an answer number.
    pub fn answers(&self) -> Option<&'static str> {
        match self {
            Start => Some("START"),
            Repeated => Some("repeated START"),
            Stop => Some("STOP"),
            Byte(_) | Clock => None,
            Beside(Call::Measure(..)) => Some("measurement"),
            Beside(Call::Sample(_)) => Some("sample"),
            Beside(Call::AlertResponse(_)) => Some("alert response"),
            Beside(Call::Tick) => Some("tick"),
            Beside(_) => unreachable!("a whole transaction"),
        }
    }
}

/// The events of a call: a transaction from START to STOP, its last header byte behind the repeated START, or a call beside the bus.
pub fn events_of(call: Call) -> Vec<Event> {
    match call {
        Call::Write(bytes) => {
            let mut events = vec![Start];
            events.extend(bytes.into_iter().map(Byte));
            events.push(Stop);
            events
        }
        Call::Read(header, n) => {
            let mut events = vec![Start];
            events.extend(header.iter().copied().map(Byte));
            events.insert(header.len().max(1), Repeated);
            events.extend(vec![Clock; n]);
            events.push(Stop);
            events
        }
        other => vec![Beside(other)],
    }
}

/// What an event gives: the answer, ACK or NACK, or the byte to send; and the reply of an alert response.
pub type Gives = (u8, Vec<u8>);

/// The event on the library. `before` stands in the reply buffer and behind it.
pub fn on_library(state: &mut [u8], event: &Event, before: u8) -> Gives {
    let n = match event {
        Beside(call) => call.clocked(),
        _ => 0,
    };
    let mut room = vec![before; n + GUARD];
    let number = match *event {
        Start => stream::start(state),
        Byte(byte) => stream::byte(state, byte),
        Repeated => stream::repeated_start(state),
        Clock => stream::clock(state),
        Stop => stream::stop(state),
        Beside(Call::Measure(page, quantity, word)) => stream::measure(state, page, quantity, word),
        Beside(Call::Sample(sample)) => stream::sample(state, sample),
        Beside(Call::AlertResponse(_)) => stream::alert_response(state, &mut room[..n]),
        Beside(Call::Tick) => stream::tick(state),
        Beside(_) => unreachable!("a whole transaction"),
    };
    assert_eq!(room[n..], [before; GUARD], "behind the reply: {event:02x?}");
    room.truncate(n);
    (number, room)
}

/// The event on the second program.
pub fn on_second(second: &mut Stream, event: &Event, before: u8) -> Gives {
    let mut reply = Vec::new();
    let number = match *event {
        Start => second.start(),
        Byte(byte) => u8::from(second.byte(byte)),
        Repeated => second.repeated_start(),
        Clock => second.clock(),
        Stop => second.stop(),
        Beside(Call::Measure(page, quantity, word)) => second.measure(page, quantity, word),
        Beside(Call::Sample(sample)) => second.sample(sample),
        Beside(Call::AlertResponse(n)) => {
            reply = vec![before; n];
            second.alert_response(&mut reply)
        }
        Beside(Call::Tick) => second.tick(),
        Beside(_) => unreachable!("a whole transaction"),
    };
    (number, reply)
}

// ---- what the data sheet says of one event

/// Why a byte that the host wrote gets ACK or NACK, and which of them.
pub type Reason = (&'static str, u8);

const ADDRESS: Reason = ("address byte", ACK);
const CODE: Reason = ("code", ACK);
const DATA: Reason = ("data or PEC", ACK);
const SECOND_ADDRESS: Reason = ("second address byte", ACK);
const BEHIND_TOO_MANY: Reason = ("second address byte behind too many", ACK);
const WRONG_ADDRESS: Reason = ("wrong address byte", NACK);
const ABSENT_CODE: Reason = ("absent code", NACK);
const AFTER_THESE: Reason = ("byte after one of these", NACK);
const TOO_MANY: Reason = ("byte too many", NACK);
const WRONG_SECOND_ADDRESS: Reason = ("wrong second address byte", NACK);
const WITHOUT_START: Reason = ("byte without START", NACK);
const AFTER_SECOND_ADDRESS: Reason = ("byte after the second address byte", NACK);
const AFTER_A_BREACH: Reason = ("byte after a breach", NACK);

pub const REASONS: [Reason; 13] = [
    ADDRESS,
    CODE,
    DATA,
    SECOND_ADDRESS,
    BEHIND_TOO_MANY,
    WRONG_ADDRESS,
    ABSENT_CODE,
    AFTER_THESE,
    TOO_MANY,
    WRONG_SECOND_ADDRESS,
    WITHOUT_START,
    AFTER_SECOND_ADDRESS,
    AFTER_A_BREACH,
];

impl Part {
    /// The byte that the next clock sends.
    fn next(&self) -> u8 {
        match self.phase {
            READING => *self.reply.get(usize::from(self.clocked)).unwrap_or(&0xFF),
            _ => 0xFF,
        }
    }

    /// Why the next byte gets what it gets (17.4).
    pub fn reason(&self, byte: u8) -> Reason {
        let data = |code: u8| command::lookup(code).map(|command| command.data);
        let foreign = match *self.kept() {
            [] => false,
            [address] => address != 0xC0,
            [address, code, ..] => address != 0xC0 || data(code).is_none(),
        };
        let too_many = |bytes: usize| match *self.kept() {
            [_, code, ..] => data(code).is_some_and(|data| bytes > 2 + data + 1),
            _ => false,
        };
        match (self.phase, self.count) {
            (IDLE, _) => WITHOUT_START,
            (WRITING | TURNING, _) if foreign => AFTER_THESE,
            (WRITING, 0) if byte == 0xC0 => ADDRESS,
            (WRITING, 0) => WRONG_ADDRESS,
            (WRITING, 1) if data(byte).is_some() => CODE,
            (WRITING, 1) => ABSENT_CODE,
            (WRITING, count) if too_many(usize::from(count) + 1) => TOO_MANY,
            (WRITING, _) => DATA,
            (TURNING, _) if byte != 0xC1 => WRONG_SECOND_ADDRESS,
            (TURNING, count) if too_many(usize::from(count)) => BEHIND_TOO_MANY,
            (TURNING, _) => SECOND_ADDRESS,
            (READING, _) => AFTER_SECOND_ADDRESS,
            _ => AFTER_A_BREACH,
        }
    }

    /// What an event of the bus gives, on a part and a device that are valid. Both change as 17.3, 17.5 and 17.6 say.
    pub fn take(&mut self, device: &mut reference::device::Device, event: &Event) -> u8 {
        let before = *self;
        self.phase = match (before.phase, event) {
            (_, Start) => WRITING,
            (_, Stop) => IDLE,
            (WRITING, Byte(_)) => WRITING,
            (WRITING, Repeated) => TURNING,
            (TURNING, Byte(_)) => READING,
            (READING, Clock) => READING,
            _ => BROKEN,
        };
        match *event {
            Start => (self.count, self.clocked) = (0, 0),
            Byte(byte) => self.keep(byte),
            Clock => self.clocked = (self.clocked + 1).min(9),
            _ => {}
        }
        if before.phase == TURNING && self.phase == READING {
            let mut reply = [0; 8];
            { *device }.read(self.kept(), &mut reply);
            self.reply = reply;
        }
        match *event {
            Byte(byte) => before.reason(byte).1,
            Clock => before.next(),
            Stop => match before.phase {
                WRITING => device.write(before.kept()),
                READING => device.read(before.kept(), &mut vec![0; before.clocked.into()]),
                _ => 2,
            },
            _ => 0,
        }
    }
}

/// What an event gives under answer 15.
pub fn refused(event: &Event) -> Gives {
    match event {
        Byte(_) => (NACK, vec![]),
        Clock => (0xFF, vec![]),
        Beside(call) => (15, vec![0xFF; call.clocked()]),
        Start | Repeated | Stop => (15, vec![]),
    }
}

// ---- random events

/// Any event; a byte is often one with a meaning.
pub fn random_event(random: &mut Random, device: &Device) -> Event {
    match random.below(12) {
        0 => Start,
        1 | 2 => Repeated,
        3..=5 => Clock,
        6 => Stop,
        7 => beside(random, device),
        _ => {
            let any = random.u8();
            let code = random.pick(&command::TABLE).code;
            Byte(random.pick(&[0xC0, 0xC1, code, code, any]))
        }
    }
}

/// A call beside the bus.
fn beside(random: &mut Random, device: &Device) -> Event {
    loop {
        match random_call(random, &device.unpaged, &device.pages) {
            Call::Write(_) | Call::Read(..) => {}
            call => return Beside(call),
        }
    }
}

/// The events of a call; half of the time with slips in their order, with calls between them, turned into a read or without STOP.
pub fn random_events(random: &mut Random, device: &Device) -> Vec<Event> {
    let mut events = events_of(random_call(random, &device.unpaged, &device.pages));
    match random.below(12) {
        0 | 1 => {
            for _ in 0..=random.below(3) {
                slip(random, device, &mut events);
            }
        }
        2 | 3 => {
            for _ in 0..=random.below(4) {
                let place = random.below(events.len() + 1);
                events.insert(place, beside(random, device));
            }
        }
        4 => {
            events.pop();
        }
        5 => {
            events.pop();
            events.extend([Repeated, Byte(0xC1), Clock, Clock, Clock, Stop]);
        }
        6 if random.once_in(4) => {
            let length = random.below(16);
            events = (0..length).map(|_| random_event(random, device)).collect();
        }
        _ => {}
    }
    events
}

/// One event more, one less, one twice, or two in each other's place.
fn slip(random: &mut Random, device: &Device, events: &mut Vec<Event>) {
    if events.is_empty() {
        return;
    }
    let place = random.below(events.len());
    match random.below(4) {
        0 => events.insert(place, random_event(random, device)),
        1 => drop(events.remove(place)),
        2 => events.insert(place, events[place].clone()),
        _ => events.swap(place, place.saturating_sub(1)),
    }
}

/// Any part; mostly the beginning of a transaction, with any bytes where none are kept. Once in four with a number that no run has.
pub fn random_part(random: &mut Random, device: &Device) -> Part {
    let (phase, bytes) = match random_call(random, &device.unpaged, &device.pages) {
        Call::Write(bytes) => (random.pick(&[WRITING, WRITING, TURNING]), bytes),
        Call::Read(header, _) => (READING, header),
        _ => (random.below(5) as u8, random.bytes(11)),
    };
    let mut part = Part::default();
    bytes.into_iter().for_each(|byte| part.keep(byte));
    if random.once_in(8) {
        part.count = random.below(12) as u8;
    }
    random.fill(&mut part.bytes[usize::from(part.count)..]);
    random.fill(&mut part.reply);
    (part.phase, part.clocked) = (phase, random.below(10) as u8);
    if random.once_in(4) {
        let over = random.u8();
        match random.below(3) {
            0 => part.phase = random.pick(&[5, 0xFF, over.max(5)]),
            1 => part.count = random.pick(&[12, 0xFF, over.max(12)]),
            _ => part.clocked = random.pick(&[10, 0xFF, over.max(10)]),
        }
    }
    part
}
