//! The buffer of the streaming device, laid out as data sheet 17.12 has it: the part that is kept of a transaction, then the device.

use crate::calls::GUARD;
use crate::library::stream::SIZE;
use crate::library::{self, Device, Format, Page, PageChoice};
use crate::mirror;
use crate::random::Random;

/// What is kept of the transaction under way.
#[derive(Clone, Copy, Debug, Default, PartialEq, Eq)]
pub struct Part {
    pub phase: u8,
    pub count: u8,
    pub bytes: [u8; 11],
    pub clocked: u8,
    pub reply: [u8; 8],
}

/// The part at power-on: no transaction under way, and nothing to send.
pub const AT_REST: Part = Part {
    phase: IDLE,
    count: 0,
    bytes: [0; 11],
    clocked: 0,
    reply: [0xFF; 8],
};

// The phases.
pub const IDLE: u8 = 0;
pub const WRITING: u8 = 1;
pub const TURNING: u8 = 2;
pub const READING: u8 = 3;
pub const BROKEN: u8 = 4;

/// Bytes of the part; the device comes behind it.
pub const PART: usize = 22;

impl Part {
    /// Numbers that no run has get answer 15.
    pub fn valid(&self) -> bool {
        self.phase <= BROKEN && self.count <= 11 && self.clocked <= 9
    }

    /// The bytes kept.
    pub fn kept(&self) -> &[u8] {
        &self.bytes[..usize::from(self.count)]
    }

    /// Keeps one more byte, where there is room for it.
    pub fn keep(&mut self, byte: u8) {
        if let Some(place) = self.bytes.get_mut(usize::from(self.count)) {
            *place = byte;
            self.count += 1;
        }
    }

    /// What counts in this phase, with 0 in the place of all else.
    pub fn meant(&self) -> Part {
        let mut meant = Part {
            phase: self.phase,
            ..Part::default()
        };
        if [WRITING, TURNING, READING].contains(&self.phase) {
            self.kept().iter().for_each(|&byte| meant.keep(byte));
            meant.clocked = self.clocked;
        }
        if self.phase == READING {
            meant.reply = self.reply;
        }
        meant
    }
}

// ---- the layout

/// Goes along the buffer field by field, and does with each what it is there for.
trait Walk {
    /// Where the next field begins.
    fn at(&self) -> usize;
    fn byte(&mut self, byte: &mut u8);
    fn mark(&mut self, mark: &mut bool);

    fn bytes(&mut self, bytes: &mut [u8]) {
        bytes.iter_mut().for_each(|byte| self.byte(byte));
    }

    /// Low byte first.
    fn word(&mut self, word: &mut u16) {
        let mut bytes = word.to_le_bytes();
        self.bytes(&mut bytes);
        *word = u16::from_le_bytes(bytes);
    }

    fn long(&mut self, long: &mut u32) {
        let mut bytes = long.to_le_bytes();
        self.bytes(&mut bytes);
        *long = u32::from_le_bytes(bytes);
    }
}

/// The two tables of the data sheet, row by row, with their column "From".
fn walk(walk: &mut impl Walk, part: &mut Part, device: &mut Device) {
    walk.byte(&mut part.phase);
    walk.byte(&mut part.count);
    assert_eq!(walk.at(), 2);
    walk.bytes(&mut part.bytes);
    assert_eq!(walk.at(), 13);
    walk.byte(&mut part.clocked);
    walk.bytes(&mut part.reply);
    assert_eq!(walk.at(), PART);
    let unpaged = &mut device.unpaged;
    walk.byte(&mut unpaged.page);
    walk.byte(&mut unpaged.protect);
    walk.byte(&mut unpaged.cml);
    assert_eq!(walk.at(), 25);
    walk.mark(&mut unpaged.alert);
    walk.word(&mut unpaged.energy.accumulator);
    assert_eq!(walk.at(), 28);
    walk.word(&mut unpaged.energy.rollover);
    walk.long(&mut unpaged.energy.count);
    for (number, page) in device.pages.iter_mut().enumerate() {
        walk_page(walk, 34 + 72 * number, page);
    }
    assert_eq!(walk.at(), SIZE);
}

fn walk_page(walk: &mut impl Walk, from: usize, page: &mut Page) {
    assert_eq!(walk.at(), from);
    walk.byte(&mut page.operation);
    walk.word(&mut page.command);
    assert_eq!(walk.at(), from + 3);
    page.limits.iter_mut().for_each(|limit| walk.word(limit));
    assert_eq!(walk.at(), from + 25);
    walk.bytes(&mut page.responses);
    walk.bytes(&mut page.machines);
    assert_eq!(walk.at(), from + 37);
    page.words.iter_mut().for_each(|word| walk.word(word));
    assert_eq!(walk.at(), from + 45);
    page.measured.iter_mut().for_each(|mark| walk.mark(mark));
    walk.bytes(&mut page.status);
    assert_eq!(walk.at(), from + 53);
    walk.mark(&mut page.tripped);
    walk_formats(walk, &mut page.formats);
    assert_eq!(walk.at(), from + 72);
}

fn walk_formats(walk: &mut impl Walk, formats: &mut [Format; 3]) {
    for format in formats {
        walk.mark(&mut format.direct);
        walk.word(&mut format.m);
        walk.word(&mut format.b);
        walk.byte(&mut format.r);
    }
}

/// Takes each field from the buffer; in a mark any byte but 0 reads as 1.
struct Load<'a>(&'a [u8]);

impl Walk for Load<'_> {
    fn at(&self) -> usize {
        SIZE - self.0.len()
    }

    fn byte(&mut self, byte: &mut u8) {
        *byte = self.0[0];
        self.0 = &self.0[1..];
    }

    fn mark(&mut self, mark: &mut bool) {
        let mut byte = 0;
        self.byte(&mut byte);
        *mark = byte != 0;
    }
}

/// Puts each field behind those before it; a mark that is set is some byte of `set`.
struct Store<'a> {
    bytes: Vec<u8>,
    set: &'a mut dyn FnMut() -> u8,
}

impl Walk for Store<'_> {
    fn at(&self) -> usize {
        self.bytes.len()
    }

    fn byte(&mut self, byte: &mut u8) {
        self.bytes.push(*byte);
    }

    fn mark(&mut self, mark: &mut bool) {
        let byte = if *mark { (self.set)() } else { 0 };
        self.bytes.push(byte);
    }
}

pub fn decode(buffer: &[u8]) -> (Part, Device) {
    let (mut part, mut device) = (Part::default(), library::power_on());
    walk(&mut Load(buffer), &mut part, &mut device);
    (part, device)
}

/// The buffer of a part and a device, with what a mark that is set is stored as.
pub fn encode_with(mut part: Part, mut device: Device, set: &mut dyn FnMut() -> u8) -> Vec<u8> {
    let mut store = Store {
        bytes: Vec::with_capacity(SIZE),
        set,
    };
    walk(&mut store, &mut part, &mut device);
    store.bytes
}

/// The device in a buffer, as the second program's.
pub fn device_in(buffer: &[u8]) -> reference::device::Device {
    mirror::to_reference(&decode(buffer).1)
}

pub fn encode(part: Part, device: Device) -> Vec<u8> {
    encode_with(part, device, &mut || 1)
}

/// Choices for power-on as bytes: for each page three formats, then six limits. Each mark that is set is some byte of `set`.
pub fn encode_choices(choices: &[PageChoice], set: &mut dyn FnMut() -> u8) -> Vec<u8> {
    let bytes = Vec::new();
    let mut store = Store { bytes, set };
    for choice in choices {
        let mut choice = *choice;
        walk_formats(&mut store, &mut choice.formats);
        choice.limits.iter_mut().for_each(|limit| store.word(limit));
    }
    store.bytes
}

// ---- the buffer, lent

/// A buffer at any address, with bytes before and behind it that no call may touch.
pub struct Lent {
    room: Vec<u8>,
    at: usize,
    length: usize,
    fence: u8,
}

impl Lent {
    pub fn new(random: &mut Random, bytes: &[u8]) -> Lent {
        let (at, fence) = (1 + random.below(GUARD), random.u8());
        let mut room = vec![fence; at + bytes.len() + GUARD];
        room[at..at + bytes.len()].copy_from_slice(bytes);
        Lent {
            room,
            at,
            length: bytes.len(),
            fence,
        }
    }

    pub fn bytes(&self) -> &[u8] {
        &self.room[self.at..self.at + self.length]
    }

    pub fn bytes_mut(&mut self) -> &mut [u8] {
        &mut self.room[self.at..self.at + self.length]
    }

    /// Fails where a byte beside the buffer changed.
    pub fn check(&self) {
        let (before, behind) = (&self.room[..self.at], &self.room[self.at + self.length..]);
        let whole = before.iter().chain(behind).all(|&byte| byte == self.fence);
        assert!(whole, "written beside the buffer: {:02x?}", self.room);
    }
}
