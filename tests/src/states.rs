//! Random states of the device and of the totalizer, most of which no run reaches.

use crate::library::{Account, Device, Format, Page, PageChoice, Totalizer, Unpaged};
use crate::random::Random;

/// Response 47 is the second.
const IOUT_OC: usize = 1;
/// The quantity that each limit is held against: those of the six causes, then those of the five warnings.
const QUANTITY: [usize; 11] = [0, 1, 3, 3, 2, 2, 0, 1, 3, 2, 2];

/// A word: any, an end or a limit of the document, or a small one.
pub fn word(random: &mut Random) -> u16 {
    const KNOWN: [u16; 16] = [
        0x0000, 0x0001, 0x7C00, 0x7BFF, 0x8001, 0x87FF, 0x0400, 0x03FF, 0x2666, 0x2A3D, 0x2A3E,
        0xD280, 0xEB70, 0xEEC0, 0xD3FF, 0xC3F5,
    ];
    match random.below(3) {
        0 => random.u16(),
        1 => random.pick(&KNOWN),
        _ => random.u16() & 0x001F,
    }
}

/// A word whose value is at or about that of `word`: the same, its neighbours, the same Linear11 value at another exponent, or any.
pub fn near(random: &mut Random, word: u16) -> u16 {
    match random.below(6) {
        0 | 1 => word,
        2 => word.wrapping_add(1),
        3 => word.wrapping_sub(1),
        4 if word & 1 == 0 => {
            let mantissa = word & 0x7FF;
            (word & 0xF800).wrapping_add(0x0800) | mantissa >> 1 | mantissa & 0x400
        }
        _ => self::word(random),
    }
}

/// Any coefficients, often at their ends or next to 0.
fn coefficients(random: &mut Random) -> Format {
    let (m, b) = (random.u16(), random.u16());
    Format {
        direct: random.bool(),
        m: random.pick(&[m, m, 0x0001, 0xFFFF, 0x7FFF, 0x8000, 0x0000]),
        b: random.pick(&[b, b, 0x0000, 0x0001, 0xFFFF, 0x7FFF, 0x8000]),
        r: random.u8(),
    }
}

/// A format that gets no answer 15 and no 27; under a linear mark the coefficients are anything.
pub fn format(random: &mut Random) -> Format {
    let format = coefficients(random);
    if format.direct {
        Format {
            m: format.m.max(1),
            r: (random.below(13) as u8).wrapping_sub(6),
            ..format
        }
    } else {
        format
    }
}

/// A DIRECT format with m 0, R beyond -6 to 6, or both.
pub fn invalid_format(random: &mut Random) -> Format {
    let format = format(random);
    let beyond = random.pick(&[7, 8, 0x7F, 0x80, 0xF8, 0xF9]);
    let (m, r) = match random.below(3) {
        0 => (0, random.pick(&[0x00, 0x06, 0xFA])),
        1 => (format.m.max(1), beyond),
        _ => (0, beyond),
    };
    Format {
        direct: true,
        m,
        r,
        ..format
    }
}

/// A choice that power-on grants.
pub fn choice(random: &mut Random) -> PageChoice {
    PageChoice {
        formats: std::array::from_fn(|_| format(random)),
        limits: std::array::from_fn(|_| word(random)),
    }
}

/// Choices that power-on grants, but once in four for one format of one of them.
pub fn choices(random: &mut Random, number: usize) -> Vec<PageChoice> {
    let mut choices: Vec<_> = (0..number).map(|_| choice(random)).collect();
    if number > 0 && random.once_in(4) {
        let (page, quantity) = (random.below(number), random.below(3));
        choices[page].formats[quantity] = invalid_format(random);
    }
    choices
}

/// Choices for the eight pages.
pub fn eight_choices(random: &mut Random) -> [PageChoice; 8] {
    let choices = choices(random, 8);
    std::array::from_fn(|page| choices[page])
}

pub fn response(random: &mut Random, cause: usize) -> u8 {
    let any = random.u8();
    if cause == IOUT_OC {
        random.pick(&[0x00, 0xC0])
    } else {
        random.pick(&[0x00, 0x80, 0xC0, any, any])
    }
}

/// The byte of a machine that occurs, often at rest; IOUT_OC has none.
fn machine(random: &mut Random, cause: usize) -> u8 {
    if cause == IOUT_OC || random.bool() {
        0
    } else {
        random.below(65) as u8
    }
}

/// None, one or any bits.
fn register(random: &mut Random) -> u8 {
    match random.below(4) {
        0 | 1 => 0,
        2 => 1 << random.below(8),
        _ => random.u8(),
    }
}

/// A record that gets no answer 15.
pub fn page(random: &mut Random) -> Page {
    const POWER_ON: [u16; 11] = [
        0x2A3D, 0xD280, 0xEB70, 0xEEC0, 0xD3FF, 0xC3F5, 0x2A3D, 0xD280, 0xEB70, 0xD3FF, 0xC3F5,
    ];
    let limits: [u16; 11] = std::array::from_fn(|limit| {
        if random.bool() {
            POWER_ON[limit]
        } else {
            word(random)
        }
    });
    let mut words = [0; 4];
    for limit in 0..limits.len() {
        if words[QUANTITY[limit]] == 0 || random.bool() {
            words[QUANTITY[limit]] = near(random, limits[limit]);
        }
    }
    Page {
        operation: random.pick(&[0x00, 0x40, 0x80, 0x80]),
        command: word(random),
        limits,
        responses: std::array::from_fn(|cause| response(random, cause)),
        machines: std::array::from_fn(|cause| machine(random, cause)),
        words,
        measured: std::array::from_fn(|_| !random.once_in(4)),
        status: std::array::from_fn(|_| register(random)),
        tripped: random.once_in(4),
        formats: std::array::from_fn(|_| format(random)),
    }
}

/// An account in range, often at an end of it.
pub fn account(random: &mut Random) -> Account {
    let any = (
        random.u16() & 0x7FFF,
        random.u16() & 0xFF,
        random.u32() & 0xFF_FFFF,
    );
    Account {
        accumulator: random.pick(&[any.0, any.0, 0, 0x7FFF]),
        rollover: random.pick(&[any.1, any.1, 0, 255]),
        count: random.pick(&[any.2, any.2, 0, 0xFF_FFFF]),
    }
}

/// Valid data of PAGE on a device of this many pages: a page, or FFh for every one.
pub fn selection(random: &mut Random, pages: usize) -> u8 {
    if pages == 0 || random.once_in(4) {
        0xFF
    } else {
        random.below(pages) as u8
    }
}

/// An unpaged part that gets no answer 15 beside this many pages.
pub fn unpaged(random: &mut Random, pages: usize) -> Unpaged {
    Unpaged {
        page: selection(random, pages),
        protect: random.pick(&[0x00, 0x00, 0x00, 0x20, 0x40, 0x80]),
        cml: register(random),
        alert: random.bool(),
        energy: account(random),
    }
}

/// A state that gets no answer 15; every other field holds anything.
pub fn valid(random: &mut Random) -> Device {
    Device {
        unpaged: unpaged(random, 8),
        pages: std::array::from_fn(|_| page(random)),
    }
}

/// An account with one field beyond its range.
pub fn account_beyond(random: &mut Random) -> Account {
    let mut account = account(random);
    let any = random.u32();
    match random.below(3) {
        0 => account.accumulator = random.pick(&[0x8000, 0xFFFF, any as u16 | 0x8000]),
        1 => account.rollover = random.pick(&[0x0100, 0xFFFF, any as u16 | 0x0400]),
        _ => account.count = random.pick(&[0x0100_0000, u32::MAX, any | 0x0200_0000]),
    }
    account
}

/// A totalizer, often near the top of its totals; once in eight one for answer 15.
pub fn totalizer(random: &mut Random) -> Totalizer {
    let any = (random.u64(), random.u64());
    Totalizer {
        started: !random.once_in(4),
        closed: random.once_in(4),
        last: if random.once_in(8) {
            account_beyond(random)
        } else {
            account(random)
        },
        energy: random.pick(&[any.0, any.0 >> 30, 0, u64::MAX - (any.0 & 0xFF_FFFF)]),
        samples: random.pick(&[any.1, any.1 >> 30, 0, u64::MAX - (any.1 & 0xFF_FFFF)]),
    }
}

/// Gives one field of a valid state a value that gets answer 15.
pub fn spoil(random: &mut Random, unpaged: &mut Unpaged, pages: &mut [Page]) {
    let number = pages.len() as u8;
    let page = &mut pages[random.below(usize::from(number))];
    match random.below(7) {
        0 => unpaged.page = random.pick(&[number, number + 1, 0x80, 0xFE]),
        1 => unpaged.protect = random.pick(&[0x01, 0x10, 0x21, 0x60, 0xA0, 0xC0, 0xFF]),
        2 => unpaged.energy = account_beyond(random),
        3 => page.operation = random.pick(&[0x01, 0x20, 0x41, 0x81, 0xC0, 0xFF]),
        4 => page.responses[IOUT_OC] = random.pick(&[0x80, 0x40, 0x01, 0x20, 0x81, 0xC1, 0xFF]),
        5 => page.formats[random.below(3)] = invalid_format(random),
        _ => {
            let cause = random.below(6);
            let byte = random.pick(&[65, 66, 0x80, 0xC0, 0xFF]);
            page.machines[cause] = if cause == IOUT_OC {
                byte % 65 + 1
            } else {
                byte
            };
        }
    }
}

/// A valid state but for one field, which makes it one for answer 15.
pub fn one_field_invalid(random: &mut Random) -> Device {
    let mut device = valid(random);
    spoil(random, &mut device.unpaged, &mut device.pages);
    device
}

/// Every field at random.
pub fn any_unpaged(random: &mut Random) -> Unpaged {
    Unpaged {
        page: random.u8(),
        protect: random.u8(),
        cml: random.u8(),
        alert: random.bool(),
        energy: Account {
            accumulator: random.u16(),
            rollover: random.u16(),
            count: random.u32(),
        },
    }
}

/// The second program has no place for a machine of IOUT_OC, and no state with one but 00h there gets past answer 15.
pub fn without_iout_oc_machine(page: &mut Page) {
    page.machines[IOUT_OC] = 0;
}

pub fn any_page(random: &mut Random) -> Page {
    Page {
        operation: random.u8(),
        command: random.u16(),
        limits: std::array::from_fn(|_| random.u16()),
        responses: std::array::from_fn(|_| random.u8()),
        machines: std::array::from_fn(|_| random.u8()),
        words: std::array::from_fn(|_| random.u16()),
        measured: std::array::from_fn(|_| random.bool()),
        status: std::array::from_fn(|_| random.u8()),
        tripped: random.bool(),
        formats: std::array::from_fn(|_| coefficients(random)),
    }
}

pub fn anything(random: &mut Random) -> Device {
    Device {
        unpaged: any_unpaged(random),
        pages: std::array::from_fn(|_| any_page(random)),
    }
}
