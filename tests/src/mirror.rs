//! A state of the library as the second program's and back: every field, and nothing lost. What the host gets likewise.

use crate::library;
use reference::device::{Account, Choice, Device, Format, Machine, Page, Reading};
use reference::host::{Built, Reply};
use reference::lent::Unpaged;
use reference::totalizer::Totalizer;

/// The causes of the second program's five machines; IOUT_OC has none.
const CAUSES: [usize; 5] = [0, 2, 3, 4, 5];
const IOUT_OC: usize = 1;
/// Phases that the second program does not have, for bytes that are no machine's.
const NO_MACHINE: u8 = 5;
const IOUT_OC_TOO: u8 = 6;

/// A machine's byte is tries and ticks, an octal digit each, the try under way counted among the tries; 64 is tripped.
fn machine_to_reference(byte: u8) -> Machine {
    let (tries, ticks) = (byte / 8, byte % 8);
    let (phase, ticks, tries) = match byte {
        0 => (0, 0, 0),
        1..=7 => (1, ticks, 0),
        64 => (4, 0, 0),
        65.. => (NO_MACHINE, byte, 0),
        _ if ticks > 0 => (2, ticks, tries),
        56 => (3, 0, 7),
        _ => (3, 0, tries - 1),
    };
    Machine {
        phase,
        ticks,
        tries,
    }
}

fn machine_from_reference(machine: Machine) -> u8 {
    match machine.phase {
        0 => 0,
        1 => machine.ticks,
        2 => 8 * machine.tries + machine.ticks,
        3 if machine.tries == 7 => 56,
        3 => 8 * (machine.tries + 1),
        4 => 64,
        _ => machine.ticks,
    }
}

/// A byte other than 00h at IOUT_OC, which makes the page one for answer 15, is kept beside that of the first machine.
fn machines_to_reference(bytes: [u8; 6]) -> [Machine; 5] {
    let mut machines = CAUSES.map(|cause| machine_to_reference(bytes[cause]));
    if bytes[IOUT_OC] != 0 {
        machines[0] = Machine {
            phase: IOUT_OC_TOO,
            ticks: bytes[0],
            tries: bytes[IOUT_OC],
        };
    }
    machines
}

fn machines_from_reference(machines: [Machine; 5]) -> [u8; 6] {
    let mut bytes = [0; 6];
    for (machine, cause) in machines.into_iter().zip(CAUSES) {
        bytes[cause] = machine_from_reference(machine);
    }
    if machines[0].phase == IOUT_OC_TOO {
        bytes[IOUT_OC] = machines[0].tries;
    }
    bytes
}

pub fn format_to_reference(format: library::Format) -> Format {
    Format {
        direct: format.direct,
        m: format.m as i16,
        b: format.b as i16,
        r: format.r as i8,
    }
}

fn format_from_reference(format: Format) -> library::Format {
    library::Format {
        direct: format.direct,
        m: format.m as u16,
        b: format.b as u16,
        r: format.r as u8,
    }
}

pub fn choice_to_reference(choice: &library::PageChoice) -> Choice {
    Choice {
        formats: choice.formats.map(format_to_reference),
        limits: choice.limits,
    }
}

pub fn page_to_reference(page: &library::Page) -> Page {
    Page {
        operation: page.operation,
        vout_command: page.command,
        limits: std::array::from_fn(|cause| page.limits[cause]),
        warn_limits: std::array::from_fn(|warning| page.limits[6 + warning]),
        responses: page.responses,
        machines: machines_to_reference(page.machines),
        status: page.status,
        tripped: page.tripped,
        readings: std::array::from_fn(|quantity| Reading {
            measured: page.measured[quantity],
            word: page.words[quantity],
        }),
        formats: page.formats.map(format_to_reference),
    }
}

pub fn page_from_reference(page: &Page) -> library::Page {
    library::Page {
        operation: page.operation,
        command: page.vout_command,
        limits: std::array::from_fn(|limit| match limit {
            0..=5 => page.limits[limit],
            _ => page.warn_limits[limit - 6],
        }),
        responses: page.responses,
        machines: machines_from_reference(page.machines),
        words: page.readings.map(|reading| reading.word),
        measured: page.readings.map(|reading| reading.measured),
        status: page.status,
        tripped: page.tripped,
        formats: page.formats.map(format_from_reference),
    }
}

pub fn unpaged_to_reference(unpaged: &library::Unpaged) -> Unpaged {
    Unpaged {
        page: unpaged.page,
        protect: unpaged.protect,
        cml: unpaged.cml,
        alert: unpaged.alert,
        account: Account {
            accumulator: unpaged.energy.accumulator,
            rollover: unpaged.energy.rollover,
            samples: unpaged.energy.count,
        },
    }
}

pub fn unpaged_from_reference(unpaged: &Unpaged) -> library::Unpaged {
    library::Unpaged {
        page: unpaged.page,
        protect: unpaged.protect,
        cml: unpaged.cml,
        alert: unpaged.alert,
        energy: library::Account {
            accumulator: unpaged.account.accumulator,
            rollover: unpaged.account.rollover,
            count: unpaged.account.samples,
        },
    }
}

pub fn to_reference(device: &library::Device) -> Device {
    Device::from_parts(
        unpaged_to_reference(&device.unpaged),
        device.pages.each_ref().map(page_to_reference),
    )
}

pub fn from_reference(device: &Device) -> library::Device {
    let (unpaged, pages) = device.lend();
    library::Device {
        unpaged: unpaged_from_reference(&unpaged),
        pages: pages.each_ref().map(page_from_reference),
    }
}

pub fn totalizer_to_reference(totalizer: &library::Totalizer) -> Totalizer {
    Totalizer {
        started: totalizer.started,
        closed: totalizer.closed,
        last_accumulator: totalizer.last.accumulator,
        last_rollover: totalizer.last.rollover,
        last_count: totalizer.last.count,
        energy: totalizer.energy,
        samples: totalizer.samples,
    }
}

pub fn totalizer_from_reference(totalizer: &Totalizer) -> library::Totalizer {
    library::Totalizer {
        started: totalizer.started,
        closed: totalizer.closed,
        last: library::Account {
            accumulator: totalizer.last_accumulator,
            rollover: totalizer.last_rollover,
            count: totalizer.last_count,
        },
        energy: totalizer.energy,
        samples: totalizer.samples,
    }
}

pub fn built_from_reference(built: &Built) -> library::Built {
    library::Built {
        answer: built.answer,
        length: built.length,
        count: built.count,
    }
}

pub fn reply_from_reference(reply: &Reply) -> library::Reply {
    library::Reply {
        answer: reply.answer,
        byte: reply.byte,
        word: reply.word,
        account: library::Account {
            accumulator: reply.account.accumulator,
            rollover: reply.account.rollover,
            count: reply.account.samples,
        },
    }
}
