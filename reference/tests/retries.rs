//! Ticks and the machines of the five causes, on the device.

mod common;
use common::*;
use reference::device::{Device, Machine, Reading};

/// Response code, quantity, a word with the cause and one without, by machine.
const CAUSES: [(u8, u8, u16, u16); 5] = [
    (0x41, 0, 0xFFFF, 0x2000),
    (0x50, 3, 0x7BFF, 0x0019),
    (0x54, 3, 0x7C00, 0x0019),
    (0x56, 2, 0x7BFF, 0x000C),
    (0x5A, 2, 0x0000, 0x000C),
];

/// Whether the page supplies after the start and after each of `ticks` ticks, the
/// cause of `machine` lasting.
fn supplied(machine: usize, response: u8, ticks: usize) -> Vec<bool> {
    let (code, quantity, past, _) = CAUSES[machine];
    let mut device = Device::power_on();
    write(&mut device, &[0x01, 0x80]);
    assert_eq!(write(&mut device, &[code, response]), 0);
    assert_eq!(device.measure(0, quantity, past), 0);
    let mut seen = vec![device.pages[0].supplies()];
    for _ in 0..ticks {
        let before = device;
        assert_eq!(device.tick(), 0);
        assert_eq!(device.pages[0].status, before.pages[0].status);
        assert_eq!(device.alert, before.alert);
        seen.push(device.pages[0].supplies());
    }
    seen
}

/// What is due: on for the wait, then off for d ticks and on for one, k times.
fn due(response: u8, ticks: usize) -> Vec<bool> {
    let d = usize::from(response & 7).max(1);
    let k = match response >> 3 & 7 {
        7 => ticks,
        k => usize::from(k),
    };
    let mut due = match response >> 6 {
        0 => vec![true; ticks + 1],
        3 => vec![false; ticks + 1],
        1 => vec![true; d],
        _ => Vec::new(),
    };
    for _ in 0..k {
        due.extend(vec![false; d]);
        due.push(true);
    }
    due.resize(due.len().max(ticks + 1), false);
    due.truncate(ticks + 1);
    due
}

#[test]
fn every_response_of_every_cause() {
    for machine in 0..5 {
        for response in 0..=255 {
            let seen = supplied(machine, response, 70);
            assert_eq!(seen, due(response, 70), "{machine} {response:02x}");
        }
    }
}

/// A device with the cause of `machine` on page 0, `ticks` ticks after its start.
fn after(machine: usize, response: u8, ticks: usize) -> Device {
    let (code, quantity, past, _) = CAUSES[machine];
    let mut device = Device::power_on();
    write(&mut device, &[0x01, 0x80]);
    write(&mut device, &[code, response]);
    device.measure(0, quantity, past);
    for _ in 0..ticks {
        device.tick();
    }
    device
}

#[test]
fn a_cause_that_goes_is_noticed_at_the_look_only() {
    // Action 01, two tries, d 3: waits to tick 3, held to 6, tries, looks at 7,
    // held to 10, tries, looks at 11.
    for machine in 0..5 {
        let (_, quantity, past, calm) = CAUSES[machine];
        for (gone, rests) in [(0, 3), (2, 3), (3, 7), (5, 7), (6, 7), (7, 11), (10, 11)] {
            let mut device = after(machine, 0x53, gone);
            device.measure(0, quantity, calm);
            for tick in gone + 1..=rests {
                assert_ne!(device.pages[0].machines[machine], Machine::AT_REST);
                let on = tick - 1 < 3 || tick - 1 == 6 || tick - 1 == 10;
                assert_eq!(device.pages[0].supplies(), on, "{gone} {tick}");
                device.tick();
            }
            assert_eq!(device.pages[0].machines[machine], Machine::AT_REST);
            assert!(device.pages[0].supplies() && !device.pages[0].tripped);
            // Tries are forgotten: the next start has two again.
            device.measure(0, quantity, past);
            let lasting: Vec<bool> = (0..20)
                .map(|_| {
                    let on = device.pages[0].supplies();
                    device.tick();
                    on
                })
                .collect();
            assert_eq!(lasting, due(0x53, 19));
            // Gone and back before the look counts as there.
            let mut device = after(machine, 0x53, gone);
            device.measure(0, quantity, calm);
            device.measure(0, quantity, past);
            assert_eq!(device, after(machine, 0x53, gone));
        }
    }
}

#[test]
fn what_rests_a_machine_and_what_does_not() {
    for machine in 0..5 {
        let (code, quantity, _, calm) = CAUSES[machine];
        for ticks in 0..14 {
            let before = after(machine, 0x53, ticks);
            // With the cause there, it starts anew in the same call.
            let anew = after(machine, 0x53, 0).pages[0].machines;
            let trip = before.pages[0].tripped;
            for data in [0x00, 0x40] {
                let mut device = before;
                assert_eq!(write(&mut device, &[0x01, data]), 0);
                assert_eq!(device.pages[0].machines, anew);
                assert!(!device.pages[0].tripped);
            }
            let mut device = before;
            assert_eq!(write(&mut device, &[code, 0x53]), 0);
            assert_eq!(device.pages[0].machines, anew);
            assert_eq!(device.pages[0].tripped, trip);
            // With the cause gone, it rests.
            let mut calmed = before;
            calmed.measure(0, quantity, calm);
            for bytes in [[0x01, 0x00], [0x01, 0x40], [code, 0x53]] {
                let mut device = calmed;
                assert_eq!(write(&mut device, &bytes), 0);
                assert_eq!(device.pages[0].machines, [Machine::AT_REST; 5]);
            }
            // Nothing else does, refused writes included.
            for bytes in [
                &[0x03][..],
                &[0x7A, 0xFF],
                &[0x7C, 0xFF],
                &[0x7D, 0xFF],
                &[0x7E, 0xFF],
                &[0x01, 0x80],
                &[0x01, 0x00, 0xFF],
                &[0x01, 0x01],
                &[code, 0x53, 0x00],
                &[0x47, 0x00],
                &[0x21, 0x00, 0x00],
            ] {
                for before in [before, calmed] {
                    let mut device = before;
                    write(&mut device, bytes);
                    assert_eq!(device.pages[0].machines, before.pages[0].machines);
                    assert_eq!(device.pages[0].tripped, trip);
                }
            }
            // The response of another cause rests only that one's machine.
            for (other, _, _, _) in CAUSES.into_iter().filter(|row| row.0 != code) {
                let mut device = before;
                assert_eq!(write(&mut device, &[other, 0x53]), 0);
                assert_eq!(device.pages[0].machines, before.pages[0].machines);
            }
        }
    }
}

#[test]
fn machines_run_with_the_page_off_or_tripped() {
    let mut device = after(0, 0x8A, 0); // one try, d 2
    write(&mut device, &[0x01, 0x80]);
    device.measure(0, 1, 0x7BFF); // IOUT_OC trips the page
    assert!(device.pages[0].tripped);
    let phases: Vec<u8> = (0..5)
        .map(|_| {
            let phase = device.pages[0].machines[0].phase;
            device.tick();
            phase
        })
        .collect();
    assert_eq!(phases, [2, 2, 3, 4, 4]);
}

#[test]
fn a_tick_is_for_every_page() {
    let mut device = Device::power_on();
    write(&mut device, &[0x00, 0xFF]);
    write(&mut device, &[0x01, 0x80]);
    write(&mut device, &[0x41, 0x8F]); // one try, d 7
    for page in 0..8 {
        device.measure(page, 0, 0xFFFF);
        device.tick();
    }
    let ticks = device.pages.map(|page| page.machines[0].ticks);
    let phases = device.pages.map(|page| page.machines[0].phase);
    assert_eq!(phases, [4, 3, 2, 2, 2, 2, 2, 2]);
    assert_eq!(ticks, [0, 0, 1, 2, 3, 4, 5, 6]);
}

/// States that no run reaches: causes present, machines at rest, no bits.
#[test]
fn a_tick_starts_what_no_run_leaves_at_rest() {
    let mut device = device(|device| {
        device.pages[2].responses[0] = 0x53;
        for page in [2, 3] {
            device.pages[page].readings[0] = Reading {
                measured: true,
                word: 0xFFFF,
            };
        }
        device.pages[4].readings[1] = Reading {
            measured: true,
            word: 0x7BFF,
        };
    });
    assert_eq!(device.tick(), 0);
    let machine = device.pages[2].machines[0];
    assert_eq!((machine.phase, machine.ticks, machine.tries), (1, 3, 0));
    assert!(!device.pages[2].tripped && device.pages[3].tripped && device.pages[4].tripped);
    assert!(device.pages.iter().all(|page| page.status == [0; 4]));
    assert!(!device.alert);
}
