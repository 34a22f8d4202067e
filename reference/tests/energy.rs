//! The energy account and the totalizer.

mod common;
use common::read;
use reference::device::{Account, Device};
use reference::pec::{pec, pec_from};
use reference::totalizer::Totalizer;

/// READ_EIN data and PEC.
fn reply(accumulator: u16, rollover: u8, count: u32) -> Vec<u8> {
    let [low, high] = accumulator.to_le_bytes();
    let count = count.to_le_bytes();
    sealed(&[6, low, high, rollover, count[0], count[1], count[2]])
}

fn sealed(data: &[u8]) -> Vec<u8> {
    let check = pec_from(pec(&[0xC0, 0x86, 0xC1]), data);
    [data, &[check]].concat()
}

/// A totalizer that has accepted the reply (0, 0, 0) and has these totals.
fn at(energy: u64, samples: u64) -> Totalizer {
    Totalizer {
        started: true,
        energy,
        samples,
        ..Totalizer::fresh()
    }
}

/// Takes a reply that must change nothing.
fn refused(totalizer: &mut Totalizer, reply: &[u8]) -> u8 {
    let before = *totalizer;
    let answer = totalizer.take(reply);
    assert_eq!(*totalizer, before);
    answer
}

#[test]
fn accumulator_rollover_and_count() {
    let mut device = Device::power_on();
    for (sample, accumulator, rollover) in [
        (0, 0, 0),
        (32767, 32767, 0),
        (0, 32767, 0),
        (1, 0, 1),
        (32767, 32767, 1),
        (32767, 32766, 2),
    ] {
        assert_eq!(device.sample(sample), 0);
        assert_eq!(device.account.accumulator, accumulator);
        assert_eq!(device.account.rollover, rollover);
    }
    assert_eq!(device.account.samples, 6);
}

#[test]
fn rollover_and_count_wrap() {
    let mut device = Device::power_on();
    device.account = Account {
        accumulator: 32767,
        rollover: 255,
        samples: 16_777_215,
    };
    assert_eq!(device.sample(1), 0);
    assert_eq!(device.account, Account::default());
}

#[test]
fn read_ein_bytes() {
    let mut device = Device::power_on();
    device.account = Account {
        accumulator: 0x1234,
        rollover: 0x56,
        samples: 0x789ABC,
    };
    let (answer, bytes) = read(&mut device, 0x86, 8);
    assert_eq!(answer, 0);
    assert_eq!(bytes[..7], [6, 0x34, 0x12, 0x56, 0xBC, 0x9A, 0x78]);
    assert_eq!(bytes, reply(0x1234, 0x56, 0x789ABC));
}

#[test]
fn first_accepted_reply_is_the_start() {
    let mut totalizer = Totalizer::fresh();
    assert_eq!(totalizer.take(&reply(0x1234, 5, 77)), 0);
    let expected = Totalizer {
        started: true,
        closed: false,
        last_accumulator: 0x1234,
        last_rollover: 5,
        last_count: 77,
        energy: 0,
        samples: 0,
    };
    assert_eq!(totalizer, expected);
}

#[test]
fn not_started_with_totals_starts_at_0() {
    let mut totalizer = Totalizer {
        started: false,
        ..at(u64::MAX, 9)
    };
    assert_eq!(totalizer.take(&reply(1, 1, 1)), 0);
    assert_eq!((totalizer.energy, totalizer.samples), (0, 0));
}

#[test]
fn differences_are_added() {
    let mut totalizer = at(100, 200);
    assert_eq!(totalizer.take(&reply(5, 1, 3)), 0);
    assert_eq!((totalizer.energy, totalizer.samples), (100 + 32773, 203));
    // A repeated reply adds 0 and 0.
    assert_eq!(totalizer.take(&reply(5, 1, 3)), 0);
    assert_eq!((totalizer.energy, totalizer.samples), (100 + 32773, 203));
    // One back is one turn less one.
    assert_eq!(totalizer.take(&reply(4, 1, 2)), 0);
    assert_eq!(totalizer.energy, 100 + 32773 + 8_388_607);
    assert_eq!(totalizer.samples, 203 + 16_777_215);
}

#[test]
fn answer_20_length() {
    let whole = reply(1, 2, 3);
    for length in (0..20).filter(|&length| length != 8) {
        let bytes: Vec<u8> = whole.iter().copied().cycle().take(length).collect();
        assert_eq!(refused(&mut at(1, 1), &bytes), 20);
    }
}

#[test]
fn answer_21_for_every_burst_of_eight_bits() {
    let whole = u64::from_be_bytes(reply(0x1234, 5, 0x6789AB).try_into().unwrap());
    for place in 0..64 {
        for burst in 1..=255u64 {
            let change = burst << 56 >> place;
            if change == 0 {
                continue; // pushed out at the end
            }
            let bytes = (whole ^ change).to_be_bytes();
            assert_eq!(refused(&mut Totalizer::fresh(), &bytes), 21);
        }
    }
}

#[test]
fn answers_22_and_23() {
    let mut totalizer = at(1, 1);
    for first in (0..=255).filter(|&first| first != 6) {
        let bytes = sealed(&[first, 0xFF, 0xFF, 0, 0, 0, 0]);
        assert_eq!(refused(&mut totalizer, &bytes), 22);
    }
    for accumulator in [0x8000, 0x8001, 0xFFFF] {
        assert_eq!(refused(&mut totalizer, &reply(accumulator, 0, 0)), 23);
    }
    assert_eq!(totalizer.take(&reply(0x7FFF, 0, 0)), 0);
}

#[test]
fn answer_24_when_a_total_would_reach_2_to_the_64() {
    let bytes = reply(1, 0, 1);
    // 2^64 - 1 is still a total.
    let mut totalizer = at(u64::MAX - 1, u64::MAX - 1);
    assert_eq!(totalizer.take(&bytes), 0);
    assert_eq!((totalizer.energy, totalizer.samples), (u64::MAX, u64::MAX));
    // Nothing added is no overflow.
    assert_eq!(totalizer.take(&bytes), 0);
    // One more, in either total or both.
    for (energy, samples) in [(u64::MAX, 0), (0, u64::MAX), (u64::MAX, u64::MAX)] {
        let before = at(energy, samples);
        let mut totalizer = before;
        assert_eq!(totalizer.take(&bytes), 24);
        let expected = Totalizer {
            closed: true,
            ..before
        };
        assert_eq!(totalizer, expected);
    }
}

#[test]
fn closed_for_good_started_or_not() {
    for started in [false, true] {
        let mut totalizer = Totalizer {
            started,
            closed: true,
            ..at(5, 6)
        };
        assert_eq!(refused(&mut totalizer, &reply(0, 0, 0)), 24);
        assert_eq!(refused(&mut totalizer, &[]), 20);
        assert_eq!(refused(&mut totalizer, &[0; 8]), 21);
        let bytes = sealed(&[7, 0, 0, 0, 0, 0, 0]);
        assert_eq!(refused(&mut totalizer, &bytes), 22);
        assert_eq!(refused(&mut totalizer, &reply(0x8000, 0, 0)), 23);
    }
}

#[test]
fn answer_15_before_20_to_24() {
    let states = [
        Totalizer {
            last_accumulator: 0x8000,
            ..at(1, 1)
        },
        Totalizer {
            last_rollover: 256,
            ..at(1, 1)
        },
        Totalizer {
            last_count: 16_777_216,
            ..at(1, 1)
        },
    ];
    for state in states {
        for (started, closed) in [(false, false), (false, true), (true, false), (true, true)] {
            let mut totalizer = Totalizer {
                started,
                closed,
                ..state
            };
            for bytes in [&reply(1, 1, 1)[..], &[], &[0; 8]] {
                assert_eq!(refused(&mut totalizer, bytes), 15);
            }
        }
    }
}

/// Samples, reads and copies against a tally kept from the samples alone.
#[test]
fn totals_are_the_tally_of_the_samples() {
    let mut device = Device::power_on();
    let mut totalizer = Totalizer::fresh();
    let (mut energy, mut samples) = (0u64, 0u64);
    let mut seed = 1u32;
    for round in 0..300u32 {
        for _ in 0..round % 230 {
            seed = seed.wrapping_mul(1_664_525).wrapping_add(1_013_904_223);
            let sample = (seed >> 16) as u16;
            let answer = device.sample(sample);
            if answer == 0 && round > 0 {
                energy += u64::from(sample);
                samples += 1;
            }
        }
        let (answer, bytes) = read(&mut device, 0x86, 8);
        assert_eq!(answer, 0);
        for _ in 0..=round % 3 {
            assert_eq!(totalizer.take(&bytes), 0);
            assert_eq!((totalizer.energy, totalizer.samples), (energy, samples));
        }
    }
}
