//! The totalizer: the library against the second program, and the data sheet's cases by name.

use conformance::library::{self, Account, Taken, Totalizer};
use conformance::mirror;
use conformance::random::Random;
use conformance::states;
use reference::pec;
use reference::totalizer;
use std::collections::BTreeMap;

const REPLIES: usize = 1_000_000;

/// The reply that carries an account: READ_EIN and PEC, the header counted in.
fn reply_of(account: Account) -> [u8; 8] {
    let accumulator = account.accumulator.to_le_bytes();
    let count = account.count.to_le_bytes();
    sealed([
        6,
        accumulator[0],
        accumulator[1],
        account.rollover as u8,
        count[0],
        count[1],
        count[2],
    ])
}

/// Seven bytes with the right PEC.
fn sealed(data: [u8; 7]) -> [u8; 8] {
    let check = pec::pec_from(pec::pec(&[0xC0, 0x86, 0xC1]), &data);
    let mut reply = [check; 8];
    reply[..7].copy_from_slice(&data);
    reply
}

/// A reply given to both: fails where state or answer differ.
fn take_on_both(totalizer: Totalizer, reply: &[u8]) -> Taken {
    let ours = library::totalizer_take(totalizer, reply);
    let mut theirs = mirror::totalizer_to_reference(&totalizer);
    let answer = theirs.take(reply);
    let theirs = Taken {
        totalizer: mirror::totalizer_from_reference(&theirs),
        answer,
    };
    assert_eq!(
        ours, theirs,
        "library left, second program right: {reply:02x?} on {totalizer:x?}"
    );
    ours
}

const ZERO: Account = Account {
    accumulator: 0,
    rollover: 0,
    count: 0,
};

const TOP: Account = Account {
    accumulator: 0x7FFF,
    rollover: 255,
    count: 0xFF_FFFF,
};

fn running(last: Account, energy: u64, samples: u64) -> Totalizer {
    Totalizer {
        started: true,
        closed: false,
        last,
        energy,
        samples,
    }
}

#[test]
fn fresh() {
    assert_eq!(
        mirror::totalizer_to_reference(&library::totalizer_fresh()),
        totalizer::Totalizer::fresh()
    );
    println!("  totalizer: fresh agrees");
}

/// Totals and the closed mark (data sheet 10.4 to 10.7): state, account in the reply, state after, answer.
#[test]
fn totals_and_the_closed_mark() {
    let fresh = library::totalizer_fresh();
    let closed = |totalizer: Totalizer| Totalizer {
        closed: true,
        ..totalizer
    };
    let one = Account {
        accumulator: 1,
        rollover: 0,
        count: 1,
    };
    let max = u64::MAX;
    // state, account in the reply, state after, answer
    let rows = [
        // the first accepted reply is the start, whatever totals the state holds
        (fresh, TOP, running(TOP, 0, 0), 0),
        (
            Totalizer {
                energy: max,
                samples: 7,
                ..fresh
            },
            one,
            running(one, 0, 0),
            0,
        ),
        // the wrap of data sheet 14.1: from 7FFFh, 255, 16777215 to all zero adds 1 and 1
        (running(TOP, 0, 0), ZERO, running(ZERO, 1, 1), 0),
        // the same reply again adds nothing, also at the top of the totals
        (running(one, 5, 6), one, running(one, 5, 6), 0),
        (running(one, max, max), one, running(one, max, max), 0),
        // the largest difference
        (
            running(one, 0, 0),
            ZERO,
            running(ZERO, 0x7F_FFFF, 0xFF_FFFF),
            0,
        ),
        // a total of 2^64 - 1 is still booked; one that would reach 2^64 closes and changes nothing else
        (
            running(ZERO, max - 1, max - 1),
            one,
            running(one, max, max),
            0,
        ),
        (
            running(ZERO, max, 0),
            one,
            closed(running(ZERO, max, 0)),
            24,
        ),
        (
            running(ZERO, 0, max),
            one,
            closed(running(ZERO, 0, max)),
            24,
        ),
        (
            running(ZERO, max, max),
            one,
            closed(running(ZERO, max, max)),
            24,
        ),
        // closed: every reply that passes 20 to 23 gets 24, started or not
        (
            closed(running(ZERO, 1, 2)),
            one,
            closed(running(ZERO, 1, 2)),
            24,
        ),
        (
            closed(running(one, 1, 2)),
            one,
            closed(running(one, 1, 2)),
            24,
        ),
        (closed(fresh), one, closed(fresh), 24),
        (closed(fresh), ZERO, closed(fresh), 24),
    ];
    for (state, account, after, answer) in rows {
        let taken = take_on_both(state, &reply_of(account));
        assert_eq!(
            taken,
            Taken {
                totalizer: after,
                answer
            },
            "{account:x?} on {state:x?}"
        );
    }
    println!(
        "  totalizer: {} rows on the start, the wrap, 2^64 and the closed mark hold",
        rows.len()
    );
}

/// Each refusal, alone and before those of higher number, on each kind of state. The whole totalizer stays.
#[test]
fn refusals() {
    let good = reply_of(TOP);
    let mut wrong_check = good;
    wrong_check[7] ^= 0x40;
    let wrong_count_byte = sealed([7, 0xFF, 0x7F, 0, 0, 0, 0]);
    let too_large = sealed([6, 0x00, 0x80, 0, 0, 0, 0]);
    let both = sealed([5, 0xFF, 0xFF, 0, 0, 0, 0]);
    let mut all_wrong = both;
    all_wrong[7] ^= 1;
    let long: Vec<u8> = good.iter().chain(&good).copied().collect();
    let rows: [(&[u8], u8); 9] = [
        (&[], 20),
        (&good[..7], 20),
        (&long[..9], 20),
        (&long, 20),
        (&wrong_check, 21),
        (&all_wrong, 21),
        (&wrong_count_byte, 22),
        (&both, 22),
        (&too_large, 23),
    ];
    let fresh = library::totalizer_fresh();
    let states = [
        fresh,
        running(ZERO, 1, 2),
        Totalizer {
            closed: true,
            ..fresh
        },
        Totalizer {
            closed: true,
            ..running(ZERO, u64::MAX, 0)
        },
    ];
    // One field over its range gives 15 before all others, started or not, closed or not.
    let beyond = [
        Account {
            accumulator: 0x8000,
            ..ZERO
        },
        Account {
            rollover: 0x100,
            ..ZERO
        },
        Account {
            count: 0x100_0000,
            ..ZERO
        },
    ];
    for state in states {
        for (reply, answer) in rows {
            assert_eq!(
                take_on_both(state, reply),
                Taken {
                    totalizer: state,
                    answer
                },
                "{reply:02x?}"
            );
        }
        for last in beyond {
            let state = Totalizer { last, ..state };
            for reply in rows.map(|row| row.0).iter().chain(&[&good[..]]) {
                assert_eq!(
                    take_on_both(state, reply),
                    Taken {
                        totalizer: state,
                        answer: 15
                    },
                    "{reply:02x?}"
                );
            }
        }
    }
    println!("  totalizer: refusals 15 and 20 to 23 hold, each before those of higher number, and leave everything");
}

/// Every change within eight adjacent bits of a reply, in bus order: refused by its PEC, and nothing moves.
#[test]
fn every_burst_of_a_reply() {
    let mut random = Random::new(20);
    let mut bursts = 0;
    for _ in 0..200 {
        let reply = u64::from_be_bytes(reply_of(states::account(&mut random)));
        let state = running(
            states::account(&mut random),
            random.u64() >> 1,
            random.u64() >> 1,
        );
        assert_eq!(take_on_both(state, &reply.to_be_bytes()).answer, 0);
        // The first changed bit, and any of the seven after it that the reply has.
        for first in 0..64 {
            for rest in 0..1 << (63 - first).min(7) {
                let after = (63 - first).min(7);
                let burst = (1u64 << after | rest) << (63 - first - after);
                let changed = (reply ^ burst).to_be_bytes();
                assert_eq!(
                    take_on_both(state, &changed),
                    Taken {
                        totalizer: state,
                        answer: 21
                    },
                    "{burst:016x}"
                );
                bursts += 1;
            }
        }
    }
    println!("  totalizer: {bursts} changed copies, every burst of 1 to 8 bits in 200 replies, get 21 and change nothing");
}

/// A reply that is often right: any account, also one with an accumulator over 7FFFh, any bytes with the right PEC, and any bytes.
fn random_reply(random: &mut Random) -> Vec<u8> {
    let mut data = [0; 7];
    random.fill(&mut data);
    match random.below(8) {
        0 => sealed(data).to_vec(),
        1 => {
            data[0] = 6;
            sealed(data).to_vec()
        }
        2 => {
            let length = random.below(20);
            random.bytes(length)
        }
        3 => {
            let mut reply = reply_of(states::account(random)).to_vec();
            reply.resize(random.below(12), 0x00);
            reply
        }
        _ => reply_of(states::account(random)).to_vec(),
    }
}

#[test]
fn random_replies_to_random_states() {
    let mut random = Random::new(21);
    let mut seen: BTreeMap<u8, usize> = BTreeMap::new();
    for _ in 0..REPLIES {
        let state = states::totalizer(&mut random);
        let reply = random_reply(&mut random);
        *seen.entry(take_on_both(state, &reply).answer).or_default() += 1;
    }
    assert_eq!(
        seen.keys().copied().collect::<Vec<u8>>(),
        [0, 15, 20, 21, 22, 23, 24]
    );
    println!("  totalizer: {REPLIES} replies to random states agree: answers {seen:?}");
}

/// A device and its totalizer: samples, reads of READ_EIN, and copies lost, repeated or changed on the way, against a plain tally.
#[test]
fn totals_follow_the_samples_taken() {
    let mut random = Random::new(22);
    let mut accepted = 0;
    for _ in 0..200 {
        let mut device = library::power_on();
        let mut totalizer = library::totalizer_fresh();
        let (mut energy, mut count) = (0, 0);
        let mut tally: Option<(u64, u64)> = None;
        for _ in 0..500 {
            for _ in 0..random.below(40) {
                let sample = random.u16();
                let done = library::sample(device, sample);
                device = done.device;
                if done.answer == 0 {
                    energy += u64::from(sample);
                    count += 1;
                }
            }
            let mut reply = [0; 8];
            let done = library::read(device, &[0xC0, 0x86, 0xC1], &mut reply);
            assert_eq!(done.answer, 0);
            device = done.device;
            for _ in 0..random.below(3) {
                if random.once_in(3) {
                    let mut changed = reply;
                    changed[random.below(8)] ^= 1 + random.below(255) as u8;
                    assert_eq!(take_on_both(totalizer, &changed).answer, 21);
                    continue;
                }
                let taken = take_on_both(totalizer, &reply);
                totalizer = taken.totalizer;
                // The first intact copy starts the tally; samples since the intact copy before are added.
                tally = Some(tally.map_or((0, 0), |(e, n)| {
                    (e + energy % 8_388_608, n + count % 16_777_216)
                }));
                (energy, count) = (0, 0);
                accepted += 1;
                assert_eq!(
                    (taken.answer, Some((totalizer.energy, totalizer.samples))),
                    (0, tally)
                );
            }
        }
    }
    println!("  totalizer: after each of {accepted} intact copies of 200 runs the totals are the tally of the samples taken");
}
