//! The machine that each of the causes VOUT_OV, OT, UT, VIN_OV and VIN_UV has on each
//! page. It knows nothing of the cause but whether it is present, and nothing of the
//! page but the response byte.
//!
//! The byte: action in bits 7 and 6, retries in bits 5 to 3, delay in bits 2 to 0, a
//! delay of 0 counting as 1; d below. Actions 00 (go on) and 11 (off while the fault
//! lasts) never start a machine.
//!
//! A machine is (phase, ticks, tries): ticks left until the phase ends, tries left, 7
//! of them meaning for ever. The values that occur, sixty-five in all:
//!
//! | phase | ticks | tries | number | |
//! |---|---|---|---|---|
//! | 0 rest | 0 | 0 | 1 | |
//! | 1 waiting | 1 to 7 | 0 | 7 | action 01: the page goes on until the look |
//! | 2 held | 1 to 7 | 1 to 7 | 49 | the page does not supply |
//! | 3 trying | 0 | 0 to 5, 7 | 7 | the page is on again, the look is at the next tick |
//! | 4 tripped | 0 | 0 | 1 | by this machine; retry 0 is never held, it trips at once |
//!
//! Waiting keeps no tries: the byte says them when the wait is over. A try is used up
//! by letting the page on, so six are left at most until the first one, and five from
//! there. Only three things look at the cause: a start, the end of a wait and the tick
//! after a page was let on. A machine that disagrees with its byte (no run has one)
//! runs on and takes from the byte what it needs next.

/// The phases.
pub const REST: u8 = 0;
pub const WAITING: u8 = 1;
pub const HELD: u8 = 2;
pub const TRYING: u8 = 3;
pub const TRIPPED: u8 = 4;

/// Tries that never run out.
pub const FOR_EVER: u8 = 7;

/// Any field values may be handed in.
#[derive(Clone, Copy, Debug, Default, PartialEq, Eq, Hash)]
pub struct Machine {
    pub phase: u8,
    pub ticks: u8,
    pub tries: u8,
}

const fn machine(phase: u8, ticks: u8, tries: u8) -> Machine {
    Machine {
        phase,
        ticks,
        tries,
    }
}

fn delay(response: u8) -> u8 {
    (response & 0x07).max(1)
}

fn retries(response: u8) -> u8 {
    response >> 3 & 0x07
}

impl Machine {
    pub const AT_REST: Machine = machine(REST, 0, 0);

    /// Whether this is one of the values that occur.
    pub fn valid(&self) -> bool {
        match self.phase {
            REST | TRIPPED => self.ticks == 0 && self.tries == 0,
            WAITING => (1..=7).contains(&self.ticks) && self.tries == 0,
            HELD => (1..=7).contains(&self.ticks) && (1..=7).contains(&self.tries),
            TRYING => self.ticks == 0 && matches!(self.tries, 0..=5 | FOR_EVER),
            _ => false,
        }
    }

    /// Whether it keeps its page from supplying.
    pub fn holds(&self) -> bool {
        self.phase == HELD
    }

    /// Shuts the page down with so many tries left; none trips it.
    fn hold(response: u8, tries: u8) -> Machine {
        match tries {
            0 => machine(TRIPPED, 0, 0),
            _ => machine(HELD, delay(response), tries),
        }
    }

    /// After a call at whose end the cause is or is not present: a present cause
    /// starts a machine at rest. Where the phase is tripped then and was not before,
    /// the page trips.
    pub fn after_call(self, response: u8, present: bool) -> Machine {
        if self.phase != REST || !present {
            return self;
        }
        match response >> 6 {
            0b01 => machine(WAITING, delay(response), 0),
            0b10 => Machine::hold(response, retries(response)),
            _ => self,
        }
    }

    /// One tick, with the cause present or not. A machine at rest stays there; the
    /// page trips as above.
    pub fn after_tick(self, response: u8, present: bool) -> Machine {
        let looks = match self.phase {
            WAITING => self.ticks <= 1,
            TRYING => true,
            _ => false,
        };
        match self.phase {
            _ if looks && !present => Machine::AT_REST,
            WAITING if looks => Machine::hold(response, retries(response)),
            TRYING => Machine::hold(response, self.tries),
            HELD if self.ticks <= 1 => match self.tries {
                FOR_EVER => machine(TRYING, 0, FOR_EVER),
                tries => machine(TRYING, 0, tries.saturating_sub(1)),
            },
            WAITING | HELD => machine(self.phase, self.ticks - 1, self.tries),
            _ => self,
        }
    }
}

#[cfg(test)]
mod tests {
    use super::*;
    use std::collections::HashSet;

    /// The 256 * 256 * 256 values that are valid.
    fn valid() -> HashSet<Machine> {
        let mut found = HashSet::new();
        for phase in 0..=255 {
            for ticks in 0..=255 {
                for tries in 0..=255 {
                    let machine = machine(phase, ticks, tries);
                    if machine.valid() {
                        found.insert(machine);
                    }
                }
            }
        }
        found
    }

    /// The values of the table above, written out.
    fn table() -> HashSet<Machine> {
        let mut listed = HashSet::from([machine(0, 0, 0), machine(4, 0, 0)]);
        for ticks in 1..=7 {
            listed.insert(machine(1, ticks, 0));
            for tries in 1..=7 {
                listed.insert(machine(2, ticks, tries));
            }
        }
        for tries in [0, 1, 2, 3, 4, 5, 7] {
            listed.insert(machine(3, 0, tries));
        }
        listed
    }

    /// All values that a machine has in some run with this byte, from rest.
    fn reached(response: u8) -> HashSet<Machine> {
        let mut reached = HashSet::from([Machine::AT_REST]);
        let mut open = vec![Machine::AT_REST];
        while let Some(machine) = open.pop() {
            for present in [false, true] {
                let call = machine.after_call(response, present);
                let tick = machine.after_tick(response, present);
                for next in [call, tick, tick.after_call(response, present)] {
                    if reached.insert(next) {
                        open.push(next);
                    }
                }
            }
        }
        reached
    }

    #[test]
    fn the_valid_values_are_those_that_runs_reach() {
        // A write of the byte puts the machine to rest, so a run goes from rest with
        // one byte at a time.
        let all: HashSet<Machine> = (0..=255).flat_map(reached).collect();
        assert_eq!(all.len(), 65);
        assert_eq!(all, table());
        assert_eq!(all, valid());
    }

    #[test]
    fn actions_00_and_11_never_start() {
        for response in (0x00..=0x3F).chain(0xC0..=0xFF) {
            assert_eq!(reached(response), HashSet::from([Machine::AT_REST]));
        }
    }

    #[test]
    fn no_field_wraps_in_a_valid_machine() {
        for response in 0..=255 {
            for machine in valid() {
                for present in [false, true] {
                    assert!(machine.after_call(response, present).valid());
                    assert!(machine.after_tick(response, present).valid());
                }
            }
        }
    }

    /// The ticks after the start at which the page is let on while the cause lasts,
    /// up to `end`, and the tick of the trip.
    fn lets_on(response: u8, end: u32) -> (Vec<u32>, Option<u32>) {
        let mut machine = Machine::AT_REST.after_call(response, true);
        let mut trip = (machine.phase == TRIPPED).then_some(0);
        let mut on = Vec::new();
        for tick in 1..=end {
            let next = machine.after_tick(response, true);
            if machine.phase == HELD && next.phase != HELD {
                on.push(tick);
            }
            if machine.phase != TRIPPED && next.phase == TRIPPED {
                trip = Some(tick);
            }
            machine = next;
        }
        (on, trip)
    }

    #[test]
    fn k_tries_let_on_k_times_within_56_ticks() {
        let mut latest = 0;
        for response in 0x40..=0xBF {
            let (d, k) = (u32::from(delay(response)), u32::from(retries(response)));
            let first = if response < 0x80 { d } else { 0 };
            let (on, trip) = lets_on(response, 200);
            if k == 7 {
                assert_eq!(trip, None);
                assert_eq!(on.len() as u32, (200 - first - d) / (d + 1) + 1);
                continue;
            }
            // Held at `first`; on after d, looked at one tick later, held again.
            let due: Vec<u32> = (0..k).map(|nth| first + d + nth * (d + 1)).collect();
            assert_eq!(on, due);
            assert_eq!(trip, Some(first + k * (d + 1)));
            latest = latest.max(on.last().copied().unwrap_or(0));
        }
        assert_eq!(latest, 54);
    }

    #[test]
    fn the_cause_is_looked_at_only_at_the_looks() {
        for response in 0x40..=0xBF {
            for machine in reached(response) {
                let looks = match machine.phase {
                    WAITING => machine.ticks == 1,
                    TRYING => true,
                    _ => false,
                };
                let there = machine.after_tick(response, true);
                let gone = machine.after_tick(response, false);
                assert_eq!(there != gone, looks);
                assert!(!looks || gone == Machine::AT_REST);
                if machine != Machine::AT_REST {
                    assert_eq!(machine.after_call(response, true), machine);
                }
                assert_eq!(machine.after_call(response, false), machine);
            }
        }
    }
}
