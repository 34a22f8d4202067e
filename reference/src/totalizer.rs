//! The host's totalizer (data sheet, section 10).

use crate::account::Account;
use crate::command::code::READ_EIN;
use crate::lent::{READ_ADDRESS, WRITE_ADDRESS};
use crate::pec::{pec, pec_from};

/// Readings are taken modulo 8,388,608 (23 bits), counts modulo 16,777,216.
const READING_MASK: u32 = 0x7F_FFFF;
const COUNT_MASK: u32 = 0xFF_FFFF;

#[derive(Clone, Copy, Debug, PartialEq, Eq)]
pub struct Totalizer {
    /// A reply has been accepted.
    pub started: bool,
    /// A total would have reached 2^64.
    pub closed: bool,
    // The last accepted reply.
    pub last_accumulator: u16,
    pub last_rollover: u16,
    pub last_count: u32,
    // The totals.
    pub energy: u64,
    pub samples: u64,
}

impl Totalizer {
    pub fn fresh() -> Totalizer {
        Totalizer {
            started: false,
            closed: false,
            last_accumulator: 0,
            last_rollover: 0,
            last_count: 0,
            energy: 0,
            samples: 0,
        }
    }

    /// False for the states that get answer 15, started or not.
    pub fn valid(&self) -> bool {
        self.last_accumulator <= 0x7FFF
            && self.last_rollover <= 0xFF
            && self.last_count <= COUNT_MASK
    }

    /// Takes one reply of eight bytes: READ_EIN and PEC.
    pub fn take(&mut self, reply: &[u8]) -> u8 {
        self.take_of(READ_EIN, reply)
    }

    /// Takes one reply to a read of a code that sends an account as READ_EIN does.
    pub fn take_of(&mut self, code: u8, reply: &[u8]) -> u8 {
        if !self.valid() {
            return 15;
        }
        let new = match judge(code, reply) {
            Ok(new) => new,
            Err(answer) => return answer,
        };
        if self.closed {
            return 24;
        }
        let Some((energy, samples)) = self.totals_after(&new) else {
            // Only the mark changes: the last accepted reply stays too.
            self.closed = true;
            return 24;
        };
        *self = Totalizer {
            started: true,
            closed: false,
            last_accumulator: new.accumulator,
            last_rollover: new.rollover,
            last_count: new.samples,
            energy,
            samples,
        };
        0
    }

    /// The totals with `new` added, or none when one would reach 2^64. The first
    /// accepted reply is the start: totals 0.
    fn totals_after(&self, new: &Account) -> Option<(u64, u64)> {
        if !self.started {
            return Some((0, 0));
        }
        let last = reading(self.last_accumulator, self.last_rollover);
        let energy = reading(new.accumulator, new.rollover).wrapping_sub(last) & READING_MASK;
        let samples = new.samples.wrapping_sub(self.last_count) & COUNT_MASK;
        Some((
            self.energy.checked_add(u64::from(energy))?,
            self.samples.checked_add(u64::from(samples))?,
        ))
    }
}

/// Rollover times 32768 plus accumulator.
fn reading(accumulator: u16, rollover: u16) -> u32 {
    u32::from(rollover) * 32768 + u32::from(accumulator)
}

/// The account in a good reply to a read of the code, or answers 20 to 23. The PEC
/// covers the header of that read.
fn judge(code: u8, reply: &[u8]) -> Result<Account, u8> {
    let Ok([data @ .., check]) = <&[u8; 8]>::try_from(reply) else {
        return Err(20);
    };
    let header = [WRITE_ADDRESS, code, READ_ADDRESS];
    if pec_from(pec(&header), data) != *check {
        return Err(21);
    }
    Account::from_bytes(data)
}
