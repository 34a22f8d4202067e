//! The device of eight pages fed byte by byte: START, a byte written, repeated START, a
//! byte clocked, STOP. Each byte written gets ACK or NACK, each clock a byte to send,
//! STOP the answer.
//!
//! The two orders are START, bytes, STOP and START, bytes, repeated START, byte,
//! clocked bytes, STOP; the bytes before the repeated START may be none. The bytes are
//! kept as they come, and STOP hands them to the device as one whole transaction. Only
//! the reply cannot wait: it is made at the second address byte, and what happens to
//! the device between that and STOP does not show in it.

use crate::command;
use crate::device::{Choice, Device, READ_ADDRESS, WRITE_ADDRESS};

/// The longest data and their PEC; whatever is clocked after the PEC is FFh.
const REPLY: usize = 8;

/// Where a transaction stands.
#[derive(Clone, Copy, Debug, PartialEq, Eq)]
pub enum Phase {
    /// No START since the last STOP.
    Idle,
    /// After START: the address byte, the code and data.
    Written,
    /// After the repeated START, before the second address byte.
    Turned,
    /// After the second address byte.
    Clocked { reply: [u8; REPLY], count: usize },
    /// Out of order.
    Broken,
}

/// The transaction under way.
#[derive(Clone, Debug, PartialEq, Eq)]
pub struct Transaction {
    pub phase: Phase,
    /// The bytes written since START, the second address byte among them.
    pub bytes: Vec<u8>,
    /// Whether a byte so far was a wrong address byte or an absent code.
    pub foreign: bool,
}

impl Transaction {
    /// Forgets all that came before.
    fn begin(&mut self, phase: Phase) {
        self.phase = phase;
        self.bytes.clear();
        self.foreign = false;
    }
}

/// The device and the transaction under way. The calls are those of the bus, beside
/// sample, measurement, tick and alert response; no transaction comes whole.
#[derive(Clone, Debug, PartialEq, Eq)]
pub struct Stream {
    pub device: Device,
    pub transaction: Transaction,
}

impl Stream {
    /// No transaction under way on a device in any state.
    pub fn new(device: Device) -> Stream {
        let transaction = Transaction {
            phase: Phase::Idle,
            bytes: Vec::new(),
            foreign: false,
        };
        Stream {
            device,
            transaction,
        }
    }

    pub fn power_on() -> Stream {
        Stream::new(Device::power_on())
    }

    /// Power-on with a choice for each page: answer 0, or 27 and an all-linear device.
    pub fn power_on_with(choices: &[Choice; 8]) -> (Stream, u8) {
        let (device, answer) = Device::power_on_with(choices);
        (Stream::new(device), answer)
    }

    /// START: a transaction begins, and one that had no STOP is dropped. Answer 0.
    pub fn start(&mut self) -> u8 {
        if !self.device.valid() {
            return 15;
        }
        self.transaction.begin(Phase::Written);
        0
    }

    /// A byte written by the host: true for ACK, false for NACK.
    pub fn byte(&mut self, byte: u8) -> bool {
        if !self.device.valid() {
            return false;
        }
        let right = match self.transaction.phase {
            Phase::Written => self.expected(byte),
            Phase::Turned => Some(byte == READ_ADDRESS),
            _ => {
                self.transaction.phase = Phase::Broken;
                return false;
            }
        };
        self.transaction.bytes.push(byte);
        if self.transaction.phase == Phase::Turned {
            self.begin_reply();
        }
        match right {
            // A byte too many, which spoils nothing after it.
            None => false,
            Some(right) => {
                self.transaction.foreign |= !right;
                !self.transaction.foreign
            }
        }
    }

    /// Repeated START: the direction turns. Answer 0; a breach shows at STOP.
    pub fn repeated_start(&mut self) -> u8 {
        if !self.device.valid() {
            return 15;
        }
        self.transaction.phase = match self.transaction.phase {
            Phase::Written => Phase::Turned,
            _ => Phase::Broken,
        };
        0
    }

    /// A byte clocked by the host: the byte to send.
    pub fn clock(&mut self) -> u8 {
        if !self.device.valid() {
            return 0xFF;
        }
        match &mut self.transaction.phase {
            Phase::Clocked { reply, count } => {
                let byte = reply.get(*count).copied().unwrap_or(0xFF);
                *count += 1;
                byte
            }
            phase => {
                *phase = Phase::Broken;
                0xFF
            }
        }
    }

    /// STOP: the answer, and the effect of the transaction on the device as it is now.
    pub fn stop(&mut self) -> u8 {
        if !self.device.valid() {
            return 15;
        }
        let answer = match self.transaction.phase {
            Phase::Written => self.device.write(&self.transaction.bytes),
            Phase::Clocked { count, .. } => self
                .device
                .read(&self.transaction.bytes, &mut vec![0; count]),
            Phase::Idle | Phase::Turned | Phase::Broken => 2,
        };
        self.transaction.begin(Phase::Idle);
        answer
    }

    /// A measurement of a quantity on a page.
    pub fn measure(&mut self, page: u8, quantity: u8, word: u16) -> u8 {
        self.device.measure(page, quantity, word)
    }

    /// A power sample.
    pub fn sample(&mut self, sample: u16) -> u8 {
        self.device.sample(sample)
    }

    /// A tick.
    pub fn tick(&mut self) -> u8 {
        self.device.tick()
    }

    /// An alert response.
    pub fn alert_response(&mut self, reply: &mut [u8]) -> u8 {
        self.device.alert_response(reply)
    }

    /// Whether the next byte after START is the address byte, a code of the table, or
    /// data or PEC of that code in the table's count, whichever way the code goes and
    /// for a process call too; none for one beyond that.
    fn expected(&self, byte: u8) -> Option<bool> {
        match self.transaction.bytes[..] {
            [] => Some(byte == WRITE_ADDRESS),
            [_] => Some(command::lookup(byte).is_some()),
            [_, code, ref data @ ..] => match command::lookup(code) {
                Some(command) if data.len() > command.data => None,
                _ => Some(true),
            },
        }
    }

    /// Makes the reply from the device as it is, without effect on it. A reply of any
    /// number of bytes is the beginning of this one, continued with FFh.
    fn begin_reply(&mut self) {
        let (mut device, mut reply) = (self.device, [0xFF; REPLY]);
        device.read(&self.transaction.bytes, &mut reply);
        self.transaction.phase = Phase::Clocked { reply, count: 0 };
    }
}
