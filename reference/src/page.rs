//! One page, one supply: its fields, its causes, what an accepted write does to it
//! and whether it supplies (data sheet, sections 6 and 7).

use crate::command::code;
use crate::format::Format;
use crate::linear11;
use crate::machine::{self, Machine};
use std::cmp::Ordering;

// Quantities, which are also the places of the status registers 7Ah to 7Dh.
pub const VOUT: usize = 0;
pub const IOUT: usize = 1;
pub const VIN: usize = 2;
pub const TEMPERATURE: usize = 3;

// Causes, in the order of their limit codes 40, 46, 4F, 53, 55, 59.
pub const VOUT_OV: usize = 0;
pub const IOUT_OC: usize = 1;
pub const OT: usize = 2;
pub const UT: usize = 3;
pub const VIN_OV: usize = 4;
pub const VIN_UV: usize = 5;

/// A limit that a quantity is held against: where it is written, what makes its
/// cause or warning present and which bit that sets.
struct Watch {
    limit: u8,
    quantity: usize,
    /// The side of the limit on which the measurement must strictly lie.
    side: Ordering,
    bit: u8,
}

const fn watch(limit: u8, quantity: usize, side: Ordering, bit: u8) -> Watch {
    Watch {
        limit,
        quantity,
        side,
        bit,
    }
}

const ABOVE: Ordering = Ordering::Greater;
const BELOW: Ordering = Ordering::Less;

const CAUSES: [Watch; 6] = [
    watch(code::VOUT_OV_FAULT_LIMIT, VOUT, ABOVE, 0x80),
    watch(code::IOUT_OC_FAULT_LIMIT, IOUT, ABOVE, 0x80),
    watch(code::OT_FAULT_LIMIT, TEMPERATURE, ABOVE, 0x80),
    watch(code::UT_FAULT_LIMIT, TEMPERATURE, BELOW, 0x10),
    watch(code::VIN_OV_FAULT_LIMIT, VIN, ABOVE, 0x80),
    watch(code::VIN_UV_FAULT_LIMIT, VIN, BELOW, 0x10),
];

/// Warnings: they set their bits like causes but have no response.
const WARNINGS: [Watch; 5] = [
    watch(code::VOUT_OV_WARN_LIMIT, VOUT, ABOVE, 0x40),
    watch(code::IOUT_OC_WARN_LIMIT, IOUT, ABOVE, 0x20),
    watch(code::OT_WARN_LIMIT, TEMPERATURE, ABOVE, 0x40),
    watch(code::VIN_OV_WARN_LIMIT, VIN, ABOVE, 0x40),
    watch(code::VIN_UV_WARN_LIMIT, VIN, BELOW, 0x20),
];

/// The causes whose limits the warnings start with, in the order of the warnings.
const WARNED: [usize; 5] = [VOUT_OV, IOUT_OC, OT, VIN_OV, VIN_UV];

/// The causes that have a machine, in the order of the machines. IOUT_OC has none.
const MACHINED: [usize; 5] = [VOUT_OV, OT, UT, VIN_OV, VIN_UV];

/// Whether a byte is a response to a cause. That to IOUT_OC has the action codes of
/// section 10.5.2, of which 00h (go on) and C0h (shut down, stay off) are taken; the
/// others have all of section 10.5.1.
fn response_valid(cause: usize, response: u8) -> bool {
    cause != IOUT_OC || matches!(response, 0x00 | 0xC0)
}

/// The cause whose limit is at `code`.
fn limit_of(code: u8) -> Option<usize> {
    CAUSES.iter().position(|cause| cause.limit == code)
}

/// The warning whose limit is at `code`.
fn warn_limit_of(code: u8) -> Option<usize> {
    WARNINGS.iter().position(|warning| warning.limit == code)
}

/// The cause whose response is at `code`.
fn response_of(code: u8) -> Option<usize> {
    match code {
        code::VOUT_OV_FAULT_RESPONSE => Some(VOUT_OV),
        code::IOUT_OC_FAULT_RESPONSE => Some(IOUT_OC),
        code::OT_FAULT_RESPONSE => Some(OT),
        code::UT_FAULT_RESPONSE => Some(UT),
        code::VIN_OV_FAULT_RESPONSE => Some(VIN_OV),
        code::VIN_UV_FAULT_RESPONSE => Some(VIN_UV),
        _ => None,
    }
}

/// The quantity whose latest word is read at `code`.
fn read_of(code: u8) -> Option<usize> {
    match code {
        code::READ_VIN => Some(VIN),
        code::READ_VOUT => Some(VOUT),
        code::READ_IOUT => Some(IOUT),
        code::READ_TEMPERATURE_1 => Some(TEMPERATURE),
        _ => None,
    }
}

/// The quantity whose limit, of a cause or a warning, is at `code`.
fn limited_by(code: u8) -> Option<usize> {
    let mut watches = CAUSES.iter().chain(&WARNINGS);
    let found = watches.find(|watch| watch.limit == code);
    found.map(|watch| watch.quantity)
}

// The second byte of COEFFICIENTS: what the host wants to do with them.
const ENCODE: u8 = 0x00;
const DECODE: u8 = 0x01;

/// The status register at `code`, by quantity.
fn register_of(code: u8) -> Option<usize> {
    match code {
        code::STATUS_VOUT => Some(VOUT),
        code::STATUS_IOUT => Some(IOUT),
        code::STATUS_INPUT => Some(VIN),
        code::STATUS_TEMPERATURE => Some(TEMPERATURE),
        _ => None,
    }
}

fn operation_valid(data: u8) -> bool {
    matches!(data, 0x00 | 0x40 | 0x80)
}

/// The latest measurement of one quantity. Without `measured`, `word` has no
/// meaning: it reads as 0000h and makes no cause present.
#[derive(Clone, Copy, Debug, Default, PartialEq, Eq)]
pub struct Reading {
    pub measured: bool,
    pub word: u16,
}

/// What power-on is told of a page: the formats of its quantities, and limits for those
/// that are DIRECT.
#[derive(Clone, Copy, Debug, Default, PartialEq, Eq)]
pub struct Choice {
    /// IOUT, VIN, temperature.
    pub formats: [Format; 3],
    /// By cause. That of VOUT_OV, and those of linear quantities, are ignored.
    pub limits: [u16; 6],
}

impl Choice {
    pub(crate) fn valid(&self) -> bool {
        self.formats.iter().all(Format::valid)
    }
}

/// The limits of linear quantities at power-on, by cause.
const LINEAR_LIMITS: [u16; 6] = [0x2A3D, 0xD280, 0xEB70, 0xEEC0, 0xD3FF, 0xC3F5];

/// One page: one supply.
#[derive(Clone, Copy, Debug, PartialEq, Eq)]
pub struct Page {
    pub operation: u8,
    pub vout_command: u16,
    /// By cause: VOUT_OV, IOUT_OC, OT, UT, VIN_OV, VIN_UV.
    pub limits: [u16; 6],
    /// By cause, as the limits.
    pub responses: [u8; 6],
    /// By warning: VOUT_OV, IOUT_OC, OT, VIN_OV, VIN_UV.
    pub warn_limits: [u16; 5],
    /// By quantity: STATUS_VOUT, STATUS_IOUT, STATUS_INPUT, STATUS_TEMPERATURE.
    pub status: [u8; 4],
    pub tripped: bool,
    /// By cause that has one: VOUT_OV, OT, UT, VIN_OV, VIN_UV.
    pub machines: [Machine; 5],
    /// By quantity: VOUT, IOUT, VIN, temperature.
    pub readings: [Reading; 4],
    /// IOUT, VIN, temperature; VOUT has none. Power-on chooses them, nothing else does.
    pub formats: [Format; 3],
}

impl Page {
    /// A page at power-on, with all quantities linear.
    pub fn power_on() -> Page {
        Page::power_on_with(&Choice::default())
    }

    /// A page at power-on as chosen.
    pub fn power_on_with(choice: &Choice) -> Page {
        let mut page = Page {
            operation: 0x00,
            vout_command: 0x2666,
            limits: LINEAR_LIMITS,
            responses: [0x80, 0xC0, 0x80, 0x80, 0x80, 0x80],
            warn_limits: [0; 5],
            status: [0; 4],
            tripped: false,
            machines: [Machine::AT_REST; 5],
            readings: [Reading::default(); 4],
            formats: choice.formats,
        };
        for (cause, watch) in CAUSES.iter().enumerate() {
            if page.format(watch.quantity).direct {
                page.limits[cause] = choice.limits[cause];
            }
        }
        page.warn_limits = WARNED.map(|cause| page.limits[cause]);
        page
    }

    /// Whether OPERATION, the six responses and the formats are valid and each machine
    /// has a value that occurs.
    pub fn valid(&self) -> bool {
        operation_valid(self.operation)
            && (0..6).all(|cause| response_valid(cause, self.responses[cause]))
            && self.machines.iter().all(Machine::valid)
            && self.formats.iter().all(Format::valid)
    }

    /// The format of a quantity; VOUT is linear, in a way of its own.
    fn format(&self, quantity: usize) -> Format {
        match quantity {
            VOUT => Format::LINEAR,
            _ => self.formats[quantity - IOUT],
        }
    }

    /// Whether a cause is present (data sheet 6.2).
    pub fn present(&self, cause: usize) -> bool {
        self.past(&CAUSES[cause], self.limits[cause])
    }

    /// Whether a warning is present: as a cause, by its own limit.
    pub fn warned(&self, warning: usize) -> bool {
        self.past(&WARNINGS[warning], self.warn_limits[warning])
    }

    /// Whether the latest measurement lies strictly past a limit. Word and limit have
    /// the quantity's format, valid or not.
    fn past(&self, watch: &Watch, limit: u16) -> bool {
        let reading = self.readings[watch.quantity];
        let format = self.format(watch.quantity);
        let place = match watch.quantity {
            VOUT => linear11::order_vout(reading.word, limit),
            _ => format.order_of(reading.word, limit),
        };
        reading.measured && place == watch.side
    }

    /// Whether some present cause has the action "off while the fault lasts".
    fn off_for_now(&self) -> bool {
        let off = |&cause: &usize| self.present(cause) && self.responses[cause] >= 0xC0;
        MACHINED.iter().any(off)
    }

    /// Whether the page supplies: data sheet 7.6, and no machine holds it.
    pub fn supplies(&self) -> bool {
        self.operation == 0x80
            && !self.tripped
            && !self.off_for_now()
            && !self.machines.iter().any(Machine::holds)
    }

    /// Sets the bits of the present causes and warnings, then sees to what the causes
    /// do to the page. Tells whether a bit rose.
    pub(crate) fn bring_up_to_date(&mut self) -> bool {
        let before = self.status;
        for (index, cause) in CAUSES.iter().enumerate() {
            if self.present(index) {
                self.status[cause.quantity] |= cause.bit;
            }
        }
        for (index, warning) in WARNINGS.iter().enumerate() {
            if self.warned(index) {
                self.status[warning.quantity] |= warning.bit;
            }
        }
        self.answer_causes();
        self.status != before
    }

    /// One tick: every machine steps, then what no run leaves undone is done, the
    /// status bits aside.
    pub(crate) fn tick(&mut self) {
        self.step(Machine::after_tick);
        self.answer_causes();
    }

    /// Starts the machines of present causes, and trips the page where IOUT_OC is
    /// present with its response "shut down, stay off".
    fn answer_causes(&mut self) {
        self.step(Machine::after_call);
        if self.present(IOUT_OC) && self.responses[IOUT_OC] == 0xC0 {
            self.tripped = true;
        }
    }

    /// Takes each machine one step; one that trips, trips the page.
    fn step(&mut self, step: fn(Machine, u8, bool) -> Machine) {
        for (index, cause) in MACHINED.into_iter().enumerate() {
            let before = self.machines[index];
            let after = step(before, self.responses[cause], self.present(cause));
            self.machines[index] = after;
            if after.phase == machine::TRIPPED && before.phase != machine::TRIPPED {
                self.tripped = true;
            }
        }
    }

    /// The latest word of a quantity, or 0000h.
    fn latest(&self, quantity: usize) -> u16 {
        let reading = self.readings[quantity];
        if reading.measured {
            reading.word
        } else {
            0
        }
    }

    /// The data of a readable paged code.
    pub(crate) fn data(&self, code: u8, cml: u8) -> Vec<u8> {
        match code {
            code::OPERATION => vec![self.operation],
            code::VOUT_COMMAND => bytes(self.vout_command),
            code::STATUS_BYTE => vec![self.status_byte(cml)],
            code::STATUS_WORD => bytes(self.status_word(cml)),
            _ => {
                if let Some(register) = register_of(code) {
                    vec![self.status[register]]
                } else if let Some(quantity) = read_of(code) {
                    bytes(self.latest(quantity))
                } else if let Some(cause) = limit_of(code) {
                    bytes(self.limits[cause])
                } else if let Some(warning) = warn_limit_of(code) {
                    bytes(self.warn_limits[warning])
                } else if let Some(cause) = response_of(code) {
                    vec![self.responses[cause]]
                } else {
                    unreachable!("code {code:02x} is not read")
                }
            }
        }
    }

    /// The coefficients of a code for a direction, or none: only limits and READ codes
    /// of DIRECT quantities have them, and a READ code only to decode.
    pub(crate) fn coefficients(&self, code: u8, direction: u8) -> Option<Format> {
        let quantity = match direction {
            DECODE => limited_by(code).or(read_of(code)),
            ENCODE => limited_by(code),
            _ => None,
        };
        Some(self.format(quantity?)).filter(|format| format.direct)
    }

    fn status_byte(&self, cml: u8) -> u8 {
        let [vout, iout, input, temperature] = self.status;
        let other = (vout & !0x80) | (iout & !0xC0) | (input & !0x10);
        u8::from(!self.supplies()) << 6
            | u8::from(vout & 0x80 != 0) << 5
            | u8::from(iout & 0xC0 != 0) << 4
            | u8::from(input & 0x10 != 0) << 3
            | u8::from(temperature != 0) << 2
            | u8::from(cml != 0) << 1
            | u8::from(other != 0)
    }

    /// Low byte STATUS_BYTE, high byte bits 7, 6, 5 and 3.
    fn status_word(&self, cml: u8) -> u16 {
        let [vout, iout, input, _] = self.status;
        let high = u8::from(vout != 0) << 7
            | u8::from(iout != 0) << 6
            | u8::from(input != 0) << 5
            | u8::from(!self.supplies()) << 3;
        u16::from_le_bytes([self.status_byte(cml), high])
    }

    /// Carries out an accepted write of a paged command. What it clears of a present
    /// cause comes back when the page is brought up to date.
    pub(crate) fn store(&mut self, code: u8, data: &[u8]) {
        if code == code::CLEAR_FAULTS {
            self.status = [0; 4];
        } else if let Some(register) = register_of(code) {
            // Each 1 clears its bit, each 0 spares it.
            self.status[register] &= !data[0];
        } else if let Some(cause) = limit_of(code) {
            self.limits[cause] = word(data);
        } else if let Some(warning) = warn_limit_of(code) {
            self.warn_limits[warning] = word(data);
        } else if let Some(cause) = response_of(code) {
            // Also the same byte puts the machine to rest. It does not untrip.
            self.responses[cause] = data[0];
            if let Some(index) = MACHINED.iter().position(|&own| own == cause) {
                self.machines[index] = Machine::AT_REST;
            }
        } else if code == code::VOUT_COMMAND {
            self.vout_command = word(data);
        } else if code == code::OPERATION {
            self.operation = data[0];
            // 00h and 40h put every machine to rest and untrip; a cause still present
            // starts its machine or trips again afterwards.
            if data[0] != 0x80 {
                self.machines = [Machine::AT_REST; 5];
                self.tripped = false;
            }
        }
    }
}

/// Whether the data of a paged code are valid. Words and ones that clear: any.
pub(crate) fn data_valid(code: u8, data: &[u8]) -> bool {
    match (code, response_of(code)) {
        (code::OPERATION, _) => operation_valid(data[0]),
        (_, Some(cause)) => response_valid(cause, data[0]),
        _ => true,
    }
}

/// A word from its two bytes, low byte first.
fn word(data: &[u8]) -> u16 {
    u16::from_le_bytes([data[0], data[1]])
}

/// The two bytes of a word, low byte first.
fn bytes(word: u16) -> Vec<u8> {
    word.to_le_bytes().to_vec()
}
