//! The thirty-eight command codes (data sheet 3.1). The status registers 7A to 7E are
//! written too: ones clear. COEFFICIENTS is neither written nor read: it is a process
//! call, which writes and reads in one transaction.

use Access::{Call, Read, ReadWrite, Write};

/// The codes by name.
pub mod code {
    pub const PAGE: u8 = 0x00;
    pub const OPERATION: u8 = 0x01;
    pub const CLEAR_FAULTS: u8 = 0x03;
    pub const WRITE_PROTECT: u8 = 0x10;
    pub const CAPABILITY: u8 = 0x19;
    pub const VOUT_MODE: u8 = 0x20;
    pub const VOUT_COMMAND: u8 = 0x21;
    pub const COEFFICIENTS: u8 = 0x30;
    pub const VOUT_OV_FAULT_LIMIT: u8 = 0x40;
    pub const VOUT_OV_FAULT_RESPONSE: u8 = 0x41;
    pub const VOUT_OV_WARN_LIMIT: u8 = 0x42;
    pub const IOUT_OC_FAULT_LIMIT: u8 = 0x46;
    pub const IOUT_OC_FAULT_RESPONSE: u8 = 0x47;
    pub const IOUT_OC_WARN_LIMIT: u8 = 0x4A;
    pub const OT_FAULT_LIMIT: u8 = 0x4F;
    pub const OT_FAULT_RESPONSE: u8 = 0x50;
    pub const OT_WARN_LIMIT: u8 = 0x51;
    pub const UT_FAULT_LIMIT: u8 = 0x53;
    pub const UT_FAULT_RESPONSE: u8 = 0x54;
    pub const VIN_OV_FAULT_LIMIT: u8 = 0x55;
    pub const VIN_OV_FAULT_RESPONSE: u8 = 0x56;
    pub const VIN_OV_WARN_LIMIT: u8 = 0x57;
    pub const VIN_UV_WARN_LIMIT: u8 = 0x58;
    pub const VIN_UV_FAULT_LIMIT: u8 = 0x59;
    pub const VIN_UV_FAULT_RESPONSE: u8 = 0x5A;
    pub const STATUS_BYTE: u8 = 0x78;
    pub const STATUS_WORD: u8 = 0x79;
    pub const STATUS_VOUT: u8 = 0x7A;
    pub const STATUS_IOUT: u8 = 0x7B;
    pub const STATUS_INPUT: u8 = 0x7C;
    pub const STATUS_TEMPERATURE: u8 = 0x7D;
    pub const STATUS_CML: u8 = 0x7E;
    pub const READ_EIN: u8 = 0x86;
    pub const READ_VIN: u8 = 0x88;
    pub const READ_VOUT: u8 = 0x8B;
    pub const READ_IOUT: u8 = 0x8C;
    pub const READ_TEMPERATURE_1: u8 = 0x8D;
    pub const PMBUS_REVISION: u8 = 0x98;
}

/// Which transactions a code takes.
#[derive(Clone, Copy, Debug, PartialEq, Eq)]
pub enum Access {
    Read,
    Write,
    ReadWrite,
    Call,
}

/// One row of the table.
#[derive(Clone, Copy, Debug, PartialEq, Eq)]
pub struct Command {
    pub code: u8,
    pub access: Access,
    /// Number of data bytes, PEC not counted. For a process call those written behind
    /// the code: the byte count, and as many as it says.
    pub data: usize,
}

impl Command {
    pub fn written(&self) -> bool {
        matches!(self.access, Write | ReadWrite)
    }

    pub fn read(&self) -> bool {
        matches!(self.access, Read | ReadWrite)
    }

    /// Whether the code acts on the selected page (CLEAR_FAULTS on CML as well).
    pub fn paged(&self) -> bool {
        use code::*;
        !matches!(
            self.code,
            PAGE | WRITE_PROTECT | CAPABILITY | VOUT_MODE | STATUS_CML | READ_EIN | PMBUS_REVISION
        )
    }
}

const fn row(code: u8, access: Access, data: usize) -> Command {
    Command { code, access, data }
}

pub const TABLE: [Command; 38] = [
    row(code::PAGE, ReadWrite, 1),
    row(code::OPERATION, ReadWrite, 1),
    row(code::CLEAR_FAULTS, Write, 0),
    row(code::WRITE_PROTECT, ReadWrite, 1),
    row(code::CAPABILITY, Read, 1),
    row(code::VOUT_MODE, Read, 1),
    row(code::VOUT_COMMAND, ReadWrite, 2),
    row(code::COEFFICIENTS, Call, 3),
    row(code::VOUT_OV_FAULT_LIMIT, ReadWrite, 2),
    row(code::VOUT_OV_FAULT_RESPONSE, ReadWrite, 1),
    row(code::VOUT_OV_WARN_LIMIT, ReadWrite, 2),
    row(code::IOUT_OC_FAULT_LIMIT, ReadWrite, 2),
    row(code::IOUT_OC_FAULT_RESPONSE, ReadWrite, 1),
    row(code::IOUT_OC_WARN_LIMIT, ReadWrite, 2),
    row(code::OT_FAULT_LIMIT, ReadWrite, 2),
    row(code::OT_FAULT_RESPONSE, ReadWrite, 1),
    row(code::OT_WARN_LIMIT, ReadWrite, 2),
    row(code::UT_FAULT_LIMIT, ReadWrite, 2),
    row(code::UT_FAULT_RESPONSE, ReadWrite, 1),
    row(code::VIN_OV_FAULT_LIMIT, ReadWrite, 2),
    row(code::VIN_OV_FAULT_RESPONSE, ReadWrite, 1),
    row(code::VIN_OV_WARN_LIMIT, ReadWrite, 2),
    row(code::VIN_UV_WARN_LIMIT, ReadWrite, 2),
    row(code::VIN_UV_FAULT_LIMIT, ReadWrite, 2),
    row(code::VIN_UV_FAULT_RESPONSE, ReadWrite, 1),
    row(code::STATUS_BYTE, Read, 1),
    row(code::STATUS_WORD, Read, 2),
    row(code::STATUS_VOUT, ReadWrite, 1),
    row(code::STATUS_IOUT, ReadWrite, 1),
    row(code::STATUS_INPUT, ReadWrite, 1),
    row(code::STATUS_TEMPERATURE, ReadWrite, 1),
    row(code::STATUS_CML, ReadWrite, 1),
    row(code::READ_EIN, Read, 7),
    row(code::READ_VIN, Read, 2),
    row(code::READ_VOUT, Read, 2),
    row(code::READ_IOUT, Read, 2),
    row(code::READ_TEMPERATURE_1, Read, 2),
    row(code::PMBUS_REVISION, Read, 1),
];

/// The row of `code`, or none when the code is absent.
pub fn lookup(code: u8) -> Option<&'static Command> {
    TABLE.iter().find(|command| command.code == code)
}
