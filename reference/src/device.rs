//! The device of eight pages at address 60h: its state and its calls. The rules are
//! those of the device with lent records, for eight of them.
//!
//! A state may hold any field values. The fields are wide enough for those that
//! get answer 15.

use crate::lent::{self, Unpaged};

pub use crate::account::Account;
pub use crate::format::Format;
pub use crate::lent::{ALL_PAGES, READ_ADDRESS, WRITE_ADDRESS};
pub use crate::machine::Machine;
pub use crate::page::{
    Choice, Page, Reading, IOUT, IOUT_OC, OT, TEMPERATURE, UT, VIN, VIN_OV, VIN_UV, VOUT, VOUT_OV,
};

/// The whole device.
#[derive(Clone, Copy, Debug, PartialEq, Eq)]
pub struct Device {
    pub page: u8,
    pub protect: u8,
    pub cml: u8,
    pub alert: bool,
    pub account: Account,
    pub pages: [Page; 8],
}

impl Device {
    /// Power-on of the all-linear device.
    pub fn power_on() -> Device {
        Device::power_on_with(&[Choice::default(); 8]).0
    }

    /// Power-on with a choice for each page: answer 0, or 27 and an all-linear device.
    pub fn power_on_with(choices: &[Choice; 8]) -> (Device, u8) {
        let mut pages = [Page::power_on(); 8];
        let (unpaged, answer) = lent::power_on_with(&mut pages, choices);
        (Device::from_parts(unpaged, pages), answer)
    }

    fn unpaged(&self) -> Unpaged {
        Unpaged {
            page: self.page,
            protect: self.protect,
            cml: self.cml,
            alert: self.alert,
            account: self.account,
        }
    }

    /// The unpaged part and the eight records, to lend them.
    pub fn lend(&self) -> (Unpaged, [Page; 8]) {
        (self.unpaged(), self.pages)
    }

    /// The device of an unpaged part and eight records.
    pub fn from_parts(unpaged: Unpaged, pages: [Page; 8]) -> Device {
        Device {
            page: unpaged.page,
            protect: unpaged.protect,
            cml: unpaged.cml,
            alert: unpaged.alert,
            account: unpaged.account,
            pages,
        }
    }

    /// One call with the eight records lent, where they stand.
    fn call(&mut self, call: impl FnOnce(&mut Unpaged, &mut [Page]) -> u8) -> u8 {
        let mut unpaged = self.unpaged();
        let answer = call(&mut unpaged, &mut self.pages);
        self.page = unpaged.page;
        self.protect = unpaged.protect;
        self.cml = unpaged.cml;
        self.alert = unpaged.alert;
        self.account = unpaged.account;
        answer
    }

    /// False for the states that get answer 15.
    pub fn valid(&self) -> bool {
        lent::valid(&self.unpaged(), &self.pages)
    }

    /// A write transaction: the bytes from START to STOP.
    pub fn write(&mut self, bytes: &[u8]) -> u8 {
        self.call(|unpaged, pages| lent::write(unpaged, pages, bytes))
    }

    /// A read transaction: its header, and a reply buffer as long as the number
    /// of bytes the host clocks.
    pub fn read(&mut self, header: &[u8], reply: &mut [u8]) -> u8 {
        self.call(|unpaged, pages| lent::read(unpaged, pages, header, reply))
    }

    /// A measurement of a quantity on a page.
    pub fn measure(&mut self, page: u8, quantity: u8, word: u16) -> u8 {
        self.call(|unpaged, pages| lent::measure(unpaged, pages, page, quantity, word))
    }

    /// A power sample.
    pub fn sample(&mut self, sample: u16) -> u8 {
        self.call(|unpaged, pages| lent::sample(unpaged, pages, sample))
    }

    /// An alert response; the reply buffer is as long as the host clocks.
    pub fn alert_response(&mut self, reply: &mut [u8]) -> u8 {
        self.call(|unpaged, pages| lent::alert_response(unpaged, pages, reply))
    }

    /// A tick: one delay unit for every page.
    pub fn tick(&mut self) -> u8 {
        self.call(|unpaged, pages| lent::tick(unpaged, pages))
    }
}
