//! libtongsorrel.a, liblent.a and libhost.a: their structs and functions, declared as include/tongsorrel.h declares them, each function
//! behind a safe one. A slice crosses as a pointer and a length, a struct by value.

/// The energy account.
#[repr(C)]
#[derive(Clone, Copy, Debug, PartialEq, Eq)]
pub struct Account {
    pub accumulator: u16,
    pub rollover: u16,
    pub count: u32,
}

/// What the device holds beside its pages.
#[repr(C)]
#[derive(Clone, Copy, Debug, PartialEq, Eq)]
pub struct Unpaged {
    pub page: u8,
    pub protect: u8,
    pub cml: u8,
    pub alert: bool,
    pub energy: Account,
}

/// The format of a quantity's words: Linear11, or DIRECT with m, b and r in two's complement.
#[repr(C)]
#[derive(Clone, Copy, Debug, PartialEq, Eq)]
pub struct Format {
    pub direct: bool,
    pub m: u16,
    pub b: u16,
    pub r: u8,
}

/// The first six limits are those of the causes, the others those of the warnings. Formats are those of IOUT, VIN and temperature.
#[repr(C)]
#[derive(Clone, Copy, Debug, PartialEq, Eq)]
pub struct Page {
    pub operation: u8,
    pub command: u16,
    pub limits: [u16; 11],
    pub responses: [u8; 6],
    pub machines: [u8; 6],
    pub words: [u16; 4],
    pub measured: [bool; 4],
    pub status: [u8; 4],
    pub tripped: bool,
    pub formats: [Format; 3],
}

/// What is chosen for a page at power-on: formats, and fault limits by cause.
#[repr(C)]
#[derive(Clone, Copy, Debug, PartialEq, Eq)]
pub struct PageChoice {
    pub formats: [Format; 3],
    pub limits: [u16; 6],
}

#[repr(C)]
#[derive(Clone, Copy, Debug, PartialEq, Eq)]
pub struct Choices {
    pub pages: [PageChoice; 8],
}

/// How one value stands to another: 0 below, 1 equal, 2 above.
#[repr(C)]
#[derive(Clone, Copy, Debug, PartialEq, Eq)]
pub struct Compared {
    pub answer: u8,
    pub order: u8,
}

#[repr(C)]
#[derive(Clone, Copy, Debug, PartialEq, Eq)]
pub struct Device {
    pub unpaged: Unpaged,
    pub pages: [Page; 8],
}

/// The state after a call, and its answer number.
#[repr(C)]
#[derive(Clone, Copy, Debug, PartialEq, Eq)]
pub struct Done {
    pub device: Device,
    pub answer: u8,
}

/// What a call over lent records hands back: the unpaged part, and the answer number.
#[repr(C)]
#[derive(Clone, Copy, Debug, PartialEq, Eq)]
pub struct Outcome {
    pub unpaged: Unpaged,
    pub answer: u8,
}

#[repr(C)]
#[derive(Clone, Copy, Debug, PartialEq, Eq)]
pub struct Totalizer {
    pub started: bool,
    pub closed: bool,
    pub last: Account,
    pub energy: u64,
    pub samples: u64,
}

/// The totalizer after a reply, and the answer number.
#[repr(C)]
#[derive(Clone, Copy, Debug, PartialEq, Eq)]
pub struct Taken {
    pub totalizer: Totalizer,
    pub answer: u8,
}

/// A frame that the host built: the answer, the bytes of the frame, and for a read the bytes to clock.
#[repr(C)]
#[derive(Clone, Copy, Debug, PartialEq, Eq)]
pub struct Built {
    pub answer: u8,
    pub length: usize,
    pub count: usize,
}

/// A reply that the host read: the answer, and the field that its code has.
#[repr(C)]
#[derive(Clone, Copy, Debug, PartialEq, Eq)]
pub struct Reply {
    pub answer: u8,
    pub byte: u8,
    pub word: u16,
    pub account: Account,
}

/// A word made of thousandths; 0000h under a refusal.
#[repr(C)]
#[derive(Clone, Copy, Debug, PartialEq, Eq)]
pub struct Converted {
    pub answer: u8,
    pub word: u16,
}

mod archive {
    use super::{
        Built, Choices, Compared, Converted, Device, Done, Format, Outcome, Page, PageChoice,
        Reply, Taken, Totalizer, Unpaged,
    };

    extern "C" {
        pub fn tongsorrel_pec(bytes: *const u8, length: usize) -> u8;
        pub fn tongsorrel_pec_from(crc: u8, bytes: *const u8, length: usize) -> u8;
        pub fn tongsorrel_linear11_scaled(word: u16) -> i64;
        pub fn tongsorrel_linear11_compare(a: u16, b: u16) -> u8;
        pub fn tongsorrel_compare(f: Format, a: u16, g: Format, b: u16) -> Compared;
        pub fn tongsorrel_power_on() -> Device;
        pub fn tongsorrel_power_on_by(choices: Choices) -> Done;
        pub fn tongsorrel_write(d: Device, bytes: *const u8, length: usize) -> Done;
        pub fn tongsorrel_read(
            d: Device,
            header: *const u8,
            header_length: usize,
            reply: *mut u8,
            n: usize,
        ) -> Done;
        pub fn tongsorrel_measure(d: Device, page: u8, quantity: u8, word: u16) -> Done;
        pub fn tongsorrel_sample(d: Device, sample: u16) -> Done;
        pub fn tongsorrel_tick(d: Device) -> Done;
        pub fn tongsorrel_alert_response(d: Device, reply: *mut u8, n: usize) -> Done;
        pub fn tongsorrel_supplies(d: Device, page: u8) -> bool;
        pub fn tongsorrel_lent_power_on(pages: *mut Page, number: usize) -> Outcome;
        pub fn tongsorrel_lent_power_on_by(
            pages: *mut Page,
            number: usize,
            choices: *const PageChoice,
            number_of_choices: usize,
        ) -> Outcome;
        pub fn tongsorrel_lent_write(
            u: Unpaged,
            pages: *mut Page,
            number: usize,
            bytes: *const u8,
            length: usize,
        ) -> Outcome;
        pub fn tongsorrel_lent_read(
            u: Unpaged,
            pages: *const Page,
            number: usize,
            header: *const u8,
            header_length: usize,
            reply: *mut u8,
            n: usize,
        ) -> Outcome;
        pub fn tongsorrel_lent_measure(
            u: Unpaged,
            pages: *mut Page,
            number: usize,
            page: u8,
            quantity: u8,
            word: u16,
        ) -> Outcome;
        pub fn tongsorrel_lent_sample(
            u: Unpaged,
            pages: *const Page,
            number: usize,
            sample: u16,
        ) -> Outcome;
        pub fn tongsorrel_lent_tick(u: Unpaged, pages: *mut Page, number: usize) -> Outcome;
        pub fn tongsorrel_lent_alert_response(
            u: Unpaged,
            pages: *const Page,
            number: usize,
            reply: *mut u8,
            n: usize,
        ) -> Outcome;
        pub fn tongsorrel_lent_supplies(pages: *const Page, number: usize, page: u8) -> bool;
        pub fn tongsorrel_stream_power_on(state: *mut u8, length: usize) -> u8;
        pub fn tongsorrel_stream_power_on_by(
            state: *mut u8,
            length: usize,
            choices: *const u8,
            length_of_choices: usize,
        ) -> u8;
        pub fn tongsorrel_stream_start(state: *mut u8, length: usize) -> u8;
        pub fn tongsorrel_stream_byte(state: *mut u8, length: usize, byte: u8) -> u8;
        pub fn tongsorrel_stream_repeated_start(state: *mut u8, length: usize) -> u8;
        pub fn tongsorrel_stream_clock(state: *mut u8, length: usize) -> u8;
        pub fn tongsorrel_stream_stop(state: *mut u8, length: usize) -> u8;
        pub fn tongsorrel_stream_measure(
            state: *mut u8,
            length: usize,
            page: u8,
            quantity: u8,
            word: u16,
        ) -> u8;
        pub fn tongsorrel_stream_sample(state: *mut u8, length: usize, sample: u16) -> u8;
        pub fn tongsorrel_stream_tick(state: *mut u8, length: usize) -> u8;
        pub fn tongsorrel_stream_alert_response(
            state: *mut u8,
            length: usize,
            reply: *mut u8,
            n: usize,
        ) -> u8;
        pub fn tongsorrel_stream_supplies(state: *const u8, length: usize, page: u8) -> u8;
        pub fn tongsorrel_stream_alert(state: *const u8, length: usize) -> u8;
        pub fn tongsorrel_totalizer_fresh() -> Totalizer;
        pub fn tongsorrel_totalizer_take(t: Totalizer, reply: *const u8, length: usize) -> Taken;
        pub fn tongsorrel_host_write(
            buffer: *mut u8,
            size: usize,
            place: usize,
            code: u8,
            bytes: *const u8,
            number: usize,
            check: bool,
        ) -> Built;
        pub fn tongsorrel_host_read(
            buffer: *mut u8,
            size: usize,
            place: usize,
            code: u8,
            check: bool,
        ) -> Built;
        pub fn tongsorrel_host_reply(
            code: u8,
            check: bool,
            reply: *const u8,
            length: usize,
        ) -> Reply;
        pub fn tongsorrel_host_totalizer_fresh() -> Totalizer;
        pub fn tongsorrel_host_totalizer_take(
            t: Totalizer,
            code: u8,
            reply: *const u8,
            length: usize,
        ) -> Taken;
        pub fn tongsorrel_host_from_thousandths(count: i64) -> Converted;
        pub fn tongsorrel_host_to_thousandths(word: u16) -> i64;
        pub fn tongsorrel_host_vout_from_thousandths(count: i64) -> Converted;
        pub fn tongsorrel_host_vout_to_thousandths(word: u16) -> i64;
    }
}

// Each call below hands over a slice's own pointer and length, and plain values: that is all the library asks.

pub fn pec(bytes: &[u8]) -> u8 {
    unsafe { archive::tongsorrel_pec(bytes.as_ptr(), bytes.len()) }
}

pub fn pec_from(crc: u8, bytes: &[u8]) -> u8 {
    unsafe { archive::tongsorrel_pec_from(crc, bytes.as_ptr(), bytes.len()) }
}

pub fn linear11_scaled(word: u16) -> i64 {
    unsafe { archive::tongsorrel_linear11_scaled(word) }
}

/// 0 below, 1 equal, 2 above.
pub fn linear11_compare(a: u16, b: u16) -> u8 {
    unsafe { archive::tongsorrel_linear11_compare(a, b) }
}

pub fn compare((f, a): (Format, u16), (g, b): (Format, u16)) -> Compared {
    unsafe { archive::tongsorrel_compare(f, a, g, b) }
}

pub fn power_on() -> Device {
    unsafe { archive::tongsorrel_power_on() }
}

pub fn power_on_by(pages: [PageChoice; 8]) -> Done {
    unsafe { archive::tongsorrel_power_on_by(Choices { pages }) }
}

pub fn write(d: Device, bytes: &[u8]) -> Done {
    unsafe { archive::tongsorrel_write(d, bytes.as_ptr(), bytes.len()) }
}

pub fn read(d: Device, header: &[u8], reply: &mut [u8]) -> Done {
    unsafe {
        archive::tongsorrel_read(
            d,
            header.as_ptr(),
            header.len(),
            reply.as_mut_ptr(),
            reply.len(),
        )
    }
}

pub fn measure(d: Device, page: u8, quantity: u8, word: u16) -> Done {
    unsafe { archive::tongsorrel_measure(d, page, quantity, word) }
}

pub fn sample(d: Device, sample: u16) -> Done {
    unsafe { archive::tongsorrel_sample(d, sample) }
}

pub fn tick(d: Device) -> Done {
    unsafe { archive::tongsorrel_tick(d) }
}

pub fn alert_response(d: Device, reply: &mut [u8]) -> Done {
    unsafe { archive::tongsorrel_alert_response(d, reply.as_mut_ptr(), reply.len()) }
}

pub fn supplies(d: Device, page: u8) -> bool {
    unsafe { archive::tongsorrel_supplies(d, page) }
}

/// The device over lent records.
pub mod lent {
    use super::{archive, Outcome, Page, PageChoice, Unpaged};

    pub fn power_on(pages: &mut [Page]) -> Outcome {
        unsafe { archive::tongsorrel_lent_power_on(pages.as_mut_ptr(), pages.len()) }
    }

    pub fn power_on_by(pages: &mut [Page], choices: &[PageChoice]) -> Outcome {
        let (records, number) = (pages.as_mut_ptr(), pages.len());
        let (chosen, choices) = (choices.as_ptr(), choices.len());
        unsafe { archive::tongsorrel_lent_power_on_by(records, number, chosen, choices) }
    }

    pub fn write(u: Unpaged, pages: &mut [Page], bytes: &[u8]) -> Outcome {
        let (records, number) = (pages.as_mut_ptr(), pages.len());
        unsafe { archive::tongsorrel_lent_write(u, records, number, bytes.as_ptr(), bytes.len()) }
    }

    pub fn read(u: Unpaged, pages: &[Page], header: &[u8], reply: &mut [u8]) -> Outcome {
        unsafe {
            archive::tongsorrel_lent_read(
                u,
                pages.as_ptr(),
                pages.len(),
                header.as_ptr(),
                header.len(),
                reply.as_mut_ptr(),
                reply.len(),
            )
        }
    }

    pub fn measure(u: Unpaged, pages: &mut [Page], page: u8, quantity: u8, word: u16) -> Outcome {
        let (records, number) = (pages.as_mut_ptr(), pages.len());
        unsafe { archive::tongsorrel_lent_measure(u, records, number, page, quantity, word) }
    }

    pub fn sample(u: Unpaged, pages: &[Page], sample: u16) -> Outcome {
        unsafe { archive::tongsorrel_lent_sample(u, pages.as_ptr(), pages.len(), sample) }
    }

    pub fn tick(u: Unpaged, pages: &mut [Page]) -> Outcome {
        unsafe { archive::tongsorrel_lent_tick(u, pages.as_mut_ptr(), pages.len()) }
    }

    pub fn alert_response(u: Unpaged, pages: &[Page], reply: &mut [u8]) -> Outcome {
        let (records, number) = (pages.as_ptr(), pages.len());
        unsafe {
            archive::tongsorrel_lent_alert_response(
                u,
                records,
                number,
                reply.as_mut_ptr(),
                reply.len(),
            )
        }
    }

    pub fn supplies(pages: &[Page], page: u8) -> bool {
        unsafe { archive::tongsorrel_lent_supplies(pages.as_ptr(), pages.len(), page) }
    }
}

/// The streaming device, whose state is a buffer. What comes back is the number itself, so that none but the right one passes for it.
pub mod stream {
    use super::archive;

    /// Bytes of the buffer.
    pub const SIZE: usize = 610;
    /// Bytes of the choices for eight pages.
    pub const CHOICES: usize = 240;
    pub const NACK: u8 = 0;
    pub const ACK: u8 = 1;

    pub fn power_on(state: &mut [u8]) -> u8 {
        unsafe { archive::tongsorrel_stream_power_on(state.as_mut_ptr(), state.len()) }
    }

    pub fn power_on_by(state: &mut [u8], choices: &[u8]) -> u8 {
        let (bytes, length) = (state.as_mut_ptr(), state.len());
        let (chosen, choices) = (choices.as_ptr(), choices.len());
        unsafe { archive::tongsorrel_stream_power_on_by(bytes, length, chosen, choices) }
    }

    pub fn start(state: &mut [u8]) -> u8 {
        unsafe { archive::tongsorrel_stream_start(state.as_mut_ptr(), state.len()) }
    }

    pub fn byte(state: &mut [u8], byte: u8) -> u8 {
        unsafe { archive::tongsorrel_stream_byte(state.as_mut_ptr(), state.len(), byte) }
    }

    pub fn repeated_start(state: &mut [u8]) -> u8 {
        unsafe { archive::tongsorrel_stream_repeated_start(state.as_mut_ptr(), state.len()) }
    }

    pub fn clock(state: &mut [u8]) -> u8 {
        unsafe { archive::tongsorrel_stream_clock(state.as_mut_ptr(), state.len()) }
    }

    pub fn stop(state: &mut [u8]) -> u8 {
        unsafe { archive::tongsorrel_stream_stop(state.as_mut_ptr(), state.len()) }
    }

    pub fn measure(state: &mut [u8], page: u8, quantity: u8, word: u16) -> u8 {
        let (bytes, length) = (state.as_mut_ptr(), state.len());
        unsafe { archive::tongsorrel_stream_measure(bytes, length, page, quantity, word) }
    }

    pub fn sample(state: &mut [u8], sample: u16) -> u8 {
        unsafe { archive::tongsorrel_stream_sample(state.as_mut_ptr(), state.len(), sample) }
    }

    pub fn tick(state: &mut [u8]) -> u8 {
        unsafe { archive::tongsorrel_stream_tick(state.as_mut_ptr(), state.len()) }
    }

    pub fn alert_response(state: &mut [u8], reply: &mut [u8]) -> u8 {
        let (bytes, length) = (state.as_mut_ptr(), state.len());
        unsafe {
            archive::tongsorrel_stream_alert_response(
                bytes,
                length,
                reply.as_mut_ptr(),
                reply.len(),
            )
        }
    }

    pub fn supplies(state: &[u8], page: u8) -> u8 {
        unsafe { archive::tongsorrel_stream_supplies(state.as_ptr(), state.len(), page) }
    }

    pub fn alert(state: &[u8]) -> u8 {
        unsafe { archive::tongsorrel_stream_alert(state.as_ptr(), state.len()) }
    }
}

pub fn totalizer_fresh() -> Totalizer {
    unsafe { archive::tongsorrel_totalizer_fresh() }
}

pub fn totalizer_take(t: Totalizer, reply: &[u8]) -> Taken {
    unsafe { archive::tongsorrel_totalizer_take(t, reply.as_ptr(), reply.len()) }
}

/// The host's side of the bus: frames, replies, the totalizer by code, and words from thousandths.
pub mod host {
    use super::{archive, Built, Converted, Reply, Taken, Totalizer};

    pub fn write(buffer: &mut [u8], place: usize, code: u8, data: &[u8], check: bool) -> Built {
        let (bytes, size) = (buffer.as_mut_ptr(), buffer.len());
        let (from, number) = (data.as_ptr(), data.len());
        unsafe { archive::tongsorrel_host_write(bytes, size, place, code, from, number, check) }
    }

    pub fn read(buffer: &mut [u8], place: usize, code: u8, check: bool) -> Built {
        let (bytes, size) = (buffer.as_mut_ptr(), buffer.len());
        unsafe { archive::tongsorrel_host_read(bytes, size, place, code, check) }
    }

    pub fn reply(code: u8, check: bool, reply: &[u8]) -> Reply {
        unsafe { archive::tongsorrel_host_reply(code, check, reply.as_ptr(), reply.len()) }
    }

    pub fn totalizer_fresh() -> Totalizer {
        unsafe { archive::tongsorrel_host_totalizer_fresh() }
    }

    pub fn totalizer_take(t: Totalizer, code: u8, reply: &[u8]) -> Taken {
        unsafe { archive::tongsorrel_host_totalizer_take(t, code, reply.as_ptr(), reply.len()) }
    }

    pub fn from_thousandths(count: i64) -> Converted {
        unsafe { archive::tongsorrel_host_from_thousandths(count) }
    }

    pub fn to_thousandths(word: u16) -> i64 {
        unsafe { archive::tongsorrel_host_to_thousandths(word) }
    }

    pub fn vout_from_thousandths(count: i64) -> Converted {
        unsafe { archive::tongsorrel_host_vout_from_thousandths(count) }
    }

    pub fn vout_to_thousandths(word: u16) -> i64 {
        unsafe { archive::tongsorrel_host_vout_to_thousandths(word) }
    }
}
