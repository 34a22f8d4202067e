//! The device whose page records are lent to each call: 1 to 96 of them, the pages
//! 0 upwards. The unpaged part holds all else. Their number is the page limit, in
//! the data of PAGE and in a measurement.
//!
//! Every rule of the calls stands here (data sheet, sections 2 to 4, 8, 11 and 12);
//! the device of eight pages lends its own records.

use crate::account::Account;
use crate::command::{self, code, Command};
use crate::page::{self, Choice, Page, Reading};
use crate::pec::{pec, pec_from};
use std::cmp::Ordering;
use std::ops::Range;

pub const WRITE_ADDRESS: u8 = 0xC0;
pub const READ_ADDRESS: u8 = 0xC1;

/// PAGE data that selects every page.
pub const ALL_PAGES: u8 = 0xFF;

/// The most records that can be lent.
pub const MOST: usize = 96;

// What the constant codes give.
const CAPABILITY: u8 = 0xB0;
const VOUT_MODE: u8 = 0x13;
const REVISION: u8 = 0x22;

/// The byte count in the header of COEFFICIENTS: a code and a direction.
const COEFFICIENTS_COUNT: u8 = 0x02;

/// All of the device but its pages. Any field values may be handed in; the fields
/// are wide enough for those that get answer 15.
#[derive(Clone, Copy, Debug, PartialEq, Eq)]
pub struct Unpaged {
    pub page: u8,
    pub protect: u8,
    pub cml: u8,
    pub alert: bool,
    pub account: Account,
}

impl Unpaged {
    pub fn power_on() -> Unpaged {
        Unpaged {
            page: 0,
            protect: 0x00,
            cml: 0,
            alert: false,
            account: Account::default(),
        }
    }
}

/// Power-on of the all-linear device.
pub fn power_on(pages: &mut [Page]) -> (Unpaged, u8) {
    let choices = vec![Choice::default(); pages.len()];
    power_on_with(pages, &choices)
}

/// Power-on: every record lent is set as its choice says, whatever it held. With none
/// or too many none is touched, the answer is 15 and the unpaged part is the usual one.
/// Where there is not one choice a record, or a choice is not valid, the answer is 27
/// and the device all linear.
pub fn power_on_with(pages: &mut [Page], choices: &[Choice]) -> (Unpaged, u8) {
    if !count_valid(pages) {
        return (Unpaged::power_on(), 15);
    }
    if choices.len() != pages.len() || !choices.iter().all(Choice::valid) {
        pages.fill(Page::power_on());
        return (Unpaged::power_on(), 27);
    }
    for (page, choice) in pages.iter_mut().zip(choices) {
        *page = Page::power_on_with(choice);
    }
    (Unpaged::power_on(), 0)
}

/// False for what gets answer 15: none or too many records, a selected page that is
/// not among them, a value that is not valid in any record or in the unpaged part.
pub fn valid(unpaged: &Unpaged, pages: &[Page]) -> bool {
    count_valid(pages)
        && page_valid(unpaged.page, pages)
        && protect_valid(unpaged.protect)
        && unpaged.account.valid()
        && pages.iter().all(Page::valid)
}

/// A write transaction: the bytes from START to STOP.
pub fn write(unpaged: &mut Unpaged, pages: &mut [Page], bytes: &[u8]) -> u8 {
    match judge_write(unpaged, pages, bytes) {
        Ok(command) => {
            carry_out(unpaged, pages, command, &bytes[2..]);
            0
        }
        Err(answer) => {
            raise_cml(unpaged, cml_bit(answer));
            answer
        }
    }
}

/// A read transaction: its header, and a reply buffer as long as the number of
/// bytes the host clocks.
pub fn read(unpaged: &mut Unpaged, pages: &[Page], header: &[u8], reply: &mut [u8]) -> u8 {
    let answer = match judge_read(unpaged, pages, header) {
        Ok(data) => fill_reply(&data, header, reply),
        Err(answer) => {
            reply.fill(0xFF);
            answer
        }
    };
    // The reply is made before the call's own CML bit is set.
    raise_cml(unpaged, cml_bit(answer));
    answer
}

/// A measurement of a quantity on a page.
pub fn measure(unpaged: &mut Unpaged, pages: &mut [Page], page: u8, quantity: u8, word: u16) -> u8 {
    if !valid(unpaged, pages) {
        return 15;
    }
    if usize::from(page) >= pages.len() || quantity > 3 {
        return 12;
    }
    let page = &mut pages[usize::from(page)];
    page.readings[usize::from(quantity)] = Reading {
        measured: true,
        word,
    };
    bring_up_to_date(unpaged, page);
    0
}

/// A power sample.
pub fn sample(unpaged: &mut Unpaged, pages: &[Page], sample: u16) -> u8 {
    if !valid(unpaged, pages) {
        return 15;
    }
    if sample > 32767 {
        return 13;
    }
    unpaged.account.add(sample);
    0
}

/// An alert response; the reply buffer is as long as the host clocks.
pub fn alert_response(unpaged: &mut Unpaged, pages: &[Page], reply: &mut [u8]) -> u8 {
    reply.fill(0xFF);
    if !valid(unpaged, pages) {
        return 15;
    }
    if reply.len() != 1 {
        return 2;
    }
    if !unpaged.alert {
        return 14;
    }
    reply[0] = WRITE_ADDRESS;
    unpaged.alert = false;
    0
}

/// A tick: one delay unit for every page.
pub fn tick(unpaged: &Unpaged, pages: &mut [Page]) -> u8 {
    if !valid(unpaged, pages) {
        return 15;
    }
    pages.iter_mut().for_each(Page::tick);
    0
}

/// Whether a page supplies; a page that is not among the records does not.
pub fn supplies(pages: &[Page], page: usize) -> bool {
    pages.get(page).is_some_and(Page::supplies)
}

fn count_valid(pages: &[Page]) -> bool {
    (1..=MOST).contains(&pages.len())
}

/// PAGE: one of the pages, or all of them at once.
fn page_valid(data: u8, pages: &[Page]) -> bool {
    usize::from(data) < pages.len() || data == ALL_PAGES
}

fn protect_valid(data: u8) -> bool {
    matches!(data, 0x00 | 0x20 | 0x40 | 0x80)
}

/// The two kinds of clearing: CLEAR_FAULTS and ones written to a status register.
fn clears(code: u8) -> bool {
    matches!(
        code,
        code::CLEAR_FAULTS | code::STATUS_VOUT..=code::STATUS_CML
    )
}

/// Whether WRITE_PROTECT level `protect` permits a write of `code`.
/// Clearings and WRITE_PROTECT itself are always permitted.
fn permitted(protect: u8, code: u8) -> bool {
    if clears(code) || code == code::WRITE_PROTECT {
        return true;
    }
    match protect {
        0x00 => true,
        0x20 => matches!(code, code::OPERATION | code::PAGE | code::VOUT_COMMAND),
        0x40 => matches!(code, code::OPERATION | code::PAGE),
        _ => false,
    }
}

/// The CML bit that goes with a refusal; 0 for the answers that set none.
fn cml_bit(answer: u8) -> u8 {
    match answer {
        3 | 8 => 0x80,
        6 | 9 => 0x40,
        7 => 0x20,
        5 | 10 | 11 => 0x02,
        _ => 0x00,
    }
}

/// The command of a write that gets answer 0, or the refusal: 15, then the lowest
/// number that applies, 1 before 2 for non-empty input.
fn judge_write(unpaged: &Unpaged, pages: &[Page], bytes: &[u8]) -> Result<&'static Command, u8> {
    if !valid(unpaged, pages) {
        return Err(15);
    }
    if bytes.is_empty() {
        return Err(2);
    }
    if bytes[0] != WRITE_ADDRESS {
        return Err(1);
    }
    if bytes.len() == 1 {
        return Err(2);
    }
    let command = match command::lookup(bytes[1]) {
        Some(command) if command.written() => command,
        _ => return Err(3),
    };
    let data = &bytes[2..];
    if data.len() < command.data {
        return Err(5);
    }
    if data.len() > command.data + 1 {
        return Err(6);
    }
    if data.len() == command.data + 1 {
        // One byte over the data is the PEC, over all bytes before it.
        let (covered, check) = bytes.split_at(bytes.len() - 1);
        if pec(covered) != check[0] {
            return Err(7);
        }
    }
    if !permitted(unpaged.protect, command.code) {
        return Err(8);
    }
    let data_valid = match command.code {
        code::PAGE => page_valid(data[0], pages),
        code::WRITE_PROTECT => protect_valid(data[0]),
        code => page::data_valid(code, data),
    };
    if data_valid {
        Ok(command)
    } else {
        Err(9)
    }
}

/// The data of a read, or answers 15, 1, 2, 3, 9.
fn judge_read(unpaged: &Unpaged, pages: &[Page], header: &[u8]) -> Result<Vec<u8>, u8> {
    if !valid(unpaged, pages) {
        return Err(15);
    }
    match *header {
        [] => Err(2),
        [first, ..] if first != WRITE_ADDRESS => Err(1),
        [_, code, READ_ADDRESS] => plain_read(unpaged, pages, code),
        [_, code::COEFFICIENTS, COEFFICIENTS_COUNT, of, direction, READ_ADDRESS] => {
            coefficients(unpaged, pages, of, direction)
        }
        _ => Err(2),
    }
}

/// The data of a read of `code`, or answers 3 and 9. With all pages selected a paged
/// code has no one value to give, whatever n. A process call is not read.
fn plain_read(unpaged: &Unpaged, pages: &[Page], code: u8) -> Result<Vec<u8>, u8> {
    match command::lookup(code) {
        Some(command) if command.read() => match unpaged.page {
            ALL_PAGES if command.paged() => Err(9),
            _ => Ok(read_data(unpaged, pages, code)),
        },
        _ => Err(3),
    }
}

/// The data of COEFFICIENTS, which is paged: answer 9 with all pages selected, and where
/// the selected page has none for that code and direction.
fn coefficients(unpaged: &Unpaged, pages: &[Page], of: u8, direction: u8) -> Result<Vec<u8>, u8> {
    let page = match unpaged.page {
        ALL_PAGES => None,
        page => pages.get(usize::from(page)),
    };
    let format = page.and_then(|page| page.coefficients(of, direction));
    format.map(|format| format.reply()).ok_or(9)
}

/// The pages that a paged write acts on.
fn selected(unpaged: &Unpaged, pages: &[Page]) -> Range<usize> {
    match unpaged.page {
        ALL_PAGES => 0..pages.len(),
        page => usize::from(page)..usize::from(page) + 1,
    }
}

/// Carries out an accepted write. PAGE, WRITE_PROTECT and STATUS_CML touch no page;
/// the others bring the selected pages up to date. After a clearing, whatever it
/// cleared, the alert is up exactly when any bit stands anywhere.
fn carry_out(unpaged: &mut Unpaged, pages: &mut [Page], command: &Command, data: &[u8]) {
    match command.code {
        code::PAGE => unpaged.page = data[0],
        code::WRITE_PROTECT => unpaged.protect = data[0],
        code::STATUS_CML => unpaged.cml &= !data[0],
        code => {
            let selected = selected(unpaged, pages);
            for page in &mut pages[selected] {
                page.store(code, data);
                bring_up_to_date(unpaged, page);
            }
        }
    }
    if command.code == code::CLEAR_FAULTS {
        unpaged.cml = 0;
    }
    if clears(command.code) {
        unpaged.alert = any_bit(unpaged, pages);
    }
}

/// Whether a bit stands on some page or in CML (data sheet 8.3).
fn any_bit(unpaged: &Unpaged, pages: &[Page]) -> bool {
    unpaged.cml != 0 || pages.iter().any(|page| page.status != [0; 4])
}

/// Brings one page up to date; a bit that rises raises the alert.
fn bring_up_to_date(unpaged: &mut Unpaged, page: &mut Page) {
    if page.bring_up_to_date() {
        unpaged.alert = true;
    }
}

/// Sets a CML bit; the alert rises when it was 0.
fn raise_cml(unpaged: &mut Unpaged, bit: u8) {
    if bit & !unpaged.cml != 0 {
        unpaged.alert = true;
    }
    unpaged.cml |= bit;
}

/// The data of a readable code; a paged one only with one page selected.
fn read_data(unpaged: &Unpaged, pages: &[Page], code: u8) -> Vec<u8> {
    match code {
        code::PAGE => vec![unpaged.page],
        code::WRITE_PROTECT => vec![unpaged.protect],
        code::CAPABILITY => vec![CAPABILITY],
        code::VOUT_MODE => vec![VOUT_MODE],
        code::STATUS_CML => vec![unpaged.cml],
        code::READ_EIN => unpaged.account.bytes().to_vec(),
        code::PMBUS_REVISION => vec![REVISION],
        _ => pages[usize::from(unpaged.page)].data(code, unpaged.cml),
    }
}

/// Fills the reply of a readable code: data, PEC, then FFh, cut to n bytes.
fn fill_reply(data: &[u8], header: &[u8], reply: &mut [u8]) -> u8 {
    let check = pec_from(pec(header), data);
    for (index, byte) in reply.iter_mut().enumerate() {
        *byte = match index.cmp(&data.len()) {
            Ordering::Less => data[index],
            Ordering::Equal => check,
            Ordering::Greater => 0xFF,
        };
    }
    if reply.len() < data.len() {
        10
    } else if reply.len() > data.len() + 1 {
        11
    } else {
        0
    }
}
