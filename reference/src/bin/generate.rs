//! `generate SEED COUNT [PAGES]` writes a random frame file of COUNT lines, starting
//! from power-on with PAGES pages (8 by default), to standard output. The same seed
//! gives the same file. A model device follows the frames, so that words come near
//! the present limits and the device does not stay protected, tripped or full of
//! status bits.

use reference::command::{self, code, Access, Command};
use reference::device::{
    Page, ALL_PAGES, IOUT, READ_ADDRESS, TEMPERATURE, VIN, VOUT, WRITE_ADDRESS,
};
use reference::frame::{self, Shelf};
use reference::linear11;
use reference::pec::pec;
use reference::random::Random;
use std::collections::VecDeque;
use std::io::{self, BufWriter, Write};
use std::process::ExitCode;

/// Words at the ends of the Linear11 range and around zero.
const ENDS: [u16; 16] = [
    0x7C00, 0x7BFF, 0x8001, 0x87FF, 0x8000, 0x8400, 0x83FF, 0x0000, 0x0001, 0xF802, 0x07FF, 0x0400,
    0x03FF, 0xFFFF, 0x7FFF, 0xFC00,
];

/// Limit codes with their quantities: of the six causes, then of the five warnings.
const LIMITS: [(u8, usize); 11] = [
    (0x40, VOUT),
    (0x46, IOUT),
    (0x4F, TEMPERATURE),
    (0x53, TEMPERATURE),
    (0x55, VIN),
    (0x59, VIN),
    (0x42, VOUT),
    (0x4A, IOUT),
    (0x51, TEMPERATURE),
    (0x57, VIN),
    (0x58, VIN),
];
const RESPONSES: [u8; 6] = [0x41, 0x47, 0x50, 0x54, 0x56, 0x5A];

/// Words with no cause at the power-on limits: 1.2 V, 2 A, 12 V, 25 degrees.
const CALM: [u16; 4] = [0x2666, 0xD080, 0xD300, 0xE8C8];

/// The limits of a page in that order.
fn limits(page: &Page) -> [u16; 11] {
    let both = [&page.limits[..], &page.warn_limits[..]].concat();
    std::array::from_fn(|index| both[index])
}

/// Words far past each fault limit, by cause.
const PAST: [u16; 6] = [0xFFFF, 0x7BFF, 0x7BFF, 0x7C00, 0x7BFF, 0x7C00];

struct Generator {
    random: Random,
    model: Shelf,
    /// Lines decided on already.
    pending: VecDeque<Vec<u8>>,
}

impl Generator {
    fn new(seed: u64, model: Shelf) -> Generator {
        Generator {
            random: Random::new(seed),
            model,
            pending: VecDeque::new(),
        }
    }

    /// The number of any page.
    fn any_number(&mut self) -> u8 {
        self.random.below(self.model.pages.len()) as u8
    }

    /// The number of a page that is not there.
    fn no_number(&mut self) -> u8 {
        let count = self.model.pages.len() as u8;
        self.random
            .pick(&[count, count, count + 1, 0x60, 0x80, 0xFE])
    }

    /// The next line, without its LF; the model follows it.
    fn next_line(&mut self) -> Vec<u8> {
        let line = match self.pending.pop_front() {
            Some(line) => line,
            None => self.choose(),
        };
        frame::answer(&mut self.model, &line, &mut io::sink()).expect("a sink takes all");
        line
    }

    fn choose(&mut self) -> Vec<u8> {
        if self.model.unpaged.protect != 0 && self.random.percent(8) {
            return self.write_line(0x10, &[0x00]);
        }
        if self.model.unpaged.page == ALL_PAGES && self.random.percent(10) {
            let page = self.any_number();
            return self.write_line(0x00, &[page]);
        }
        if !self.some_page().supplies() && self.random.percent(4) {
            self.push_write(&[0x01, 0x80]);
            return self.write_line(0x01, &[0x00]);
        }
        match self.random.below(1000) {
            0..=239 => self.measurement(),
            240..=509 => self.write(),
            510..=669 => self.read(),
            670..=679 => self.process_call(),
            680..=739 => vec![b'0', b'7'],
            740..=749 => self.ticks_in_a_row(),
            750..=757 => self.retries(),
            758..=819 => self.sample(),
            820..=869 => self.alert(),
            870..=899 => self.clear_faults(),
            900..=914 => self.clear_by_ones(),
            915..=964 => self.bad_line(),
            965..=989 => self.malformed(),
            990..=995 => self.calm_page(),
            996..=997 => self.snapshot(),
            998 => self.samples_in_a_row(),
            _ => self.codes_in_a_row(),
        }
    }

    /// The number of the selected page, or of any page when all are selected.
    fn some_number(&mut self) -> u8 {
        match self.model.unpaged.page {
            ALL_PAGES => self.any_number(),
            page => page,
        }
    }

    /// That page, as it stands.
    fn some_page(&mut self) -> Page {
        let number = self.some_number();
        self.model.pages[usize::from(number)]
    }

    // Words.

    /// A word near `limit`: equal, one off, equal in value but not in code, or negated.
    fn near(&mut self, quantity: usize, limit: u16) -> u16 {
        match self.random.below(10) {
            0 | 1 => limit,
            2 => limit.wrapping_add(1),
            3 => limit.wrapping_sub(1),
            4 => self.near_mantissa(limit, 1),
            5 => self.near_mantissa(limit, 0x7FF),
            6 if quantity == VOUT => limit ^ 0x8000,
            6 | 7 => self.same_value(limit),
            8 => (limit & 0xF800) | (limit.wrapping_neg() & 0x07FF),
            _ => limit ^ 0x8000,
        }
    }

    /// The word after a change of code, with `step` added to its low eleven bits.
    fn near_mantissa(&mut self, word: u16, step: u16) -> u16 {
        let word = self.same_value(word);
        (word & 0xF800) | (word.wrapping_add(step) & 0x07FF)
    }

    /// A word of the same Linear11 value, another one where there is one.
    fn same_value(&mut self, word: u16) -> u16 {
        let value = linear11::scaled(word);
        let start = self.random.below(32) as u16;
        for offset in 0..32 {
            let exponent = (start + offset) & 0x1F;
            let shift = (exponent ^ 0x10) as u32;
            let mantissa = value >> shift;
            let fits = mantissa << shift == value && (-1024..1024).contains(&mantissa);
            let found = exponent << 11 | (mantissa as u16 & 0x07FF);
            if fits && found != word {
                return found;
            }
        }
        word
    }

    /// A word to measure on a page.
    fn measured_word(&mut self, page: usize, quantity: usize) -> u16 {
        let mut limits = limits(&self.model.pages[page]).to_vec();
        let mut quantities = LIMITS.iter().map(|limit| limit.1);
        limits.retain(|_| quantities.next() == Some(quantity));
        let limit = self.random.pick(&limits);
        match self.random.below(20) {
            0..=12 => self.near(quantity, limit),
            13..=16 => CALM[quantity],
            17 | 18 => self.random.pick(&ENDS),
            _ => self.random.word(),
        }
    }

    /// A limit to write on the selected page.
    fn limit_word(&mut self, index: usize) -> u16 {
        let page = self.some_page();
        let quantity = LIMITS[index].1;
        let latest = page.readings[quantity].word;
        match self.random.below(20) {
            0..=9 => self.near(quantity, latest),
            10..=12 => self.near(quantity, limits(&page)[index]),
            13..=16 => limits(&Page::power_on())[index],
            17 | 18 => self.random.pick(&ENDS),
            _ => self.random.word(),
        }
    }

    // The kinds of call.

    fn measurement(&mut self) -> Vec<u8> {
        let page = match self.random.below(20) {
            0..=11 => self.some_number(),
            12..=18 => self.any_number(),
            _ => self.no_number(),
        };
        let quantity = match self.random.below(40) {
            0 => self.random.pick(&[4, 5, 0x80, 0xFF]),
            _ => self.random.below(4) as u8,
        };
        let near_page = usize::from(page).min(self.model.pages.len() - 1);
        let word = self.measured_word(near_page, usize::from(quantity.min(3)));
        measurement_line(page, quantity, word)
    }

    fn write(&mut self) -> Vec<u8> {
        let code = match self.random.below(20) {
            0 => self.random.byte(),
            1 => self.random.pick(&command::TABLE).code,
            _ => self.table_code(Command::written),
        };
        let data = self.write_data(code);
        self.write_line(code, &data)
    }

    fn table_code(&mut self, wanted: fn(&Command) -> bool) -> u8 {
        loop {
            let command = self.random.pick(&command::TABLE);
            if wanted(&command) {
                return command.code;
            }
        }
    }

    /// Data of the length in the table, valid more often than not.
    fn write_data(&mut self, code: u8) -> Vec<u8> {
        let valid = self.random.percent(88);
        if let Some(index) = LIMITS.iter().position(|&limit| limit.0 == code) {
            return self.limit_word(index).to_le_bytes().to_vec();
        }
        if RESPONSES.contains(&code) && valid {
            return vec![self.response(code)];
        }
        match code {
            0x00 if valid => vec![self.page_data()],
            0x00 => vec![self.no_number()],
            0x01 if valid => vec![self.random.pick(&[0x00, 0x40, 0x80, 0x80, 0x80])],
            0x10 if valid => vec![self.random.pick(&[0x00, 0x00, 0x20, 0x40, 0x80])],
            0x7A..=0x7E => vec![self.ones(code)],
            _ => {
                let length = command::lookup(code).map_or(1, |command| command.data);
                self.random.bytes(length)
            }
        }
    }

    /// A valid response: any byte, or one of those without retries.
    fn response(&mut self, code: u8) -> u8 {
        match self.random.below(3) {
            _ if code == 0x47 => self.random.pick(&[0x00, 0xC0]),
            0 => self.random.pick(&[0x00, 0x80, 0xC0, 0xC0]),
            1 => self.retrying(),
            _ => self.random.byte(),
        }
    }

    /// A response that waits or retries, with a short delay more often than not.
    fn retrying(&mut self) -> u8 {
        let action = self.random.pick(&[0x40, 0x80]);
        let retries = self.random.pick(&[0, 1, 1, 2, 3, 4, 5, 6, 7]);
        let delay = self.random.pick(&[0, 1, 1, 2, 2, 3, 4, 5, 6, 7]);
        action | retries << 3 | delay
    }

    /// PAGE data: one page, or at times all of them.
    fn page_data(&mut self) -> u8 {
        match self.random.below(5) {
            0 => ALL_PAGES,
            _ => self.any_number(),
        }
    }

    /// Ones for a status register: all that stand, some of them, others, or any.
    fn ones(&mut self, code: u8) -> u8 {
        let standing = match code {
            0x7E => self.model.unpaged.cml,
            _ => self.some_page().status[usize::from(code - 0x7A)],
        };
        match self.random.below(8) {
            0 => 0x00,
            1 => 0xFF,
            2 | 3 => standing,
            4 => standing & self.random.byte(),
            5 => !standing,
            6 => 1 << self.random.below(8),
            _ => self.random.byte(),
        }
    }

    /// A write of `code` and `data`, of right or wrong length and PEC.
    fn write_line(&mut self, code: u8, data: &[u8]) -> Vec<u8> {
        let mut bytes = vec![0xC0, code];
        bytes.extend_from_slice(data);
        let check = pec(&bytes);
        match self.random.below(100) {
            0..=47 => {}
            48..=82 => bytes.push(check),
            83..=86 => bytes.push(check ^ (1 << self.random.below(8))),
            87..=88 => bytes.push(self.random.byte()),
            89 => bytes.push(pec(&bytes[1..])), // address byte left out
            90..=94 => bytes.truncate(2 + self.random.below(data.len() + 1)),
            95..=97 => bytes.extend([check, self.random.byte()]),
            _ => self.lengthen(&mut bytes),
        }
        frame_line(0x01, &bytes)
    }

    /// Adds random bytes up to the 255 that fit in a line of 512 characters.
    fn lengthen(&mut self, bytes: &mut Vec<u8>) {
        let length = match self.random.below(3) {
            0 => 255,
            1 => 254,
            _ => 3 + self.random.below(250),
        };
        while bytes.len() < length {
            bytes.push(self.random.byte());
        }
    }

    fn read(&mut self) -> Vec<u8> {
        let code = match self.random.below(20) {
            0 => self.random.byte(),
            1 => self.random.pick(&command::TABLE).code,
            2..=9 => 0x78 + self.random.below(7) as u8,
            10..=11 => 0x86,
            _ => self.table_code(Command::read),
        };
        let n = self.clocked(code);
        frame_line(0x02, &[n, 0xC0, code, 0xC1])
    }

    /// A process call: byte count, a code to ask about and a direction, all right more
    /// often than not.
    fn process_call(&mut self) -> Vec<u8> {
        let process_call = |command: &Command| command.access == Access::Call;
        let own = self.table_code(process_call);
        let (any, limit) = (self.random.byte(), self.random.pick(&LIMITS).0);
        let of = self.random.pick(&[any, limit, code::READ_VIN]);
        let direction = self.random.pick(&[0x00, 0x01, 0x01, 0x02]);
        let mut header = match own {
            code::COEFFICIENTS => vec![WRITE_ADDRESS, own, 0x02, of, direction, READ_ADDRESS],
            _ => unreachable!("{own:02x} is a process call"),
        };
        match self.random.below(10) {
            0 => {
                let place = self.random.below(header.len());
                header[place] = self.random.byte();
            }
            1 => drop(header.remove(self.random.below(header.len()))),
            2 => {
                let place = self.random.below(header.len());
                header.insert(place, self.random.byte());
            }
            _ => {}
        }
        let n = self.clocked_of(6);
        frame_line(0x02, &[&[n], &header[..]].concat())
    }

    /// How many bytes the host clocks.
    fn clocked(&mut self, code: u8) -> u8 {
        let data = command::lookup(code).map_or(1, |command| command.data as u8);
        self.clocked_of(data)
    }

    fn clocked_of(&mut self, data: u8) -> u8 {
        match self.random.below(40) {
            0 => 0,
            1 => 1,
            2..=12 => data,
            13..=33 => data + 1,
            34..=35 => data + 2,
            36 => data.saturating_sub(1),
            37 => self.random.pick(&[6, 7, 8, 9]),
            38 => self.random.byte(),
            _ => self.random.pick(&[254, 255]),
        }
    }

    fn sample(&mut self) -> Vec<u8> {
        let sample = match self.random.below(20) {
            0 => 0,
            1..=2 => 32767,
            3 => 32768,
            4 => self.random.word() | 0x8000,
            5 => 32767 - self.model.unpaged.account.accumulator,
            6 => (32768 - self.model.unpaged.account.accumulator).min(32767),
            7..=9 => self.random.below(16) as u16,
            _ => self.random.word() & 0x7FFF,
        };
        sample_line(sample)
    }

    fn alert(&mut self) -> Vec<u8> {
        let n = match self.random.below(20) {
            0 => 0,
            1 => 2,
            2 => self.random.pick(&[3, 255]),
            _ => 1,
        };
        frame_line(0x05, &[n])
    }

    fn clear_faults(&mut self) -> Vec<u8> {
        if self.random.percent(40) {
            // On another page, and with the alert looked at afterwards.
            let page = self.page_data();
            let clear = self.write_line(0x03, &[]);
            self.pending.push_back(clear);
            self.pending.push_back(frame_line(0x05, &[1]));
            return frame_line(0x01, &[0xC0, 0x00, page]);
        }
        self.write_line(0x03, &[])
    }

    /// Ones written to a status register, with the register and the alert looked
    /// at afterwards, at times after an answered alert.
    fn clear_by_ones(&mut self) -> Vec<u8> {
        let code = 0x7A + self.random.below(5) as u8;
        let ones = self.ones(code);
        let clear = self.write_line(code, &[ones]);
        let look = frame_line(0x02, &[2, 0xC0, code, 0xC1]);
        self.pending.extend([clear, look, frame_line(0x05, &[1])]);
        if self.random.percent(50) {
            return frame_line(0x05, &[1]);
        }
        self.pending
            .pop_front()
            .expect("three lines were put there")
    }

    // Rows of frames.

    /// Takes all faults from one page or from all, gives new responses and switches on.
    fn calm_page(&mut self) -> Vec<u8> {
        let page = self.page_data();
        let defaults = limits(&Page::power_on());
        self.push_write(&[0x00, page]);
        for ((code, _), limit) in LIMITS.into_iter().zip(defaults) {
            let [low, high] = limit.to_le_bytes();
            self.push_write(&[code, low, high]);
        }
        for code in RESPONSES {
            let response = match self.random.below(2) {
                0 => self.response(code),
                _ => self.random.pick(&[0x00, 0xC0]),
            };
            self.push_write(&[code, response]);
        }
        let measured = match page {
            ALL_PAGES => 0..self.model.pages.len() as u8,
            page => page..page + 1,
        };
        for page in measured {
            for (quantity, word) in (0..).zip(CALM) {
                self.pending
                    .push_back(measurement_line(page, quantity, word));
            }
        }
        self.push_write(&[0x01, 0x00]);
        self.push_write(&[0x01, 0x80]);
        self.push_write(&[0x03]);
        frame_line(0x01, &[0xC0, 0x10, 0x00])
    }

    fn push_write(&mut self, bytes: &[u8]) {
        let mut whole = vec![0xC0];
        whole.extend_from_slice(bytes);
        self.pending.push_back(frame_line(0x01, &whole));
    }

    /// Reads every readable code, with PEC, of one page or, refused, of all.
    fn snapshot(&mut self) -> Vec<u8> {
        for command in command::TABLE.iter().filter(|command| command.read()) {
            let n = command.data as u8 + 1;
            let line = frame_line(0x02, &[n, 0xC0, command.code, 0xC1]);
            self.pending.push_back(line);
        }
        frame_line(0x01, &[0xC0, 0x00, self.page_data()])
    }

    fn samples_in_a_row(&mut self) -> Vec<u8> {
        for _ in 0..self.random.below(40) {
            let line = self.sample();
            self.pending.push_back(line);
        }
        frame_line(0x02, &[8, 0xC0, 0x86, 0xC1])
    }

    /// Ticks, with the selected page looked at between them.
    fn ticks_in_a_row(&mut self) -> Vec<u8> {
        for _ in 0..self.random.below(12) {
            self.pending.push_back(vec![b'0', b'7']);
            self.pending
                .push_back(frame_line(0x02, &[2, 0xC0, 0x78, 0xC1]));
        }
        vec![b'0', b'7']
    }

    /// A page that is on, with one cause under a response that retries; then ticks,
    /// with the cause going and coming, and what rests a machine or does not.
    fn retries(&mut self) -> Vec<u8> {
        let page = self.some_number();
        let index = self.random.pick(&[0, 2, 3, 4, 5]);
        let (limit, quantity) = LIMITS[index];
        let (code, past) = (RESPONSES[index], PAST[index]);
        let defaults = limits(&Page::power_on());
        let [low, high] = defaults[index].to_le_bytes();
        let response = self.retrying();
        let present = measurement_line(page, quantity as u8, past);
        let gone = measurement_line(page, quantity as u8, CALM[quantity]);
        self.push_write(&[0x00, page]);
        self.push_write(&[limit, low, high]);
        self.push_write(&[code, response]);
        self.pending.push_back(gone.clone());
        if self.random.percent(80) {
            self.push_write(&[0x01, 0x00]);
            self.push_write(&[0x01, 0x80]);
        }
        self.pending.push_back(present.clone());
        for _ in 0..self.random.below(60) {
            match self.random.below(80) {
                0..=2 => self.pending.push_back(gone.clone()),
                3..=7 => self.pending.push_back(present.clone()),
                8 => self.push_write(&[code, response]),
                9 => {
                    let operation = self.random.pick(&[0x00, 0x40, 0x80]);
                    self.push_write(&[0x01, operation]);
                }
                10 => self.push_write(&[0x01, 0x80]),
                11 => self.push_write(&[0x03]),
                12 => self.push_write(&[0x7A + quantity as u8, 0xFF]),
                13 => {
                    let line = self.measurement();
                    self.pending.push_back(line);
                }
                _ => self.pending.push_back(vec![b'0', b'7']),
            }
            let look = frame_line(0x02, &[1, 0xC0, 0x78, 0xC1]);
            self.pending.push_back(look);
        }
        frame_line(0x01, &[0xC0, 0x10, 0x00])
    }

    /// Sixteen neighbouring codes, read or written.
    fn codes_in_a_row(&mut self) -> Vec<u8> {
        let first = self.random.byte() & 0xF0;
        let write = self.random.percent(50);
        for code in first..=first | 0x0F {
            let line = if write {
                let data = self.write_data(code);
                self.write_line(code, &data)
            } else {
                let n = self.clocked(code);
                frame_line(0x02, &[n, 0xC0, code, 0xC1])
            };
            self.pending.push_back(line);
        }
        frame_line(0x02, &[2, 0xC0, 0x79, 0xC1])
    }

    // Frames with something wrong.

    /// Wrong addresses and headers, in lines that are good.
    fn malformed(&mut self) -> Vec<u8> {
        let code = self.table_code(Command::read);
        let byte = self.random.byte();
        match self.random.below(12) {
            0 => frame_line(0x01, &[]),
            1 => frame_line(0x01, &[0xC0]),
            2 => frame_line(0x01, &[byte]),
            3 => frame_line(0x01, &[self.random.pick(&[0xC1, 0x60, byte]), code, 0x00]),
            4 => frame_line(0x02, &[byte]),
            5 => frame_line(0x02, &[2, 0xC0]),
            6 => frame_line(0x02, &[2, byte]),
            7 => frame_line(0x02, &[2, 0xC0, code]),
            8 => frame_line(0x02, &[3, 0xC0, code, self.random.pick(&[0xC0, byte])]),
            9 => frame_line(0x02, &[2, 0xC0, code, 0xC1, byte]),
            10 => frame_line(0x02, &[2, self.random.pick(&[0xC1, byte]), code, 0xC1]),
            _ => {
                let mut bytes = vec![self.random.pick(&[0xC0, byte])];
                self.lengthen(&mut bytes);
                frame_line(self.random.pick(&[0x01, 0x02]), &bytes)
            }
        }
    }

    /// A line that gives `ff`, save that one of 511 or 512 digits may be good.
    fn bad_line(&mut self) -> Vec<u8> {
        let good = frame_line(0x01, &[0xC0, 0x01, 0xAB]);
        match self.random.below(16) {
            0 => Vec::new(),
            1 => good[..good.len() - 1].to_vec(),
            2 => good.to_ascii_uppercase(),
            3 => [&good[..], b"\r"].concat(),
            4 => [&good[..], b"\r\r"].concat(),
            5 => self.spoil(good, 0x00),
            6 => {
                let high = self.random.byte() | 0x80;
                self.spoil(good, high)
            }
            7 => self.spoil(good, b' '),
            8 => {
                let other = self.random.pick(b"gG/:@`xX#-+.\t\x0B\x0C\x7F\r");
                self.spoil(good, other)
            }
            9 => {
                let first = self.random.pick(&[0x00, 0x06, 0x07, 0x10, 0xC0, 0xFF]);
                frame_line(first, &[0xC0, 0x03])
            }
            10 | 11 => self.wrong_count(),
            12 => self.long_line(511),
            13 => self.long_line(512),
            14 => self.long_line(513),
            _ => {
                let length = self.random.pick(&[514, 1024, 2000]);
                self.long_line(length)
            }
        }
    }

    /// The line with one character replaced.
    fn spoil(&mut self, mut line: Vec<u8>, character: u8) -> Vec<u8> {
        let place = self.random.below(line.len());
        line[place] = character;
        line
    }

    /// Too few or too many bytes for 02 to 05 and 07.
    fn wrong_count(&mut self) -> Vec<u8> {
        let (first, counts): (u8, &[usize]) = self.random.pick(&[
            (0x02, &[0][..]),
            (0x03, &[0, 1, 2, 3, 5, 6][..]),
            (0x04, &[0, 1, 3, 4][..]),
            (0x05, &[0, 2, 3][..]),
            (0x07, &[1, 2, 3][..]),
        ]);
        let count = self.random.pick(counts);
        let bytes = self.random.bytes(count);
        frame_line(first, &bytes)
    }

    /// Digits of a write, cut or continued to `length` characters.
    fn long_line(&mut self, length: usize) -> Vec<u8> {
        let code = self.table_code(Command::written);
        let bytes = self.random.bytes(length);
        let mut line = frame_line(0x01, &[0xC0, code]);
        line.extend(frame_line(code, &bytes));
        line.truncate(length);
        line
    }
}

fn measurement_line(page: u8, quantity: u8, word: u16) -> Vec<u8> {
    let [low, high] = word.to_le_bytes();
    frame_line(0x03, &[page, quantity, low, high])
}

fn sample_line(sample: u16) -> Vec<u8> {
    frame_line(0x04, &sample.to_le_bytes())
}

/// A frame in lower-case hexadecimal, without LF.
fn frame_line(first: u8, bytes: &[u8]) -> Vec<u8> {
    const DIGITS: &[u8; 16] = b"0123456789abcdef";
    let mut line = Vec::with_capacity(2 + 2 * bytes.len());
    for &byte in std::iter::once(&first).chain(bytes) {
        line.push(DIGITS[usize::from(byte >> 4)]);
        line.push(DIGITS[usize::from(byte & 0x0F)]);
    }
    line
}

/// Seed, count and the shelf.
fn arguments() -> Option<(u64, u64, Shelf)> {
    let arguments: Vec<String> = std::env::args().skip(1).collect();
    let (seed, count, pages) = match &arguments[..] {
        [seed, count] => (seed, count, 8),
        [seed, count, pages] => (seed, count, pages.parse().ok()?),
        _ => return None,
    };
    let shelf = Shelf::power_on(pages)?;
    Some((seed.parse().ok()?, count.parse().ok()?, shelf))
}

fn generate(seed: u64, count: u64, shelf: Shelf) -> io::Result<()> {
    let mut output = BufWriter::with_capacity(64 * 1024, io::stdout().lock());
    let mut generator = Generator::new(seed, shelf);
    for _ in 0..count {
        output.write_all(&generator.next_line())?;
        output.write_all(b"\n")?;
    }
    output.flush()
}

fn main() -> ExitCode {
    let Some((seed, count, shelf)) = arguments() else {
        eprintln!("usage: generate SEED COUNT [PAGES], 1 to 96");
        return ExitCode::from(2);
    };
    match generate(seed, count, shelf) {
        Ok(()) => ExitCode::SUCCESS,
        Err(error) => {
            eprintln!("generate: {error}");
            ExitCode::FAILURE
        }
    }
}
