//! The straightforward Rust routines: the second program's methods behind the library's signatures, the state by value in and
//! back, and the same by `&mut`; and, written for this comparison, the steps of a streaming device, the host's frames and replies, and
//! words from thousandths. None is inlined into the loop that times it, as the library's functions are not.

use reference::device::Device;
use reference::pec;
use reference::totalizer::Totalizer;
use std::arch::asm;

pub struct Done {
    pub device: Device,
    pub answer: u8,
}

pub struct Taken {
    pub totalizer: Totalizer,
    pub answer: u8,
}

/// The loop over bytes and bits. LLVM knows it as a CRC and makes a table of it.
#[inline(never)]
pub fn pec(bytes: &[u8]) -> u8 {
    pec::pec(bytes)
}

/// The same loop with something in it that LLVM cannot see through: no instruction, and no table.
#[inline(never)]
pub fn pec_bit_by_bit(bytes: &[u8]) -> u8 {
    let mut crc: u8 = 0;
    for &byte in bytes {
        crc ^= byte;
        for _ in 0..8 {
            let out = crc & 0x80 != 0;
            crc <<= 1;
            if out {
                crc ^= 0x07;
            }
            unsafe {
                asm!("/* {0} */", inout(reg_byte) crc, options(pure, nomem, nostack, preserves_flags));
            }
        }
    }
    crc
}

/// What eight bits make of each byte.
static TABLE: [u8; 256] = {
    let mut table = [0; 256];
    let mut index = 0;
    while index < table.len() {
        let mut crc = index as u8;
        let mut bit = 0;
        while bit < 8 {
            crc = (crc << 1) ^ ((crc >> 7) * 0x07);
            bit += 1;
        }
        table[index] = crc;
        index += 1;
    }
    table
};

/// A look-up a byte, going on from a value.
fn by_table(mut crc: u8, bytes: &[u8]) -> u8 {
    for &byte in bytes {
        crc = TABLE[usize::from(crc ^ byte)];
    }
    crc
}

#[inline(never)]
pub fn pec_by_table(bytes: &[u8]) -> u8 {
    by_table(0, bytes)
}

pub mod by_value {
    use super::{Device, Done, Taken, Totalizer};

    #[inline(never)]
    pub fn write(mut device: Device, bytes: &[u8]) -> Done {
        let answer = device.write(bytes);
        Done { device, answer }
    }

    #[inline(never)]
    pub fn read(mut device: Device, header: &[u8], reply: &mut [u8]) -> Done {
        let answer = device.read(header, reply);
        Done { device, answer }
    }

    #[inline(never)]
    pub fn measure(mut device: Device, page: u8, quantity: u8, word: u16) -> Done {
        let answer = device.measure(page, quantity, word);
        Done { device, answer }
    }

    #[inline(never)]
    pub fn sample(mut device: Device, sample: u16) -> Done {
        let answer = device.sample(sample);
        Done { device, answer }
    }

    #[inline(never)]
    pub fn tick(mut device: Device) -> Done {
        let answer = device.tick();
        Done { device, answer }
    }

    #[inline(never)]
    pub fn alert_response(mut device: Device, reply: &mut [u8]) -> Done {
        let answer = device.alert_response(reply);
        Done { device, answer }
    }

    #[inline(never)]
    pub fn take(mut totalizer: Totalizer, reply: &[u8]) -> Taken {
        let answer = totalizer.take(reply);
        Taken { totalizer, answer }
    }
}

pub mod in_place {
    use super::{Device, Totalizer};

    #[inline(never)]
    pub fn write(device: &mut Device, bytes: &[u8]) -> u8 {
        device.write(bytes)
    }

    #[inline(never)]
    pub fn read(device: &mut Device, header: &[u8], reply: &mut [u8]) -> u8 {
        device.read(header, reply)
    }

    #[inline(never)]
    pub fn measure(device: &mut Device, page: u8, quantity: u8, word: u16) -> u8 {
        device.measure(page, quantity, word)
    }

    #[inline(never)]
    pub fn sample(device: &mut Device, sample: u16) -> u8 {
        device.sample(sample)
    }

    #[inline(never)]
    pub fn tick(device: &mut Device) -> u8 {
        device.tick()
    }

    #[inline(never)]
    pub fn alert_response(device: &mut Device, reply: &mut [u8]) -> u8 {
        device.alert_response(reply)
    }

    #[inline(never)]
    pub fn take(totalizer: &mut Totalizer, reply: &[u8]) -> u8 {
        totalizer.take(reply)
    }
}

/// The streaming device of the second program.
pub mod second {
    use reference::stream::Stream;

    #[inline(never)]
    pub fn start(stream: &mut Stream) -> u8 {
        stream.start()
    }

    #[inline(never)]
    pub fn byte(stream: &mut Stream, byte: u8) -> u8 {
        u8::from(stream.byte(byte))
    }

    #[inline(never)]
    pub fn repeated_start(stream: &mut Stream) -> u8 {
        stream.repeated_start()
    }

    #[inline(never)]
    pub fn clock(stream: &mut Stream) -> u8 {
        stream.clock()
    }

    #[inline(never)]
    pub fn stop(stream: &mut Stream) -> u8 {
        stream.stop()
    }

    #[inline(never)]
    pub fn measure(stream: &mut Stream, page: u8, quantity: u8, word: u16) -> u8 {
        stream.measure(page, quantity, word)
    }

    #[inline(never)]
    pub fn sample(stream: &mut Stream, sample: u16) -> u8 {
        stream.sample(sample)
    }

    #[inline(never)]
    pub fn tick(stream: &mut Stream) -> u8 {
        stream.tick()
    }

    #[inline(never)]
    pub fn alert_response(stream: &mut Stream, reply: &mut [u8]) -> u8 {
        stream.alert_response(reply)
    }
}

/// The steps that leave the device alone, on structs: the numbers that the library's buffer has, kept as fields, and its test for answer 15.
pub mod plain {
    use conformance::buffer::{Part, BROKEN, READING, TURNING, WRITING};
    use conformance::library::stream::{ACK, NACK};
    use conformance::library::{Device, Format, Page, Unpaged};

    pub struct Plain {
        pub part: Part,
        pub device: Device,
    }

    fn unpaged_valid(unpaged: &Unpaged) -> bool {
        matches!(unpaged.page, 0..=7 | 0xFF)
            && matches!(unpaged.protect, 0x00 | 0x20 | 0x40 | 0x80)
            && unpaged.energy.accumulator <= 0x7FFF
            && unpaged.energy.rollover <= 0xFF
            && unpaged.energy.count <= 0xFF_FFFF
    }

    fn format_valid(format: &Format) -> bool {
        !format.direct || format.m != 0 && matches!(format.r, 0..=6 | 0xFA..)
    }

    fn page_valid(page: &Page) -> bool {
        const IOUT_OC: usize = 1;
        matches!(page.operation, 0x00 | 0x40 | 0x80)
            && matches!(page.responses[IOUT_OC], 0x00 | 0xC0)
            && page.machines[IOUT_OC] == 0
            && page.machines.iter().all(|&machine| machine <= 64)
            && page.formats.iter().all(format_valid)
    }

    /// Data bytes of a code; none for a code that is not there.
    fn data(code: u8) -> Option<u8> {
        match code {
            0x03 => Some(0),
            0x00
            | 0x01
            | 0x10
            | 0x19
            | 0x20
            | 0x41
            | 0x47
            | 0x50
            | 0x54
            | 0x56
            | 0x5A
            | 0x78
            | 0x7A..=0x7E
            | 0x98 => Some(1),
            0x21
            | 0x40
            | 0x42
            | 0x46
            | 0x4A
            | 0x4F
            | 0x51
            | 0x53
            | 0x55
            | 0x57..=0x59
            | 0x79
            | 0x88
            | 0x8B..=0x8D => Some(2),
            0x30 => Some(3),
            0x86 => Some(7),
            _ => None,
        }
    }

    impl Plain {
        fn valid(&self) -> bool {
            self.part.valid()
                && unpaged_valid(&self.device.unpaged)
                && self.device.pages.iter().all(page_valid)
        }

        /// Whether the next byte of a write gets ACK.
        fn expected(&self, byte: u8) -> bool {
            match *self.part.kept() {
                [] => byte == 0xC0,
                [0xC0] => data(byte).is_some(),
                [0xC0, code, ..] => data(code).is_some_and(|data| self.part.count <= 2 + data),
                _ => false,
            }
        }
    }

    #[inline(never)]
    pub fn start(plain: &mut Plain) -> u8 {
        if !plain.valid() {
            return 15;
        }
        let part = &mut plain.part;
        (part.phase, part.count, part.clocked) = (WRITING, 0, 0);
        0
    }

    /// A byte before a repeated START; the byte behind it, which makes the reply, is left out here.
    #[inline(never)]
    pub fn byte(plain: &mut Plain, byte: u8) -> u8 {
        if !plain.valid() {
            return NACK;
        }
        if plain.part.phase != WRITING {
            plain.part.phase = BROKEN;
            return NACK;
        }
        let acked = plain.expected(byte);
        plain.part.keep(byte);
        if acked {
            ACK
        } else {
            NACK
        }
    }

    #[inline(never)]
    pub fn repeated_start(plain: &mut Plain) -> u8 {
        if !plain.valid() {
            return 15;
        }
        plain.part.phase = match plain.part.phase {
            WRITING => TURNING,
            _ => BROKEN,
        };
        0
    }

    #[inline(never)]
    pub fn clock(plain: &mut Plain) -> u8 {
        if !plain.valid() {
            return 0xFF;
        }
        let part = &mut plain.part;
        if part.phase != READING {
            part.phase = BROKEN;
            return 0xFF;
        }
        let byte = part.reply.get(usize::from(part.clocked)).copied();
        part.clocked = (part.clocked + 1).min(9);
        byte.unwrap_or(0xFF)
    }
}

/// The host's frames and replies on slices, the PEC by look-ups, nothing allocated; the codes by a table, or by a match.
pub mod host {
    use super::by_table;
    use conformance::library::{Account, Built, Reply};
    use reference::command;

    const NOTHING: Account = Account {
        accumulator: 0,
        rollover: 0,
        count: 0,
    };

    /// Data bytes of a code that may be written, and of one that may be read.
    pub trait Codes {
        fn written(code: u8) -> Option<usize>;
        fn readable(code: u8) -> Option<usize>;
    }

    /// The second program's table, row after row.
    pub struct Table;

    impl Codes for Table {
        fn written(code: u8) -> Option<usize> {
            let command = command::lookup(code)?;
            command.written().then_some(command.data)
        }

        fn readable(code: u8) -> Option<usize> {
            let command = command::lookup(code)?;
            command.read().then_some(command.data)
        }
    }

    pub struct Match;

    impl Codes for Match {
        fn written(code: u8) -> Option<usize> {
            match code {
                0x03 => Some(0),
                0x00 | 0x01 | 0x10 | 0x41 | 0x47 | 0x50 | 0x54 | 0x56 | 0x5A | 0x7A..=0x7E => {
                    Some(1)
                }
                0x21 | 0x40 | 0x42 | 0x46 | 0x4A | 0x4F | 0x51 | 0x53 | 0x55 | 0x57..=0x59 => {
                    Some(2)
                }
                _ => None,
            }
        }

        fn readable(code: u8) -> Option<usize> {
            match code {
                0x03 => None,
                0x19 | 0x20 | 0x78 | 0x98 => Some(1),
                0x79 | 0x88 | 0x8B..=0x8D => Some(2),
                0x86 => Some(7),
                _ => Self::written(code),
            }
        }
    }

    fn refused(answer: u8) -> Built {
        Built {
            answer,
            length: 0,
            count: 0,
        }
    }

    fn room(buffer: &mut [u8], place: usize, length: usize) -> Option<&mut [u8]> {
        buffer.get_mut(place..place.checked_add(length)?)
    }

    #[inline(never)]
    pub fn write<C: Codes>(
        buffer: &mut [u8],
        place: usize,
        code: u8,
        data: &[u8],
        check: bool,
    ) -> Built {
        let Some(due) = C::written(code) else {
            return refused(3);
        };
        if data.len() != due {
            return refused(if data.len() < due { 5 } else { 6 });
        }
        let end = 2 + due;
        let length = end + usize::from(check);
        let Some(frame) = room(buffer, place, length) else {
            return refused(26);
        };
        frame[..2].copy_from_slice(&[0xC0, code]);
        frame[2..end].copy_from_slice(data);
        if check {
            frame[end] = by_table(0, &frame[..end]);
        }
        Built {
            answer: 0,
            length,
            count: 0,
        }
    }

    #[inline(never)]
    pub fn read<C: Codes>(buffer: &mut [u8], place: usize, code: u8, check: bool) -> Built {
        let Some(data) = C::readable(code) else {
            return refused(3);
        };
        let header = [0xC0, code, 0xC1];
        let Some(frame) = room(buffer, place, header.len()) else {
            return refused(26);
        };
        frame.copy_from_slice(&header);
        Built {
            answer: 0,
            length: header.len(),
            count: data + usize::from(check),
        }
    }

    /// The byte, word or account of a reply, or the refusal.
    fn fields<C: Codes>(code: u8, check: bool, bytes: &[u8]) -> Result<(u8, u16, Account), u8> {
        let number = C::readable(code).ok_or(3)?;
        if bytes.len() != number + usize::from(check) {
            return Err(20);
        }
        let data = &bytes[..number];
        if check && by_table(by_table(0, &[0xC0, code, 0xC1]), data) != bytes[number] {
            return Err(21);
        }
        match *data {
            [byte] => Ok((byte, 0, NOTHING)),
            [low, high] => Ok((0, u16::from_le_bytes([low, high]), NOTHING)),
            [6, _, 0x80..=0xFF, ..] => Err(23),
            [6, low, high, rollover, a, b, c] => {
                let account = Account {
                    accumulator: u16::from_le_bytes([low, high]),
                    rollover: u16::from(rollover),
                    count: u32::from_le_bytes([a, b, c, 0]),
                };
                Ok((0, 0, account))
            }
            _ => Err(22),
        }
    }

    #[inline(never)]
    pub fn reply<C: Codes>(code: u8, check: bool, bytes: &[u8]) -> Reply {
        let (answer, (byte, word, account)) = match fields::<C>(code, check, bytes) {
            Ok(fields) => (0, fields),
            Err(answer) => (answer, (0, 0, NOTHING)),
        };
        Reply {
            answer,
            byte,
            word,
            account,
        }
    }
}

/// Linear11 words from thousandths and back, by the row of the count and one division.
pub mod thousandths {
    use conformance::library::Converted;

    const LOWEST: i64 = -33_554_432_000;
    const HIGHEST: i64 = 33_521_664_000;
    /// The counts that belong to the first row, exponent -16, times 16,384: up to 1023.5 and down to -1025 units.
    const FIRST_ROW_UP: u64 = 255_875;
    const FIRST_ROW_DOWN: u64 = 256_250;
    /// The bits of both.
    const FIRST_ROW_BITS: u32 = 18;

    #[inline(never)]
    pub fn from_thousandths(count: i64) -> Converted {
        if !(LOWEST..=HIGHEST).contains(&count) {
            return Converted {
                answer: 25,
                word: 0,
            };
        }
        let negative = count < 0;
        // 65,536 / 1000 is 16,384 / 250: in the first row a unit is 250 of these.
        let size = count.unsigned_abs() * 16_384;
        let most = if negative {
            FIRST_ROW_DOWN
        } else {
            FIRST_ROW_UP
        };
        let row = (64 - size.leading_zeros()).saturating_sub(FIRST_ROW_BITS);
        let row = row + u32::from(size > most << row);
        // Rounded to the nearest, half-way to the smaller value.
        let half = (125 << row) - u64::from(!negative);
        let units = ((size + half) >> row) / 250;
        let mantissa = if negative {
            0x800 - units.min(1024)
        } else {
            units
        };
        Converted {
            answer: 0,
            word: ((row as u16 + 16) & 0x1F) << 11 | mantissa as u16 & 0x7FF,
        }
    }

    #[inline(never)]
    pub fn to_thousandths(word: u16) -> i64 {
        let exponent = word as i16 >> 11;
        let mantissa = i64::from((word << 5) as i16 >> 5);
        let size = 1000 * mantissa.abs();
        let size = if exponent < 0 {
            (size + (1 << (-exponent - 1))) >> -exponent
        } else {
            size << exponent
        };
        size * mantissa.signum()
    }
}
