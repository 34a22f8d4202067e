//! The frame file (data sheet, section 13): one frame a line in, one answer a line out.
//! Constant memory, any input bytes whatever.

use crate::lent::{self, Unpaged};
use crate::page::Page;
use std::io::{self, BufWriter, ErrorKind, Read, Write};

/// Characters of the line buffer, LF not counted.
pub const LINE: usize = 512;
const BLOCK: usize = 64 * 1024;

/// The device that the frames are calls on: the unpaged part and the page records.
#[derive(Clone, Debug, PartialEq, Eq)]
pub struct Shelf {
    pub unpaged: Unpaged,
    pub pages: Vec<Page>,
}

impl Shelf {
    /// A shelf at power-on; none for a number of pages that gets answer 15.
    pub fn power_on(pages: usize) -> Option<Shelf> {
        let mut pages = vec![Page::power_on(); pages.min(lent::MOST + 1)];
        match lent::power_on(&mut pages) {
            (unpaged, 0) => Some(Shelf { unpaged, pages }),
            _ => None,
        }
    }
}

/// Runs a frame file from power-on with eight pages to the end of the input.
pub fn run(input: &mut impl Read, output: &mut impl Write) -> io::Result<()> {
    let mut shelf = Shelf::power_on(8).expect("eight pages are a shelf");
    run_on(&mut shelf, input, output)
}

/// Runs a frame file on a shelf to the end of the input.
pub fn run_on(shelf: &mut Shelf, input: &mut impl Read, output: &mut impl Write) -> io::Result<()> {
    let mut output = BufWriter::with_capacity(BLOCK, output);
    let mut block = vec![0u8; BLOCK];
    let mut line = Line::empty();
    loop {
        let count = match input.read(&mut block) {
            Ok(0) => break,
            Ok(count) => count,
            Err(error) if error.kind() == ErrorKind::Interrupted => continue,
            Err(error) => return Err(error),
        };
        for &byte in &block[..count] {
            if byte == b'\n' {
                line.finish(shelf, &mut output)?;
            } else {
                line.push(byte);
            }
        }
    }
    // A last line without LF counts if it has characters.
    if line.length > 0 {
        line.finish(shelf, &mut output)?;
    }
    output.flush()
}

/// The line buffer. `overlong` is set when a character found no room.
struct Line {
    characters: [u8; LINE],
    length: usize,
    overlong: bool,
}

impl Line {
    fn empty() -> Line {
        Line {
            characters: [0u8; LINE],
            length: 0,
            overlong: false,
        }
    }

    fn push(&mut self, character: u8) {
        if self.length < LINE {
            self.characters[self.length] = character;
            self.length += 1;
        } else {
            self.overlong = true;
        }
    }

    /// Answers the line and empties the buffer.
    fn finish(&mut self, shelf: &mut Shelf, output: &mut impl Write) -> io::Result<()> {
        let result = if self.overlong {
            bad(output)
        } else {
            answer(shelf, &self.characters[..self.length], output)
        };
        self.length = 0;
        self.overlong = false;
        result
    }
}

/// Answers one line, given without its LF.
pub fn answer(shelf: &mut Shelf, line: &[u8], output: &mut impl Write) -> io::Result<()> {
    let mut buffer = [0u8; LINE / 2];
    let Some(frame) = decode(line, &mut buffer) else {
        return bad(output);
    };
    let Shelf { unpaged, pages } = shelf;
    let mut reply = [0u8; 255];
    match *frame {
        [0x01, ref bytes @ ..] => put(output, lent::write(unpaged, pages, bytes), &[]),
        [0x02, n, ref header @ ..] => {
            let reply = &mut reply[..usize::from(n)];
            put(output, lent::read(unpaged, pages, header, reply), reply)
        }
        [0x03, page, quantity, low, high] => {
            let word = u16::from_le_bytes([low, high]);
            let answer = lent::measure(unpaged, pages, page, quantity, word);
            put(output, answer, &[])
        }
        [0x04, low, high] => {
            let sample = u16::from_le_bytes([low, high]);
            put(output, lent::sample(unpaged, pages, sample), &[])
        }
        [0x05, n] => {
            let reply = &mut reply[..usize::from(n)];
            put(output, lent::alert_response(unpaged, pages, reply), reply)
        }
        [0x07] => put(output, lent::tick(unpaged, pages), &[]),
        _ => bad(output),
    }
}

/// The bytes of a line of lower-case hexadecimal; none when it is empty, too
/// long, odd in digits or has any other character.
pub fn decode<'a>(line: &[u8], bytes: &'a mut [u8; LINE / 2]) -> Option<&'a [u8]> {
    if line.is_empty() || line.len() > LINE || line.len() & 1 == 1 {
        return None;
    }
    for (byte, pair) in bytes.iter_mut().zip(line.chunks_exact(2)) {
        *byte = digit(pair[0])? << 4 | digit(pair[1])?;
    }
    Some(&bytes[..line.len() / 2])
}

fn digit(character: u8) -> Option<u8> {
    match character {
        b'0'..=b'9' => Some(character - b'0'),
        b'a'..=b'f' => Some(character - b'a' + 10),
        _ => None,
    }
}

/// One output line: answer, then reply, two digits a byte.
fn put(output: &mut impl Write, answer: u8, reply: &[u8]) -> io::Result<()> {
    put_byte(output, answer)?;
    for &byte in reply {
        put_byte(output, byte)?;
    }
    output.write_all(b"\n")
}

fn put_byte(output: &mut impl Write, byte: u8) -> io::Result<()> {
    const DIGITS: &[u8; 16] = b"0123456789abcdef";
    let high = DIGITS[usize::from(byte >> 4)];
    let low = DIGITS[usize::from(byte & 0x0F)];
    output.write_all(&[high, low])
}

/// The output for a bad line, which changes nothing.
fn bad(output: &mut impl Write) -> io::Result<()> {
    output.write_all(b"ff\n")
}
