//! The host's side of the bus: the bytes of every write and read that the command table
//! has, put into a buffer of the caller's, and the replies read back into numbers.
//!
//! A write is C0h, the code, the data and, if asked for, the PEC; a read is the header
//! C0h, code, C1h, and a count of bytes to clock: the data, and the PEC if asked for.
//! Every refusal leaves the buffer as it is.

use crate::account::Account;
use crate::command::{self, Command};
use crate::lent::{READ_ADDRESS, WRITE_ADDRESS};
use crate::pec::{pec, pec_from};

/// What was built, or why nothing was.
#[derive(Clone, Copy, Debug, PartialEq, Eq)]
pub struct Built {
    pub answer: u8,
    /// Bytes of the frame; 0 under a refusal.
    pub length: usize,
    /// Bytes to clock behind the header of a read; 0 for a write and under a refusal.
    pub count: usize,
}

/// What a reply says, in the field that its code has; the others are 0, and all are
/// under a refusal.
#[derive(Clone, Copy, Debug, Default, PartialEq, Eq)]
pub struct Reply {
    pub answer: u8,
    pub byte: u8,
    pub word: u16,
    pub account: Account,
}

/// A write of the code with its data, from `place` on in the buffer. Answers 3, 5, 6 by
/// the table, where the PEC does not count as data, then 26 where there is no room.
pub fn write(buffer: &mut [u8], place: usize, code: u8, data: &[u8], check: bool) -> Built {
    let command = match command::lookup(code) {
        Some(command) if command.written() => command,
        _ => return refused(3),
    };
    if data.len() < command.data {
        return refused(5);
    }
    if data.len() > command.data {
        return refused(6);
    }
    let mut frame = vec![WRITE_ADDRESS, code];
    frame.extend(data);
    if check {
        frame.push(pec(&frame));
    }
    put(buffer, place, &frame, 0)
}

/// The header of a read of the code, from `place` on in the buffer, and the count of
/// bytes to clock. Answer 3 by the table, then 26 where there is no room.
pub fn read(buffer: &mut [u8], place: usize, code: u8, check: bool) -> Built {
    match readable(code) {
        Some(command) => {
            let count = clocked(command, check);
            put(buffer, place, &header(code), count)
        }
        None => refused(3),
    }
}

/// Reads the reply to a read of the code, clocked with its PEC or without. Answers 3 by
/// the table; 20 unless the length is the count clocked; 21 for the PEC; 22 and 23 for
/// an account.
pub fn reply(code: u8, check: bool, bytes: &[u8]) -> Reply {
    match judge(code, check, bytes) {
        Ok(reply) => reply,
        Err(answer) => Reply {
            answer,
            ..Reply::default()
        },
    }
}

fn judge(code: u8, check: bool, bytes: &[u8]) -> Result<Reply, u8> {
    let command = readable(code).ok_or(3)?;
    if bytes.len() != clocked(command, check) {
        return Err(20);
    }
    let (data, rest) = bytes.split_at(command.data);
    if check && rest != [pec_from(pec(&header(code)), data)] {
        return Err(21);
    }
    let mut reply = Reply::default();
    match *data {
        [byte] => reply.byte = byte,
        [low, high] => reply.word = u16::from_le_bytes([low, high]),
        _ => {
            let data = data.try_into().expect("one, two or seven data bytes");
            reply.account = Account::from_bytes(data)?;
        }
    }
    Ok(reply)
}

/// The row of a code that can be read.
fn readable(code: u8) -> Option<&'static Command> {
    command::lookup(code).filter(|command| command.read())
}

/// The bytes of a read up to the second address byte.
fn header(code: u8) -> [u8; 3] {
    [WRITE_ADDRESS, code, READ_ADDRESS]
}

/// How many bytes the host clocks.
fn clocked(command: &Command, check: bool) -> usize {
    command.data + usize::from(check)
}

fn refused(answer: u8) -> Built {
    Built {
        answer,
        length: 0,
        count: 0,
    }
}

/// Puts a frame into the buffer where it fits behind the place.
fn put(buffer: &mut [u8], place: usize, frame: &[u8], count: usize) -> Built {
    let room = buffer
        .get_mut(place..)
        .and_then(|behind| behind.get_mut(..frame.len()));
    match room {
        Some(room) => {
            room.copy_from_slice(frame);
            Built {
                answer: 0,
                length: frame.len(),
                count,
            }
        }
        None => refused(26),
    }
}
