//! The frame file.

use reference::frame;
use std::io::{self, Read};

fn run(input: &[u8]) -> String {
    let mut output = Vec::new();
    frame::run(&mut &input[..], &mut output).unwrap();
    String::from_utf8(output).unwrap()
}

#[test]
fn example_of_the_data_sheet() {
    let input =
        "04e803\n0300003e2a\n0201c07ac1\n0201c078c1\n0501\n0501\n01c003\n0501\n0207c086c1\n";
    let output = "00\n00\n00c0\n0061\n00c0\n0eff\n00\n00c0\n0006e80300010000\n";
    assert_eq!(run(input.as_bytes()), output);
}

#[test]
fn a_tick_is_07_alone() {
    // VIN_OV is off for one tick, then tried, then tripped.
    let input = b"01c00180\n01c05688\n030002ff7b\n0201c078c1\n07\n0201c078c1\n0700\n0707\n\
        7\n0201c078c1\n07\n0201c078c1\n";
    let output = "00\n00\n00\n0041\n00\n0001\nff\nff\nff\n0001\n00\n0041\n";
    assert_eq!(run(input), output);
}

#[test]
fn last_line_without_lf() {
    assert_eq!(run(b""), "");
    assert_eq!(run(b"\n"), "ff\n");
    assert_eq!(run(b"0501\n"), "0eff\n");
    assert_eq!(run(b"0501"), "0eff\n");
    assert_eq!(run(b"0501\n0"), "0eff\nff\n");
    assert_eq!(run(b"\r"), "ff\n");
    assert_eq!(run(&[b'0'; 513]), "ff\n");
}

#[test]
fn bad_lines() {
    for line in [
        &b""[..],
        b"0",
        b"050",
        b"01C003",
        b"0501\r",
        b"0501\r\r",
        b"05 01",
        b" 0501",
        b"0501 ",
        b"05\x0001",
        b"\x00",
        b"05\xff\xfe",
        b"0g01",
        b"/501",
        b":501",
        b"`501",
        b"00",
        b"06",
        b"c003",
        b"ff",
        b"02",
        b"03",
        b"03000000",
        b"030000000000",
        b"04",
        b"0400",
        b"04000000",
        b"05",
        b"050100",
    ] {
        let input = [line, b"\n0207c086c1\n"].concat();
        assert_eq!(run(&input), "ff\n0006000000000000\n", "{line:?}");
    }
}

#[test]
fn good_lines_with_refusals() {
    assert_eq!(run(b"01\n"), "02\n");
    assert_eq!(run(b"0203\n"), "02ffffff\n");
    assert_eq!(run(b"0200\n"), "02\n");
    assert_eq!(run(b"0308000000\n"), "0c\n");
    assert_eq!(run(b"0300040000\n"), "0c\n");
    assert_eq!(run(b"040080\n"), "0d\n");
    assert_eq!(run(b"0500\n"), "02\n");
    assert_eq!(run(b"0502\n"), "02ffff\n");
    assert_eq!(run(b"01c099\n"), "03\n");
    assert_eq!(run(b"0201c079c1\n"), "0a40\n");
}

#[test]
fn lines_up_to_512_characters() {
    let mut line = b"01c000".to_vec();
    line.resize(510, b'0');
    for (length, output) in [
        (510, "06"),
        (511, "ff"),
        (512, "06"),
        (513, "ff"),
        (514, "ff"),
    ] {
        line.resize(length, b'0');
        let input = [&line[..], b"\n0501\n"].concat();
        let next = if output == "06" { "00c0" } else { "0eff" };
        assert_eq!(run(&input), format!("{output}\n{next}\n"), "{length}");
    }
    let input = [&vec![b'0'; 200_000][..], b"\n0501\n"].concat();
    assert_eq!(run(&input), "ff\n0eff\n");
}

#[test]
fn reply_of_255_bytes() {
    let output = run(b"02ffc098c1\n");
    assert_eq!(output.len(), 513);
    assert!(output.starts_with("0b22"));
    assert!(output.ends_with("ffff\n"));
}

/// A reader that gives one byte a time, with interruptions.
struct Slow<'a>(&'a [u8], bool);

impl Read for Slow<'_> {
    fn read(&mut self, buffer: &mut [u8]) -> io::Result<usize> {
        self.1 = !self.1;
        if self.1 {
            return Err(io::ErrorKind::Interrupted.into());
        }
        let Some((first, rest)) = self.0.split_first() else {
            return Ok(0);
        };
        buffer[0] = *first;
        self.0 = rest;
        Ok(1)
    }
}

#[test]
fn blocks_of_any_size() {
    let input = b"04e803\n0300003e2a\n\nzz\n0202c079c1\n0501";
    let mut output = Vec::new();
    frame::run(&mut Slow(input, false), &mut output).unwrap();
    assert_eq!(output, run(input).into_bytes());
    assert_eq!(output, b"00\n00\nff\nff\n006188\n00c0\n");
}
