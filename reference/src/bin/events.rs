//! `events SEED` turns a frame file on standard input into events of the bus and calls
//! beside it, one a line, on standard output: a write and a read from START to STOP,
//! some of them out of order, without STOP or with calls between their events.
//!
//! ```text
//! start            measure PAGE QUANTITY WORD
//! byte BYTE        sample WORD
//! repeated         tick
//! clock            alert
//! stop
//! ```
//!
//! Numbers are hexadecimal. `alert` is an alert response of one byte.

use reference::frame::{self, LINE};
use reference::random::Random;
use std::io::{self, BufRead, BufWriter, Write};
use std::process::ExitCode;

/// The events of a frame; none where the line is bad.
fn events_of(frame: &[u8]) -> Vec<String> {
    match *frame {
        [0x01, ref bytes @ ..] => {
            let mut events = vec!["start".to_string()];
            events.extend(bytes.iter().map(|byte| format!("byte {byte:02x}")));
            events.push("stop".to_string());
            events
        }
        [0x02, n, ref header @ ..] => {
            let mut events = events_of(&[&[0x01], header].concat());
            events.insert(header.len().max(1), "repeated".to_string());
            let clocked = vec!["clock".to_string(); usize::from(n)];
            events.splice(events.len() - 1..events.len() - 1, clocked);
            events
        }
        [0x03, page, quantity, low, high] => {
            vec![format!(
                "measure {page:02x} {quantity:02x} {high:02x}{low:02x}"
            )]
        }
        [0x04, low, high] => vec![format!("sample {high:02x}{low:02x}")],
        [0x05, _] => vec!["alert".to_string()],
        [0x07] => vec!["tick".to_string()],
        _ => vec![],
    }
}

fn any_event(random: &mut Random) -> String {
    let byte = random.byte();
    match random.below(8) {
        0 => "start".to_string(),
        1 => "repeated".to_string(),
        2 | 3 => "clock".to_string(),
        4 => "stop".to_string(),
        _ => format!("byte {:02x}", random.pick(&[0xC0, 0xC1, 0x79, byte])),
    }
}

/// One event more, one less, one twice, or two in each other's place.
fn slip(random: &mut Random, events: &mut Vec<String>) {
    let place = random.below(events.len());
    match random.below(4) {
        0 => events.insert(place, any_event(random)),
        1 if events.len() > 1 => drop(events.remove(place)),
        2 => events.insert(place, events[place].clone()),
        _ => events.swap(place, place.saturating_sub(1)),
    }
}

/// Slips in some transactions, and the calls `held` back for one between its events.
fn disturb(random: &mut Random, events: &mut Vec<String>, held: &mut Vec<String>) {
    match random.below(10) {
        0 => slip(random, events),
        1 => drop(events.pop()),
        _ => {}
    }
    for call in held.drain(..) {
        let place = random.below(events.len() + 1);
        events.insert(place, call);
    }
}

fn convert(seed: u64, input: impl BufRead, output: impl Write) -> io::Result<()> {
    let mut output = BufWriter::new(output);
    let mut random = Random::new(seed);
    let mut held = vec![];
    for line in input.split(b'\n') {
        let mut buffer = [0; LINE / 2];
        let frame = frame::decode(&line?, &mut buffer);
        let mut events = events_of(frame.unwrap_or(&[]));
        match events.len() {
            0 => events.push(any_event(&mut random)),
            1 if random.percent(30) => held.append(&mut events),
            1 => {}
            _ => disturb(&mut random, &mut events, &mut held),
        }
        for event in events {
            writeln!(output, "{event}")?;
        }
    }
    output.flush()
}

fn main() -> ExitCode {
    let arguments: Vec<String> = std::env::args().skip(1).collect();
    let seed = match &arguments[..] {
        [seed] => seed.parse().ok(),
        _ => None,
    };
    let Some(seed) = seed else {
        eprintln!("usage: events SEED");
        return ExitCode::from(2);
    };
    match convert(seed, io::stdin().lock(), io::stdout().lock()) {
        Ok(()) => ExitCode::SUCCESS,
        Err(error) => {
            eprintln!("events: {error}");
            ExitCode::FAILURE
        }
    }
}
