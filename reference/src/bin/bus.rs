//! `bus` plays events from standard input, as `events` writes them, on the streaming
//! device from power-on. For each it prints what the bus and the pins show: `ack` or
//! `nack` of a byte written, the byte sent for one clocked, `-` where there is nothing;
//! then the alert, 0 or 1, and the pages that supply as a byte, page 0 the low bit.

use reference::stream::Stream;
use std::io::{self, BufRead, BufWriter, Write};
use std::process::ExitCode;

fn number<T: TryFrom<u32>>(text: &str) -> Option<T> {
    T::try_from(u32::from_str_radix(text, 16).ok()?).ok()
}

/// What the bus shows of an event; none for a line that is not one.
fn play(stream: &mut Stream, line: &str) -> Option<String> {
    let words: Vec<&str> = line.split(' ').collect();
    let mut shown = "-".to_string();
    match words[..] {
        ["start"] => drop(stream.start()),
        ["byte", byte] => {
            let ack = stream.byte(number(byte)?);
            shown = if ack { "ack" } else { "nack" }.to_string();
        }
        ["repeated"] => drop(stream.repeated_start()),
        ["clock"] => shown = format!("{:02x}", stream.clock()),
        ["stop"] => drop(stream.stop()),
        ["measure", page, quantity, word] => {
            stream.measure(number(page)?, number(quantity)?, number(word)?);
        }
        ["sample", word] => drop(stream.sample(number(word)?)),
        ["tick"] => drop(stream.tick()),
        ["alert"] => {
            let mut reply = [0];
            stream.alert_response(&mut reply);
            shown = format!("{:02x}", reply[0]);
        }
        _ => return None,
    }
    Some(shown)
}

/// The pages that supply, bit by bit.
fn supplies(stream: &Stream) -> u8 {
    let pages = stream.device.pages.iter().rev();
    pages.fold(0, |bits, page| bits << 1 | u8::from(page.supplies()))
}

fn run(input: impl BufRead, output: impl Write) -> io::Result<()> {
    let mut output = BufWriter::new(output);
    let mut stream = Stream::power_on();
    for line in input.lines() {
        let line = line?;
        let Some(shown) = play(&mut stream, &line) else {
            return Err(io::Error::other(format!("no event: {line}")));
        };
        let alert = u8::from(stream.device.alert);
        writeln!(output, "{shown} {alert} {:02x}", supplies(&stream))?;
    }
    output.flush()
}

fn main() -> ExitCode {
    match run(io::stdin().lock(), io::stdout().lock()) {
        Ok(()) => ExitCode::SUCCESS,
        Err(error) => {
            eprintln!("bus: {error}");
            ExitCode::FAILURE
        }
    }
}
