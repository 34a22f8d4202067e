//! The bench program: a frame file on standard input, answers on standard output.
//! `reference [PAGES]`, eight pages by default.

use reference::frame::{self, Shelf};
use std::io;
use std::process::ExitCode;

/// The shelf that the arguments ask for.
fn shelf() -> Option<Shelf> {
    let arguments: Vec<String> = std::env::args().skip(1).collect();
    match &arguments[..] {
        [] => Shelf::power_on(8),
        [pages] => Shelf::power_on(pages.parse().ok()?),
        _ => None,
    }
}

fn main() -> ExitCode {
    let Some(mut shelf) = shelf() else {
        eprintln!("usage: reference [PAGES], 1 to 96");
        return ExitCode::from(2);
    };
    match frame::run_on(
        &mut shelf,
        &mut io::stdin().lock(),
        &mut io::stdout().lock(),
    ) {
        Ok(()) => ExitCode::SUCCESS,
        Err(error) => {
            eprintln!("reference: {error}");
            ExitCode::FAILURE
        }
    }
}
