//! The bench sheet's lines by program (data sheet 14.2), on the library.

use conformance::calls::{on_both, Call};
use conformance::library;
use reference::frame;

#[test]
fn bench_sheet_by_program() {
    assert_eq!(library::pec(b"123456789"), 0xF4);

    let write = |bytes: &[u8]| Call::Write(bytes.to_vec());
    let read = |code: u8, n: usize| Call::Read(vec![0xC0, code, 0xC1], n);
    // Each from power-on: the call, and the answer it gets.
    let rows = [
        (write(&[0xC0, 0x00, 0x07]), 0),
        (write(&[0xC0, 0x00, 0x08]), 9),
        (write(&[0xC0, 0x00]), 5),
        (write(&[0xC0, 0x00, 0x01, 0x00, 0x00]), 6),
        (write(&[0xC0, 0x47, 0x80]), 9),
        (write(&[0xC0, 0x7A, 0x80]), 0),
        (Call::Sample(32767), 0),
        (Call::Sample(32768), 13),
        (read(0x79, 1), 10),
        (read(0x79, 2), 0),
        (read(0x79, 3), 0),
        (read(0x79, 4), 11),
    ];
    for (call, answer) in &rows {
        assert_eq!(
            on_both(library::power_on(), call, 0x55).answer,
            *answer,
            "{call:02x?}"
        );
    }
    println!(
        "  bench sheet: PEC of \"123456789\" is f4, and {} calls from power-on get their answers",
        rows.len()
    );
}

/// The frames of data sheet 13.7, in and out.
#[test]
fn frames() {
    let read = |code: u8, n: usize| Call::Read(vec![0xC0, code, 0xC1], n);
    let rows = [
        ("04e803", Call::Sample(1000), "00"),
        ("0300003e2a", Call::Measure(0, 0, 0x2A3E), "00"),
        ("0201c07ac1", read(0x7A, 1), "00c0"),
        ("0201c078c1", read(0x78, 1), "0061"),
        ("0501", Call::AlertResponse(1), "00c0"),
        ("0501", Call::AlertResponse(1), "0eff"),
        ("01c003", Call::Write(vec![0xC0, 0x03]), "00"),
        ("0501", Call::AlertResponse(1), "00c0"),
        ("0207c086c1", read(0x86, 7), "0006e80300010000"),
    ];
    let mut device = library::power_on();
    let mut second = frame::Shelf::power_on(8).expect("eight pages");
    for (line, call, expected) in rows {
        let outcome = on_both(device, &call, 0x55);
        device = outcome.device;
        let text: String = [outcome.answer]
            .iter()
            .chain(&outcome.reply)
            .map(|byte| format!("{byte:02x}"))
            .collect();
        assert_eq!(text, expected, "{line}");
        // The same line through the second program's frame reader.
        let mut out = Vec::new();
        frame::answer(&mut second, line.as_bytes(), &mut out).expect("a write to memory");
        assert_eq!(out, format!("{expected}\n").as_bytes(), "{line}");
    }
    println!("  frames: the nine of the data sheet give their nine lines");
}
