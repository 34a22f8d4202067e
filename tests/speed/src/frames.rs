//! Two programs on the same frame file, run in turn.

use crate::race::{ratio, Times};
use std::fs::{self, File};
use std::process::{Command, Stdio};
use std::time::{Duration, Instant};

const RUNS: usize = 21;

/// One run, from the process's start to its end; what it printed goes to a file.
fn run(program: &str, input: &str, output: &str) -> Duration {
    let input = File::open(input).expect("the frame file");
    let output = File::create(output).expect("the output file");
    let mut command = Command::new(program);
    command
        .stdin(Stdio::from(input))
        .stdout(Stdio::from(output));
    let start = Instant::now();
    let status = command.status().expect("the program starts");
    let time = start.elapsed();
    assert!(status.success(), "{program}: {status}");
    time
}

/// Compares what the two programs print, then times them.
pub fn compare(bench: &str, reference: &str, file: &str) {
    let programs = [bench, reference];
    let outputs = [format!("{file}.bench"), format!("{file}.reference")];
    for (program, output) in programs.iter().zip(&outputs) {
        run(program, file, output);
    }
    let printed = outputs
        .each_ref()
        .map(|output| fs::read(output).expect("the output file"));
    assert!(printed[0] == printed[1], "the two programs differ");
    let frames = printed[0].iter().filter(|&&byte| byte == b'\n').count();

    let mut all = [Vec::new(), Vec::new()];
    for turn in 0..2 * RUNS {
        // first one, second one, second one, first one, ...
        let place = (turn + turn / 2) % 2;
        all[place].push(run(programs[place], file, &outputs[place]));
    }
    let [ours, theirs] = all.map(|times| Times::of(times, 1e6));
    println!("{frames} frames, best / median of {RUNS} runs.\n");
    println!("| Program | ms | frames a second |");
    println!("|---|---|---|");
    for (name, times) in [("bench", ours), ("reference", theirs)] {
        let rate = |ms: f64| (frames as f64 / ms * 1e3).round();
        println!(
            "| {name} | {:.1} / {:.1} | {} / {} |",
            times.best,
            times.median,
            rate(times.best),
            rate(times.median)
        );
    }
    println!(
        "\nTime of bench over time of reference: {}",
        ratio(ours, theirs)
    );
}
