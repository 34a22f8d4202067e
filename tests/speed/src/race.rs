//! Candidates for the same work, timed in turn, and the table of their times.

use std::hint::black_box;
use std::time::{Duration, Instant};

/// Repetitions of every candidate's batch.
pub const REPETITIONS: usize = 640;

/// Stack depths that the batches run at. How long a large struct takes to copy depends on where it lies.
const DEPTHS: usize = 64;

/// Best and median of many repetitions.
#[derive(Clone, Copy)]
pub struct Times {
    pub best: f64,
    pub median: f64,
}

impl Times {
    /// In the unit of `each`, which is the number of calls in a batch.
    pub fn of(mut all: Vec<Duration>, each: f64) -> Times {
        all.sort();
        let nanoseconds = |time: Duration| time.as_nanos() as f64 / each;
        Times {
            best: nanoseconds(all[0]),
            median: nanoseconds(all[all.len() / 2]),
        }
    }
}

/// Runs `work` deeper in the stack.
#[inline(never)]
fn deeper(depth: usize, work: &mut dyn FnMut()) {
    let room = black_box([0u8; 16]);
    if depth == 0 {
        work();
    } else {
        deeper(depth - 1, work);
    }
    black_box(&room);
}

/// A batch of `calls` calls.
pub struct Candidate<'a>(pub Box<dyn FnMut() + 'a>);

/// Nanoseconds a call of each candidate: in each repetition one batch of every one, in rotating order.
pub fn race(calls: usize, candidates: &mut [Candidate]) -> Vec<Times> {
    let count = candidates.len();
    let mut all = vec![Vec::with_capacity(REPETITIONS); count];
    for repetition in 0..REPETITIONS {
        for turn in 0..count {
            let place = (repetition + turn) % count;
            let batch = &mut candidates[place].0;
            deeper(repetition % DEPTHS, &mut || {
                let start = Instant::now();
                batch();
                all[place].push(start.elapsed());
            });
        }
    }
    all.into_iter()
        .map(|times| Times::of(times, calls as f64))
        .collect()
}

/// Rounded up, so that no ratio is shown smaller than it is.
pub fn ratio(ours: Times, theirs: Times) -> String {
    let up = |ours: f64, theirs: f64| (ours / theirs * 100.0).ceil() / 100.0;
    format!(
        "{:.2} / {:.2}",
        up(ours.best, theirs.best),
        up(ours.median, theirs.median)
    )
}

fn figures(times: Times) -> String {
    format!("{:.1} / {:.1}", times.best, times.median)
}

/// The head of a table: the library, and each of those that it is held against.
pub fn print_head(rivals: &[&str]) {
    print!("| Call | library, ns |");
    for rival in rivals {
        print!(" {rival}, ns | ratio |");
    }
    println!("\n|---|---|{}", "---|---|".repeat(rivals.len()));
}

/// A row: the library's times come first.
pub fn print_row(name: &str, times: &[Times]) {
    let ours = times[0];
    print!("| {name} | {} |", figures(ours));
    for &rival in &times[1..] {
        print!(" {} | {} |", figures(rival), ratio(ours, rival));
    }
    println!();
}
