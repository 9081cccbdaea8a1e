//! Two builds of the benchmark beside each other: what the library takes in this one, and in a former one.
//!
//! `cargo build --release` makes this program and `bench`. `beside FORMER [words]` then runs FORMER, a kept copy of an earlier `bench`, and
//! the `bench` that stands beside this program, in turn, several times, each with `--quick` and the words that choose lines. It prints
//! the least times and their ratio, since what others do on the machine only adds to a time. A line that only one of the two builds has
//! is without a ratio. Fewer lines make shorter turns, so that a slow minute of the machine meets both builds.

use std::path::{Path, PathBuf};
use std::process::Command;

const TURNS: usize = 21;

/// Columns of a line of the benchmark: a name, a unit, and then the figures, the library's first.
const NAME: usize = 40;
const UNIT: usize = 5;
const FIGURE: usize = 11;

/// The unit of the lines that say how much is read in a second. They are left out: other lines have the time of the same work.
const SPEED: &str = "MB/s";

/// The least time of each line, in the order in which the lines are printed.
type Times = Vec<(String, f64)>;

/// The library's time, if this is a line with one.
fn reading(line: &str) -> Option<(String, f64)> {
    let unit = line.get(NAME..NAME + UNIT)?.trim();
    if unit == SPEED {
        return None;
    }
    let name = format!("{} ({unit})", line.get(..NAME)?.trim_end());
    Some((name, line.get(NAME + UNIT..NAME + UNIT + FIGURE)?.trim().parse().ok()?))
}

fn measure(program: &Path, words: &[String], times: &mut Times) {
    let output = Command::new(program).arg("--quick").args(words).output();
    let output = output.unwrap_or_else(|error| panic!("{}: {error}", program.display()));
    assert!(output.status.success(), "{} failed", program.display());
    let text = String::from_utf8(output.stdout).expect("the benchmark writes text");
    for (name, time) in text.lines().filter_map(reading) {
        match times.iter_mut().find(|(known, _)| *known == name) {
            Some((_, least)) => *least = least.min(time),
            None => times.push((name, time)),
        }
    }
    assert!(!times.is_empty(), "{} has no line with these words", program.display());
}

fn time_of(times: &Times, name: &str) -> Option<f64> {
    times.iter().find(|(known, _)| known == name).map(|(_, time)| *time)
}

fn figure(value: Option<f64>) -> String {
    value.map_or("-".to_string(), |v| format!("{v:.2}"))
}

fn main() {
    let mut words = std::env::args().skip(1);
    let former = PathBuf::from(words.next().expect("the former benchmark's path"));
    let words: Vec<String> = words.collect();
    let this = std::env::current_exe().expect("this program has a path").with_file_name("bench");
    let (mut before, mut after) = (Times::new(), Times::new());
    for _ in 0..TURNS {
        measure(&former, &words, &mut before);
        measure(&this, &words, &mut after);
    }
    println!("{:<48}{:>11}{:>11}{:>8}", "the library, least times", "before", "after", "ratio");
    let new = after.iter().filter(|(name, _)| time_of(&before, name).is_none());
    for (name, _) in before.iter().chain(new) {
        let (before, after) = (time_of(&before, name), time_of(&after, name));
        let ratio = before.zip(after).map(|(before, after)| after / before);
        println!("{name:<48}{:>11}{:>11}{:>8}", figure(before), figure(after), figure(ratio));
    }
}
