//! The command line of Stephylax. Every answer and every refusal is the proved library's.

mod arguments;
mod calendar;
mod changes;
mod clock;
mod commands;
mod coordinates;
mod data;
mod dates;
mod failure;
mod help;
mod json;
mod list;
mod mending;
mod output;
mod packing;
mod picture;
mod place;
mod place_tables;
mod progress;
mod report;
mod runs;
mod series;
mod sight;
mod started;
mod tables;
mod version;
mod window;

use failure::Failure;
use report::Report;
use std::process::ExitCode;

/// How a command ended that was answered.
pub enum Done {
    Answered,
    /// A quiet list without a minute.
    NoneListed,
}

fn words() -> Result<Vec<String>, Failure> {
    let word =
        |word: std::ffi::OsString| word.into_string().map_err(|word| Failure::Use(format!("{word:?} is not UTF-8")));
    std::env::args_os().skip(1).map(word).collect()
}

fn main() -> ExitCode {
    let mut report = Report::default();
    let done = words().and_then(|words| {
        report.begin(&words);
        commands::run(&words, &mut report)
    });
    match done {
        Ok(Done::Answered) => ExitCode::SUCCESS,
        Ok(Done::NoneListed) => ExitCode::from(4),
        Err(failure) => {
            report.fail(&failure);
            ExitCode::from(failure.status())
        }
    }
}
