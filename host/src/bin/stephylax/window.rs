//! The window that a command asks for: where it begins and how long it is.

use crate::arguments::Arguments;
use crate::dates::{instant_text, instant_word};
use crate::failure::Failure;
use crate::json::Json;

/// Minutes of a day.
pub const DAY: i64 = 1440;
pub const MINUTE_MS: i64 = 60_000;

pub struct Window {
    /// The first instant.
    pub t0: i64,
    pub minutes: i64,
}

impl Window {
    /// The minutes that were asked for: --minutes, or --days, or a day.
    pub fn asked(t0: i64, arguments: &Arguments) -> Result<Window, Failure> {
        arguments.at_most_one(&["--days", "--minutes"])?;
        let days = arguments.number("--days")?.unwrap_or(1).checked_mul(DAY);
        let minutes = match arguments.number("--minutes")? {
            Some(minutes) => Some(minutes),
            None => days,
        };
        let too_long = || Failure::Use("the window is too long to be counted in milliseconds of 64 bits".to_string());
        let minutes = minutes.ok_or_else(too_long)?;
        let length = minutes.checked_mul(MINUTE_MS).ok_or_else(too_long)?;
        t0.checked_add(length).ok_or_else(too_long)?;
        Ok(Window { t0, minutes })
    }

    /// The instant of a minute.
    pub fn at(&self, minute: i64) -> i64 {
        self.t0 + MINUTE_MS * minute
    }

    pub fn last_minute(&self) -> i64 {
        self.at(self.minutes - 1)
    }

    /// Date and time of a minute.
    pub fn when(&self, minute: i64) -> Result<String, Failure> {
        instant_text(self.at(minute))
    }

    /// The same as one word, for programs.
    pub fn word(&self, minute: i64) -> Result<String, Failure> {
        instant_word(self.at(minute))
    }

    /// The window, and what else is asked of it.
    pub fn json(&self, more: (&'static str, i64)) -> Result<Json, Failure> {
        Ok(Json::Object(vec![
            ("t0", self.t0.into()),
            ("from_td", instant_word(self.t0)?.into()),
            ("minutes", self.minutes.into()),
            (more.0, more.1.into()),
        ]))
    }
}
