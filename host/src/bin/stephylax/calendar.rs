//! The commands day and date.

use crate::arguments::{whole_number, Arguments};
use crate::dates::{date_and_time, date_text, instant, instant_text, instant_word};
use crate::failure::Failure;
use crate::json::Json;
use crate::report::Report;
use crate::Done;
use stephylax::{date_of_day, date_of_instant, day_of_date, instant_of_date, Date};

pub fn day(rest: &[String], report: &mut Report) -> Result<Done, Failure> {
    let arguments = Arguments::sorted(rest, &[], &[])?;
    arguments.count(1, 2, "day")?;
    let (number, t) = if arguments.words == ["now"] {
        let t = instant(&arguments.words)?;
        let Date { year, month, day, .. } = date_of_instant(t)?;
        (day_of_date(year, month, day)?, Some(t))
    } else {
        let ([year, month, day], ms) = date_and_time(&arguments.words)?;
        let number = day_of_date(year, month, day)?;
        (number, ms.map(|ms| instant_of_date(year, month, day, ms)).transpose()?)
    };
    let second = t.map_or(String::new(), |t| format!("t = {t} ms from 2000-01-01 12:00 TD\n"));
    let answer = Json::Object(vec![("day_number", number.into()), ("t", t.into())]);
    report.give(&format!("{number}\n{second}"), answer)?;
    Ok(Done::Answered)
}

pub fn date(rest: &[String], report: &mut Report) -> Result<Done, Failure> {
    let arguments = Arguments::sorted(rest, &["--t"], &[])?;
    if let Some(t) = arguments.number("--t")? {
        arguments.count(0, 0, "date")?;
        let answer = Json::Object(vec![("td", instant_word(t)?.into()), ("t", t.into())]);
        report.give(&format!("{} TD\n", instant_text(t)?), answer)?;
        return Ok(Done::Answered);
    }
    arguments.count(1, 1, "date")?;
    let number = whole_number(&arguments.words[0], "day number")?;
    let date = date_text(date_of_day(number)?);
    let answer = Json::Object(vec![("date", date.as_str().into()), ("day_number", number.into())]);
    report.give(&format!("{date}\n"), answer)?;
    Ok(Done::Answered)
}
