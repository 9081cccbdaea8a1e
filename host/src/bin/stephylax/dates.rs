//! Dates and times of TD as people write them. Which of them exist is left to the library.

use crate::arguments::whole_number;
use crate::clock::{now, today};
use crate::failure::Failure;
use stephylax::{date_of_instant, instant_of_date, Date};

const NOW: &str = "now";

fn all_digits(part: &str) -> bool {
    !part.is_empty() && part.bytes().all(|byte| byte.is_ascii_digit())
}

/// Reads 2026-11-15. A year has four digits, so that none is cut short by mistake, and may have a sign.
pub fn date(word: &str) -> Result<[i64; 3], Failure> {
    let wrong =
        || Failure::Use(format!("`{word}` is not a date like 2026-11-15 or -0044-03-15, its year with four digits"));
    let sign = if word.starts_with('-') { "-" } else { "" };
    let parts: Vec<&str> = word.strip_prefix(['-', '+']).unwrap_or(word).split('-').collect();
    let [year, month, day] = parts[..] else {
        return Err(wrong());
    };
    // More digits make a year that the library refuses.
    let whole_year = all_digits(year) && (year.len() == 4 || 4 < year.len() && !year.starts_with('0'));
    if !whole_year || [month, day].iter().any(|part| !all_digits(part) || 2 < part.len()) {
        return Err(wrong());
    }
    Ok([whole_number(&format!("{sign}{year}"), "year")?, whole_number(month, "month")?, whole_number(day, "day")?])
}

/// Reads 18:30, 18:30:05 or 18:30:05.250 as milliseconds since midnight. Hours past 23 are left to the library to refuse.
pub fn time(word: &str) -> Result<i64, Failure> {
    let wrong = || Failure::Use(format!("`{word}` is not a time like 18:30 or 18:30:05.250"));
    let number = |part: &str, most: usize| -> Result<i64, Failure> {
        if !all_digits(part) || most < part.len() {
            return Err(wrong());
        }
        part.parse().map_err(|_| wrong())
    };
    let (clock, fraction) = match word.split_once('.') {
        Some((clock, fraction)) => (clock, Some(fraction)),
        None => (word, None),
    };
    let thousandths = match fraction {
        Some("") => return Err(wrong()),
        Some(fraction) => number(&format!("{fraction:0<3}"), 3)?,
        None => 0,
    };
    let (hours, minutes, seconds) = match clock.split(':').collect::<Vec<&str>>()[..] {
        [hours, minutes] if fraction.is_none() => (hours, minutes, "00"),
        [hours, minutes, seconds] => (hours, minutes, seconds),
        _ => return Err(wrong()),
    };
    let (hours, minutes, seconds) = (number(hours, 4)?, number(minutes, 2)?, number(seconds, 2)?);
    if 59 < minutes || 59 < seconds {
        return Err(wrong());
    }
    Ok(((hours * 60 + minutes) * 60 + seconds) * 1000 + thousandths)
}

/// Whether a word begins as a date or a time does.
fn is_numeral(word: &str) -> bool {
    let digits = word.strip_prefix(['-', '+']).unwrap_or(word);
    digits.starts_with(|first: char| first.is_ascii_digit())
}

/// Whether a word is meant as a date or a time, and not as a series.
fn is_when(word: &str) -> bool {
    word == NOW || is_numeral(word) && !word.contains('/')
}

/// Parts the words of a command where its date begins.
pub fn parted_at_date(words: &[String]) -> (Vec<&str>, &[String]) {
    let at = words.iter().position(|word| is_when(word)).unwrap_or(words.len());
    (words[..at].iter().map(String::as_str).collect(), &words[at..])
}

/// Parts DATETTIME. A word that is no date keeps its `t`.
fn parted_at_t(word: &str) -> Option<(&str, &str)> {
    word.split_once(['T', 't']).filter(|(day, _)| is_numeral(day))
}

/// A date, and a time if there is one, of the words DATE, DATE TIME or DATETTIME; today if there are none.
pub fn date_and_time(words: &[String]) -> Result<([i64; 3], Option<i64>), Failure> {
    match words {
        [] => Ok((today()?, None)),
        [first, _, ..] if first == NOW => Err(Failure::Use("`now` takes no time: it is a date and a time".to_string())),
        [one] => match parted_at_t(one) {
            Some((day, clock)) => Ok((date(day)?, Some(time(clock)?))),
            None => Ok((date(one)?, None)),
        },
        [day, clock] => Ok((date(day)?, Some(time(clock)?))),
        [.., more] => Err(Failure::Use(format!("`{more}` is a word too many after the date and the time"))),
    }
}

/// The instant of these words, or of `now`.
pub fn instant(words: &[String]) -> Result<i64, Failure> {
    if words.len() == 1 && words[0] == NOW {
        return now();
    }
    let ([year, month, day], ms) = date_and_time(words)?;
    Ok(instant_of_date(year, month, day, ms.unwrap_or(0))?)
}

/// A year as a date has it: four digits, and a minus before.
fn year_text(year: i64) -> String {
    let sign = if year < 0 { "-" } else { "" };
    format!("{sign}{:04}", year.abs())
}

pub fn date_text(date: Date) -> String {
    format!("{}-{:02}-{:02}", year_text(date.year), date.month, date.day)
}

/// The time of a date, with seconds and their thousandths where they are not 0.
pub fn time_text(date: Date) -> String {
    let (seconds, thousandths) = (date.ms / 1000, date.ms % 1000);
    let clock = format!("{:02}:{:02}", seconds / 3600, seconds / 60 % 60);
    match (seconds % 60, thousandths) {
        (0, 0) => clock,
        (second, 0) => format!("{clock}:{second:02}"),
        (second, _) => format!("{clock}:{second:02}.{thousandths:03}"),
    }
}

/// Date and time of an instant.
pub fn instant_text(t: i64) -> Result<String, Failure> {
    let date = date_of_instant(t)?;
    Ok(format!("{} {}", date_text(date), time_text(date)))
}

/// The same as one word, for programs.
pub fn instant_word(t: i64) -> Result<String, Failure> {
    Ok(instant_text(t)?.replace(' ', "T"))
}
