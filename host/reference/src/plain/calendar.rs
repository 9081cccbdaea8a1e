//! Calendar.

use super::{refused, within_limit, Refused};

#[derive(Clone, Copy, Debug, PartialEq, Eq)]
pub struct Date {
    pub year: i64,
    pub month: i64,
    pub day: i64,
}

const DAY_MS: i64 = 86_400_000;
const LAST_DAY_NUMBER: i64 = 5_373_484;

fn leap(year: i64) -> bool {
    if year <= 1582 {
        return year.rem_euclid(4) == 0;
    }
    year % 4 == 0 && (year % 100 != 0 || year % 400 == 0)
}

fn last_day_of_month(year: i64, month: i64) -> i64 {
    match month {
        2 if leap(year) => 29,
        2 => 28,
        4 | 6 | 9 | 11 => 30,
        _ => 31,
    }
}

/// The day number of a date that exists.
fn day_number(date: Date) -> i64 {
    let Date { year, month, day } = date;
    let gregorian = (year, month, day) >= (1582, 10, 15);
    let (a, m) = if month <= 2 { (year - 1, month + 12) } else { (year, month) };
    let century = a.div_euclid(100);
    let beta = if gregorian { 2 - century + century.div_euclid(4) } else { 0 };
    (1461 * (a + 4716)).div_euclid(4) + (306_001 * (m + 1)).div_euclid(10_000) + day + beta - 1524
}

pub fn day_of_date(year: i64, month: i64, day: i64) -> Result<i64, Refused> {
    if !(-4712..=9999).contains(&year) {
        return refused(1, 1);
    }
    if !(1..=12).contains(&month) {
        return refused(1, 2);
    }
    let skipped = year == 1582 && month == 10 && (5..=14).contains(&day);
    if day < 1 || last_day_of_month(year, month) < day || skipped {
        return refused(1, 3);
    }
    Ok(day_number(Date { year, month, day }))
}

pub fn date_of_day(n: i64) -> Result<Date, Refused> {
    if !(0..=LAST_DAY_NUMBER).contains(&n) {
        return refused(1, 5);
    }
    let first_of = |year, month| day_number(Date { year, month, day: 1 });
    let mut year = n * 4 / 1461 - 4711;
    while n < first_of(year, 1) {
        year -= 1;
    }
    let mut month = 12;
    while n < first_of(year, month) {
        month -= 1;
    }
    let mut day = n - first_of(year, month) + 1;
    if year == 1582 && month == 10 && 4 < day {
        day += 10;
    }
    Ok(Date { year, month, day })
}

pub fn instant_of_date(year: i64, month: i64, day: i64, ms: i64) -> Result<i64, Refused> {
    let n = day_of_date(year, month, day)?;
    if !(0..DAY_MS).contains(&ms) {
        return refused(1, 4);
    }
    let t = DAY_MS * (n - 2_451_545) + ms - DAY_MS / 2;
    within_limit(t)?;
    Ok(t)
}

/// The date, and the milliseconds of its day.
pub fn date_of_instant(t: i64) -> Result<(Date, i64), Refused> {
    within_limit(t)?;
    let since_midnight = t + DAY_MS / 2;
    let date = date_of_day(since_midnight.div_euclid(DAY_MS) + 2_451_545)?;
    Ok((date, since_midnight.rem_euclid(DAY_MS)))
}
