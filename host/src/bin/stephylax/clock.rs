//! The system's clock.

use crate::failure::Failure;
use stephylax::date_of_day;

/// The noon day number of 1970-01-01, where the clock's count begins.
const CLOCK_DAY: i64 = 2_440_588;
/// Seconds of the clock at 2000-01-01 12h UTC.
const CLOCK_2000: i64 = 946_728_000;
/// TD runs 69.184 seconds ahead of UTC since 2017, until a leap second changes that. `now` is cut to the whole second.
const TD_AHEAD: i64 = 69;

/// Seconds of UTC since 1970.
fn seconds() -> Result<i64, Failure> {
    let since_1970 = std::time::SystemTime::now().duration_since(std::time::UNIX_EPOCH);
    let since_1970 =
        since_1970.map_err(|_| Failure::Use("the system's clock stands before 1970; give a date".to_string()))?;
    Ok(since_1970.as_secs() as i64)
}

/// The date of today in UTC.
pub fn today() -> Result<[i64; 3], Failure> {
    let date = date_of_day(CLOCK_DAY + seconds()? / 86_400)?;
    Ok([date.year, date.month, date.day])
}

/// This second as an instant of TD.
pub fn now() -> Result<i64, Failure> {
    Ok((seconds()? - CLOCK_2000 + TD_AHEAD) * 1000)
}
