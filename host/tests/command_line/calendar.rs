//! Dates, times and day numbers.

use crate::run::{fails, printed, prints};

#[test]
fn days_and_dates() {
    prints(&["day", "2000-01-01"], "2451545\n");
    prints(&["day", "-4712-01-01"], "0\n");
    prints(&["day", "2005-01-01", "00:00"], "2453372\nt = 157809600000 ms from 2000-01-01 12:00 TD\n");
    prints(&["day", "2000-01-01T12:00:00.5"], "2451545\nt = 500 ms from 2000-01-01 12:00 TD\n");
    prints(&["date", "2299161"], "1582-10-15\n");
    prints(&["date", "0"], "-4712-01-01\n");
    prints(&["date", "--t", "-43200000"], "2000-01-01 00:00 TD\n");
    prints(&["date", "--t=1"], "2000-01-01 12:00:00.001 TD\n");
    fails(&["day", "2026-02-31"], 1, "refused 1 (3): the month has no such day");
    fails(&["day", "1582-10-10"], 1, "refused 1 (3)");
    fails(&["day", "2026-13-01"], 1, "refused 1 (2)");
    fails(&["day", "10000-01-01"], 1, "refused 1 (1)");
    fails(&["day", "2026-11-15", "24:00"], 1, "refused 1 (4)");
    prints(&["day", "4000-01-16", "12:00:00.001"], "3182045\nt = 63115200000001 ms from 2000-01-01 12:00 TD\n");
    prints(&["day", "-2001-12-19", "12:00"], "990545\nt = -126230400000000 ms from 2000-01-01 12:00 TD\n");
    fails(&["day", "6000-01-31", "12:00:00.001"], 1, "refused 2 (126230400000001)");
    fails(&["date", "-1"], 1, "refused 1 (5)");
    prints(&["date", "--t", "126230400000000"], "6000-01-31 12:00 TD\n");
    prints(&["date", "--t=-126230400000000"], "-2001-12-19 12:00 TD\n");
    fails(&["date", "--t", "126230400000001"], 1, "refused 2 (126230400000001)");
}

/// A year has four digits, so that 26 is not the year 26.
#[test]
fn years_have_four_digits() {
    prints(&["day", "0044-03-15"], "1737203\n");
    prints(&["day", "-0044-03-15"], "1705061\n");
    prints(&["day", "+2000-01-01"], "2451545\n");
    for date in
        ["26-11-15", "044-03-15", "-44-03-15", "00044-03-15", "2026-011-15", "2026-11", "--2026-11-15", "2026-11-"]
    {
        let output = crate::run::run(&["day", date]);
        assert_eq!(output.status.code(), Some(2), "{date}");
    }
    fails(&["day", "26-11-15"], 2, "`26-11-15` is not a date like 2026-11-15");
    fails(&["day", "99999999999999999999-01-01"], 2, "year");
}

/// A word that is no date is shown whole, though it has a `t`.
#[test]
fn words_that_are_no_dates() {
    for word in ["today", "Tuesday", "nowT18:30", "-t"] {
        fails(&["day", word], 2, &format!("`{word}` is not a date like 2026-11-15"));
    }
    fails(&["day", "2026-11t18:30"], 2, "`2026-11` is not a date like 2026-11-15");
    prints(&["day", "2000-01-01t12:00"], &printed(&["day", "2000-01-01", "12:00"]));
}

#[test]
fn times() {
    for time in ["18.30", "18:60", "18:30:60", "18:30:05.", "18:30.", "18:30.5", "18:30:05.1234", "18", ":30", "18:"] {
        fails(&["day", "2026-11-15", time], 2, &format!("`{time}` is not a time like 18:30"));
    }
    fails(&["day", "2026-11-15", "18:30", "TD"], 2, "the form is");
    fails(&["sun-list", "venus", "2026-11-15", "18:30", "TD"], 2, "`TD` is a word too many");
}

/// `now` is the system's second in TD.
#[test]
fn now() {
    let clock = std::time::SystemTime::now().duration_since(std::time::UNIX_EPOCH).unwrap().as_secs() as i64;
    let answer = printed(&["day", "now"]);
    let t =
        answer.lines().nth(1).and_then(|line| line.strip_prefix("t = ")?.strip_suffix(" ms from 2000-01-01 12:00 TD"));
    let t: i64 = t.expect("an instant").parse().unwrap();
    let wanted = (clock - 946_728_000 + 69) * 1000;
    assert!((wanted..=wanted + 60_000).contains(&t) && t % 1000 == 0, "{t} against {wanted}");
    assert_eq!(printed(&["place", "venus", "now", "--mount"]).split_ascii_whitespace().count(), 3);
    for words in
        [&["day", "now", "18:30"][..], &["place", "venus", "now", "18:30"], &["sun-list", "venus", "now", "1", "2"]]
    {
        fails(words, 2, "`now` takes no time");
    }
}
