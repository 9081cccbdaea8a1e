//! Sun lists as a table for people and as CSV for programs.

use crate::failure::Failure;
use crate::list::{Listed, Lists};
use crate::version::VERSION;

/// A whole number with its thousands parted.
pub fn parted(n: i64) -> String {
    let digits = n.to_string();
    let mut text = String::new();
    for (i, digit) in digits.chars().enumerate() {
        if 0 < i && (digits.len() - i).is_multiple_of(3) {
            text.push(',');
        }
        text.push(digit);
    }
    text
}

/// A number and its noun.
pub fn counted(n: i64, noun: &str) -> String {
    format!("{} {noun}{}", parted(n), if n == 1 { "" } else { "s" })
}

/// Degrees and minutes of an angle.
pub fn angle_text(arcminutes: i64) -> String {
    format!("{}°{:02}′", arcminutes / 60, arcminutes % 60)
}

/// How much of the window is listed.
pub fn summary(listed: &Listed, minutes: i64) -> String {
    if listed.runs.is_empty() {
        return format!("none of {} listed", counted(minutes, "minute"));
    }
    let runs = counted(listed.runs.len() as i64, "run");
    format!("{runs}, {} of {} listed", parted(listed.minutes()), counted(minutes, "minute"))
}

/// A field of CSV, quoted where it must be.
fn field(text: &str) -> String {
    if text.contains([',', '"', '#']) {
        return format!("\"{}\"", text.replace('"', "\"\""));
    }
    text.to_string()
}

/// What stands above the rows of CSV: the version, the window and the sources, each line after a `#`.
pub fn csv_head(window: &str, sources: &[String]) -> String {
    let sources: String = sources.iter().map(|line| format!("# {line}\n")).collect();
    format!("# stephylax {VERSION}\n# {window}\n{sources}")
}

pub fn csv(lists: &Lists) -> Result<String, Failure> {
    let window = lists.window;
    let (from, minutes, keep_out) = (window.word(0)?, window.minutes, lists.keep_out);
    let about = format!("minutes from {from} TD: {minutes}; keep-out in arcminutes: {keep_out}");
    let mut text = csv_head(&about, &lists.sources());
    text += "planet,first_minute,last_minute,first_td,last_td,minutes\n";
    for listed in &lists.planets {
        for &(first, last) in &listed.runs {
            let (from, to) = (window.word(first)?, window.word(last)?);
            text += &format!("{},{first},{last},{from},{to},{}\n", field(listed.name()), last - first + 1);
        }
    }
    Ok(text)
}

/// The runs, a row each.
fn rows(lists: &Lists) -> Result<String, Failure> {
    let window = lists.window;
    let named = lists.planets.iter().map(|listed| listed.name().chars().count()).max().unwrap_or(0).max(6) + 2;
    let width = window.when(0)?.chars().count() + 2;
    let mut text = format!(
        "{:<named$}{:<width$}{:<width$}{:>9}   minutes from the start\n",
        "planet", "from (TD)", "to (TD)", "minutes"
    );
    for listed in &lists.planets {
        for &(first, last) in &listed.runs {
            let (from, to, count) = (window.when(first)?, window.when(last)?, parted(last - first + 1));
            let name = listed.name();
            text += &format!("{name:<named$}{from:<width$}{to:<width$}{count:>9}   {first} to {last}\n");
        }
    }
    Ok(text)
}

pub fn table(lists: &Lists) -> Result<String, Failure> {
    let window = lists.window;
    let names: Vec<&str> = lists.planets.iter().map(Listed::name).collect();
    let mut text = format!(
        "{} within {} ({}) of the Sun, {} from {} TD\n",
        names.join(", "),
        counted(lists.keep_out, "arcminute"),
        angle_text(lists.keep_out),
        counted(window.minutes, "minute"),
        window.when(0)?
    );
    if lists.planets.iter().any(|listed| !listed.runs.is_empty()) {
        text += &rows(lists)?;
    }
    for listed in &lists.planets {
        let (first, last) = (listed.sight.separation(window.t0)?, listed.sight.separation(window.last_minute())?);
        let told = summary(listed, window.minutes);
        text += &format!("{}: {told}; separation {first:.2}° at the first, {last:.2}° at the last.\n", listed.name());
    }
    let sources: String = lists.sources().iter().map(|line| format!("  {line}\n")).collect();
    Ok(text + "Series:\n" + &sources)
}
