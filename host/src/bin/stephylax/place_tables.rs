//! Places as text for people and as CSV for programs.

use crate::dates::{instant_text, instant_word};
use crate::failure::Failure;
use crate::place::{Seen, Steps};
use crate::sight::Sight;
use crate::tables::{counted, csv_head};

/// AU of a part.
pub const PART: f64 = 1e-11;

/// Hours, minutes and seconds of a right ascension, cut to thousandths.
fn hours(k: i64) -> String {
    let ms = k * 2 / 3;
    format!("{:02}h {:02}m {:02}.{:03}s", ms / 3_600_000, ms / 60_000 % 60, ms / 1000 % 60, ms % 1000)
}

/// Degrees, minutes and seconds of a declination.
fn degrees(k: i64) -> String {
    let (sign, k) = (if k < 0 { '-' } else { '+' }, k.abs());
    format!("{sign}{:02}° {:02}′ {:02}.{:02}″", k / 360_000, k / 6000 % 60, k / 100 % 60, k % 100)
}

fn sources(sight: Sight) -> String {
    format!("Series:\n  {}\n  {}\n", sight.planet.line(), sight.earth.line())
}

/// One place.
pub fn one(sight: Sight, seen: &Seen) -> Result<String, Failure> {
    let (t, place) = (seen.t, seen.place);
    Ok(format!(
        "{}, apparent place, {} TD (t = {t} ms)\n\
         right ascension  {:>16}   {:>11} hundredths of an arcsecond\n\
         declination      {:>16}   {:>11} hundredths of an arcsecond\n\
         distance         {:>13.11} AU   {:>11} * 10^-11 AU\n{}",
        sight.planet.name,
        instant_text(t)?,
        hours(place.right_ascension),
        place.right_ascension,
        degrees(place.declination),
        place.declination,
        place.distance as f64 * PART,
        place.distance,
        sources(sight)
    ))
}

/// Places at every step, a row each.
pub fn table(sight: Sight, steps: &Steps, all: &[Seen]) -> Result<String, Failure> {
    let from = instant_text(steps.window.t0)?;
    let mut text = format!("{}, {} from {from} TD\n", sight.planet.name, counted(steps.count(), "apparent place"));
    let times = all.iter().map(|seen| instant_text(seen.t)).collect::<Result<Vec<String>, _>>()?;
    let width = times.iter().map(String::len).max().unwrap_or(0) + 2;
    text += &format!("{:<width$}{:<18}{:<18}{}\n", "TD", "right ascension", "declination", "distance (AU)");
    for (when, Seen { place, .. }) in times.iter().zip(all) {
        let (ascension, declination) = (hours(place.right_ascension), degrees(place.declination));
        text += &format!("{when:<width$}{ascension:<18}{declination:<18}{:.11}\n", place.distance as f64 * PART);
    }
    Ok(text + &sources(sight))
}

/// The doubles that a mount takes, a line for each place.
pub fn mount_lines(all: &[Seen]) -> String {
    let mounts = all.iter().filter_map(|seen| seen.mount);
    mounts.map(|m| format!("{} {} {}\n", m.right_ascension, m.declination, m.distance)).collect()
}

/// What was asked, for programs.
fn about(sight: Sight, steps: Option<&Steps>, t: i64) -> Result<String, Failure> {
    let (name, from) = (&sight.planet.name, instant_word(t)?);
    Ok(match steps {
        Some(steps) => {
            let (count, every) = (steps.count(), steps.every);
            format!("apparent places of {name} from {from} TD: {count}; step in milliseconds: {every}")
        }
        None => format!("apparent place of {name} at {from} TD"),
    })
}

pub fn csv(sight: Sight, steps: Option<&Steps>, all: &[Seen]) -> Result<String, Failure> {
    let about = about(sight, steps, all[0].t)?;
    let mut text = csv_head(&about, &[sight.planet.line(), sight.earth.line()]);
    let mount = all.iter().any(|seen| seen.mount.is_some());
    text += "td,t,right_ascension,declination,distance";
    text += if mount { ",right_ascension_degrees,declination_degrees,distance_au\n" } else { "\n" };
    for Seen { t, place: p, mount } in all {
        text += &format!("{},{t},{},{},{}", instant_word(*t)?, p.right_ascension, p.declination, p.distance);
        if let Some(m) = mount {
            text += &format!(",{},{},{}", m.right_ascension, m.declination, m.distance);
        }
        text.push('\n');
    }
    Ok(text)
}
