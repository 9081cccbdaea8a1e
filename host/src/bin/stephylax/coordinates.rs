//! The command coordinates.

use crate::arguments::Arguments;
use crate::dates::{instant, instant_text, instant_word, parted_at_date};
use crate::failure::Failure;
use crate::help::wrong_form;
use crate::json::Json;
use crate::place_tables::PART;
use crate::report::Report;
use crate::series::all;
use crate::Done;

pub fn coordinates(rest: &[String], report: &mut Report) -> Result<Done, Failure> {
    let arguments = Arguments::sorted(rest, &["--data"], &[])?;
    let (words, when) = parted_at_date(&arguments.words);
    let [word] = words[..] else {
        return Err(wrong_form("coordinates"));
    };
    let t = instant(when)?;
    let series = &all(&[word], arguments.option("--data"))?[0];
    report.sources = vec![series.json("input")];
    let c = stephylax::coordinates_at(&series.packed, t)
        .map_err(|refusal| Failure::refused_at(refusal, series.blame_for(refusal)))?;
    let degrees = |parts: i64| (parts as f64 * PART).to_degrees();
    let text = format!(
        "{}, heliocentric, {} TD (t = {t} ms)\n\
         longitude {:>20} * 10^-11 rad  {:13.8} degrees\n\
         latitude  {:>20} * 10^-11 rad  {:13.8} degrees\n\
         radius    {:>20} * 10^-11 AU   {:16.11} AU\n\
         Series:\n  {}\n",
        series.name,
        instant_text(t)?,
        c.longitude,
        degrees(c.longitude).rem_euclid(360.0),
        c.latitude,
        degrees(c.latitude),
        c.radius,
        c.radius as f64 * PART,
        series.line()
    );
    let answer = Json::Object(vec![
        ("t", t.into()),
        ("td", instant_word(t)?.into()),
        ("longitude", c.longitude.into()),
        ("latitude", c.latitude.into()),
        ("radius", c.radius.into()),
    ]);
    report.give(&text, answer)?;
    Ok(Done::Answered)
}
