//! The commands pack, unpack and check.

use crate::arguments::Arguments;
use crate::failure::Failure;
use crate::json::Json;
use crate::output::{read, write};
use crate::report::Report;
use crate::series::{all, is_published, of_bytes, short_name, told, Kind, Series};
use crate::Done;
use std::io::Write;
use std::path::Path;

/// The series that is read from the first file, and the name of the second; each is `-` if left out.
fn files(
    rest: &[String],
    command: &str,
    series: fn(&str) -> Result<Series, Failure>,
    report: &mut Report,
) -> Result<(Series, String), Failure> {
    let arguments = Arguments::sorted(rest, &[], &[])?;
    arguments.count(0, 2, command)?;
    let file = |i: usize| arguments.words.get(i).map_or("-", String::as_str);
    let to = file(1);
    if report.is_json() && to == "-" {
        return Err(Failure::Use("--json wants a file to write to: both are for standard output".to_string()));
    }
    let series = series(file(0))?;
    report.sources = vec![series.json("input")];
    Ok((series, to.to_string()))
}

/// A packed series: a plain file name.
fn packed(file: &str) -> Result<Series, Failure> {
    let path = Path::new(file);
    of_bytes(short_name(path), path, Kind::Packed, read(path)?)
}

/// A series that is not packed: of the kind that is told, or that its first line has.
fn unpacked(word: &str) -> Result<Series, Failure> {
    let (file, kind) = told(word)?;
    if kind == Some(Kind::Packed) {
        return Err(Failure::Use(format!("`{word}` is packed already")));
    }
    let path = Path::new(file);
    let bytes = read(path)?;
    let found = if is_published(&bytes) { Kind::Published } else { Kind::Text };
    of_bytes(short_name(path), path, kind.unwrap_or(found), bytes)
}

/// Writes the second file. What was written is told only as JSON.
fn give(to: &str, bytes: &[u8], report: &mut Report) -> Result<Done, Failure> {
    write(to, bytes)?;
    report.give("", Json::Object(vec![("file", to.into()), ("bytes", bytes.len().into())]))?;
    Ok(Done::Answered)
}

pub fn pack(rest: &[String], report: &mut Report) -> Result<Done, Failure> {
    let (series, to) = files(rest, "pack", unpacked, report)?;
    let done = give(&to, &series.packed, report)?;
    if series.kind == Kind::Published && !report.is_json() {
        // Where standard error is closed there is nobody to tell.
        let _ = writeln!(std::io::stderr(), "stephylax: {}", series.blame());
    }
    Ok(done)
}

pub fn unpack(rest: &[String], report: &mut Report) -> Result<Done, Failure> {
    let (series, to) = files(rest, "unpack", packed, report)?;
    // The first call tells the length that the text needs.
    let mut text = Vec::new();
    if let Err(stephylax::Refusal::NoRoom(length)) = stephylax::print(&series.packed, &mut text) {
        text.resize(length as usize, 0);
    }
    stephylax::print(&series.packed, &mut text).map_err(|refusal| Failure::refused_at(refusal, series.blame()))?;
    give(&to, &text, report)
}

pub fn check(rest: &[String], report: &mut Report) -> Result<Done, Failure> {
    let arguments = Arguments::sorted(rest, &["--data"], &[])?;
    arguments.count(1, 1, "check")?;
    let series = &all(&[&arguments.words[0]], arguments.option("--data"))?[0];
    report.sources = vec![series.json("input")];
    let checked = stephylax::check(&series.packed).map_err(|refusal| Failure::refused_at(refusal, series.blame()))?;
    let answer = Json::Object(vec![
        ("terms", checked.terms.into()),
        ("packed_bytes", series.packed.len().into()),
        ("wide", checked.wide.into()),
    ]);
    let range = if checked.wide { "four millennia" } else { "two millennia alone" };
    let (name, described) = (&series.name, series.described());
    let told =
        format!("{name}: a good series of {described}\nIt is good for {range} on either side of 2000-01-01 12h TD.\n");
    report.give(&told, answer)?;
    Ok(Done::Answered)
}
