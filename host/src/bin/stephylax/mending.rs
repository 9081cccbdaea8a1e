//! The command mend: a damaged text made clean, what was changed in it, and what the library says of the clean text.

use crate::arguments::Arguments;
use crate::changes::{before_mending, by_kind, line_and_column, list, Changed};
use crate::failure::Failure;
use crate::json::Json;
use crate::output::{is_standard_output, place_read, place_written, read, write};
use crate::report::Report;
use crate::series::{kind_of, of_bytes, short_name, shown, told, Kind, Series};
use crate::tables::counted;
use crate::Done;
use std::io::Write;
use std::path::Path;
use stephylax::{Clean, Refusal};

/// What the words ask for.
struct Asked<'a> {
    from: &'a str,
    /// Whether the word says that it is a text.
    is_text: bool,
    to: &'a str,
    list: Option<&'a str>,
    dry_run: bool,
}

impl<'a> Asked<'a> {
    fn of(arguments: &'a Arguments) -> Result<Asked<'a>, Failure> {
        let file = |i: usize| arguments.words.get(i).map_or("-", String::as_str);
        let (from, kind) = told(file(0))?;
        if kind.is_some_and(|kind| kind != Kind::Text) {
            return Err(not_a_text(&format!("`{}` is no text", file(0)), from));
        }
        let list = arguments.option("--changes");
        if list == Some("") {
            return Err(Failure::Use("--changes wants a file".to_string()));
        }
        if file(1).is_empty() {
            return Err(Failure::Use("the clean text wants a file, or - for standard output".to_string()));
        }
        Ok(Asked { from, is_text: kind.is_some(), to: file(1), list, dry_run: arguments.flag("--dry-run") })
    }

    /// Nothing is written over what is read, nor over each other, by whatever names or links.
    fn judge_apart(&self, json: bool) -> Result<(), Failure> {
        // Standard output has other names; two of those may be /dev/null, which takes both.
        let (text, list) = (is_standard_output(self.to), self.list.is_some_and(is_standard_output));
        if text && list && (self.to == "-" || self.list == Some("-")) {
            return Err(Failure::Use("the text and the changes cannot both go to standard output".to_string()));
        }
        if json && !self.dry_run && (text || list) {
            return Err(Failure::Use("--json wants a file to write to: both are for standard output".to_string()));
        }
        let (from, to, list) = (place_read(self.from), place_written(self.to), self.list.and_then(place_written));
        // Standard output takes the report where it takes nothing else.
        let told = place_written("-");
        for (written, place) in [(self.to, &to), (self.list.unwrap_or("-"), &list), ("-", &told)] {
            if place.is_some() && *place == from {
                let (written, from) = (output_name(written), shown(Path::new(self.from)));
                return Err(Failure::Use(format!(
                    "{written} is the file that is read ({from}); it is never overwritten"
                )));
            }
        }
        if to.is_some() && to == list {
            let (to, list) = (output_name(self.to), output_name(self.list.unwrap_or("-")));
            return Err(Failure::Use(format!("the text and the changes cannot both go to one file: {to} and {list}")));
        }
        Ok(())
    }

    /// Whether nothing else goes to standard output, so that the report can.
    fn leaves_output(&self) -> bool {
        self.dry_run || !is_standard_output(self.to) && !self.list.is_some_and(is_standard_output)
    }
}

/// An output on one line.
fn output_name(path: &str) -> String {
    if path == "-" {
        return "standard output".to_string();
    }
    shown(Path::new(path))
}

fn not_a_text(why: &str, file: &str) -> Failure {
    let file = shown(Path::new(file));
    Failure::Use(format!("{why}, and mend is for texts (text:{file} is taken for one whatever it holds)"))
}

/// The text that is asked for.
fn text(asked: &Asked) -> Result<Vec<u8>, Failure> {
    let path = Path::new(asked.from);
    let bytes = read(path)?;
    let kind = if asked.is_text { Kind::Text } else { kind_of(&bytes) };
    if kind != Kind::Text {
        return Err(not_a_text(&format!("{} was read as {}", shown(path), kind.word()), asked.from));
    }
    Ok(bytes)
}

/// The refusal of the clean text, with its line there and in the file.
fn refused(bytes: &[u8], clean: &Clean, refusal: Refusal, file: &str) -> Failure {
    let at = (refusal.figure() as usize).min(clean.text.len());
    let (line, column) = line_and_column(&clean.text, at);
    let (before, _) = line_and_column(bytes, before_mending(&clean.changes, at));
    Failure::refused_at(refusal, format!("line {line}, column {column} of the clean text, line {before} of {file}"))
}

/// What is told of a mended text.
fn told_of(asked: &Asked, clean: &Clean, kinds: &[Changed], series: Option<&Series>) -> String {
    let (file, changes) = (shown(Path::new(asked.from)), clean.changes.len() as i64);
    let count = if changes == 0 { "no change".to_string() } else { counted(changes, "change") };
    let done = match asked.dry_run {
        true => "nothing is written".to_string(),
        false => format!("{} written to {}", counted(clean.text.len() as i64, "byte"), output_name(asked.to)),
    };
    let kinds: String = kinds.iter().map(|kind| format!("  {}\n", kind.told())).collect();
    let verdict = series.map_or("the clean text is refused".to_string(), |series| {
        format!("the clean text is a good series of {}", series.described())
    });
    format!("{file}: {count}, {done}\n{kinds}{verdict}\n")
}

fn json(asked: &Asked, clean: &Clean, kinds: &[Changed]) -> Json {
    let written = |path: Option<&str>| path.filter(|_| !asked.dry_run).map_or(Json::Null, Json::from);
    Json::Object(vec![
        ("file", written(Some(asked.to))),
        ("changes_file", written(asked.list)),
        ("bytes", clean.text.len().into()),
        ("changes", clean.changes.len().into()),
        ("kinds", Json::List(kinds.iter().map(Changed::json).collect())),
        ("packed_bytes", clean.verdict.ok().into()),
    ])
}

pub fn mend(rest: &[String], report: &mut Report) -> Result<Done, Failure> {
    let arguments = Arguments::sorted(rest, &["--changes"], &["--dry-run"])?;
    arguments.count(0, 2, "mend")?;
    let asked = Asked::of(&arguments)?;
    asked.judge_apart(report.is_json())?;
    let bytes = text(&asked)?;
    let clean = stephylax::mended(&bytes);
    let kinds = by_kind(&bytes, &clean.changes);
    // Asked before anything is written: the file may be standard output under another name.
    let output_is_free = asked.leaves_output();
    if !asked.dry_run {
        write(asked.to, &clean.text)?;
        asked.list.map_or(Ok(()), |path| write(path, list(&clean.changes).as_bytes()))?;
    }
    let path = Path::new(asked.from);
    let series = match clean.verdict {
        Ok(_) => Some(of_bytes(short_name(path), path, Kind::Text, clean.text.clone())?),
        Err(_) => None,
    };
    report.sources = series.iter().map(|series| series.json("input")).collect();
    let told = told_of(&asked, &clean, &kinds, series.as_ref());
    let answer = json(&asked, &clean, &kinds);
    if let Err(refusal) = clean.verdict {
        if !report.is_json() {
            tell(&told, output_is_free, report)?;
        }
        report.answer = Some(answer);
        return Err(refused(&bytes, &clean, refusal, &shown(path)));
    }
    if report.is_json() {
        report.give_json(answer)?;
    } else {
        tell(&told, output_is_free, report)?;
    }
    Ok(Done::Answered)
}

/// Tells on standard output, or on standard error where the text or the changes go to standard output.
fn tell(text: &str, output_is_free: bool, report: &mut Report) -> Result<(), Failure> {
    if output_is_free {
        return report.give_text(text);
    }
    // Where standard error is closed there is nobody to tell.
    let _ = write!(std::io::stderr(), "{text}");
    Ok(())
}
