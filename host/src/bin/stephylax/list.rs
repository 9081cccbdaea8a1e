//! The command sun-list.

use crate::arguments::Arguments;
use crate::dates::{instant, parted_at_date};
use crate::failure::Failure;
use crate::help::wrong_form;
use crate::json::Json;
use crate::output::write;
use crate::picture::picture;
use crate::progress::Progress;
use crate::report::Report;
use crate::runs::{judge_ends, runs, Run};
use crate::series::{judge_different, Series};
use crate::sight::{bodies, sources, Sight};
use crate::tables::{csv, table};
use crate::window::{Window, DAY};
use crate::Done;

const KEEP_OUT: i64 = 600;

/// A planet's list.
pub struct Listed<'a> {
    pub sight: Sight<'a>,
    pub runs: Vec<Run>,
}

/// The lists of all planets that were asked for.
pub struct Lists<'a> {
    pub window: &'a Window,
    /// In arcminutes.
    pub keep_out: i64,
    pub planets: Vec<Listed<'a>>,
    pub earth: &'a Series,
}

impl Listed<'_> {
    pub fn name(&self) -> &str {
        &self.sight.planet.name
    }

    /// How many minutes are listed.
    pub fn minutes(&self) -> i64 {
        self.runs.iter().map(|(first, last)| last - first + 1).sum()
    }
}

impl Lists<'_> {
    /// What is told of each series, the planets' first.
    pub fn sources(&self) -> Vec<String> {
        self.planets.iter().map(|listed| listed.sight.planet).chain([self.earth]).map(Series::line).collect()
    }
}

/// Options that do not go together.
fn judge_options(arguments: &Arguments) -> Result<(), Failure> {
    arguments.at_most_one(&["--json", "--csv", "--quiet"])?;
    let form = ["--json", "--csv", "--quiet"].into_iter().find(|form| arguments.flag(form));
    match (arguments.option("--svg"), form) {
        (Some(""), _) => Err(Failure::Use("--svg wants a file".to_string())),
        (Some("-"), Some(form)) => {
            Err(Failure::Use(format!("--svg - and {form} do not go together: both are for standard output")))
        }
        _ => Ok(()),
    }
}

pub fn sun_list(rest: &[String], report: &mut Report) -> Result<Done, Failure> {
    let valued = ["--data", "--earth", "--days", "--minutes", "--keep-out", "--svg"];
    let arguments = Arguments::sorted(rest, &valued, &["--csv", "--quiet"])?;
    judge_options(&arguments)?;
    let (planets, when) = parted_at_date(&arguments.words);
    if planets.is_empty() {
        return Err(wrong_form("sun-list"));
    }
    judge_different(&planets)?;
    let window = Window::asked(instant(when)?, &arguments)?;
    let keep_out = arguments.number("--keep-out")?.unwrap_or(KEEP_OUT);
    report.window = Some(window.json(("keep_out", keep_out))?);
    let mut planets = bodies(&planets, &arguments)?;
    let earth = planets.pop().expect("Earth is the last");
    report.sources = sources(&planets, &earth);
    let lists = lists(&planets, &earth, &window, keep_out)?;
    give(&lists, &arguments, report)?;
    let any = lists.planets.iter().any(|listed| !listed.runs.is_empty());
    Ok(if arguments.flag("--quiet") && !any { Done::NoneListed } else { Done::Answered })
}

fn lists<'a>(
    planets: &'a [Series],
    earth: &'a Series,
    window: &'a Window,
    keep_out: i64,
) -> Result<Lists<'a>, Failure> {
    let minutes = window.minutes.saturating_mul(planets.len() as i64);
    // Of more than one call, none is made before it is known that no planet's ends are refused.
    if DAY < minutes {
        planets.iter().try_for_each(|planet| judge_ends(Sight { planet, earth }, window, keep_out))?;
    }
    let mut progress = Progress::new(minutes);
    let listed = |planet: &'a Series| {
        let sight = Sight { planet, earth };
        Ok(Listed { sight, runs: runs(sight, window, keep_out, &mut progress)? })
    };
    let planets = planets.iter().map(listed).collect::<Result<_, Failure>>()?;
    Ok(Lists { window, keep_out, planets, earth })
}

/// Prints the list, and then draws it, so that a picture that fails loses no list.
fn give(lists: &Lists, arguments: &Arguments, report: &mut Report) -> Result<(), Failure> {
    let svg = arguments.option("--svg");
    if report.is_json() {
        report.give_json(json(lists)?)?;
    } else if arguments.flag("--csv") {
        report.give_text(&csv(lists)?)?;
    } else if !arguments.flag("--quiet") && svg != Some("-") {
        report.give_text(&table(lists)?)?;
    }
    svg.map_or(Ok(()), |path| write(path, picture(lists)?.as_bytes()))
}

fn json(lists: &Lists) -> Result<Json, Failure> {
    let window = lists.window;
    let run = |&(first, last): &Run| -> Result<Json, Failure> {
        Ok(Json::Object(vec![
            ("first_minute", first.into()),
            ("last_minute", last.into()),
            ("first_td", window.word(first)?.into()),
            ("last_td", window.word(last)?.into()),
            ("minutes", (last - first + 1).into()),
        ]))
    };
    let planet = |listed: &Listed| -> Result<Json, Failure> {
        let runs: Vec<Json> = listed.runs.iter().map(run).collect::<Result<_, _>>()?;
        let (name, minutes) = (listed.name().into(), listed.minutes().into());
        Ok(Json::Object(vec![("planet", name), ("listed_minutes", minutes), ("runs", Json::List(runs))]))
    };
    let planets: Vec<Json> = lists.planets.iter().map(planet).collect::<Result<_, _>>()?;
    Ok(Json::Object(vec![("lists", Json::List(planets))]))
}
