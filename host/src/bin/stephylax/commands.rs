//! Which command the words make.

use crate::failure::Failure;
use crate::help::HELP;
use crate::json::Json;
use crate::output::put;
use crate::report::Report;
use crate::{calendar, coordinates, list, mending, packing, place, version, Done};

pub fn run(words: &[String], report: &mut Report) -> Result<Done, Failure> {
    let has = |names: &[&str]| words.iter().any(|word| names.contains(&word.as_str()));
    if has(&["--help", "-h"]) {
        put(HELP.as_bytes())?;
        return Ok(Done::Answered);
    }
    if has(&["--version", "-V"]) {
        report.give(&version::text(), Json::Null)?;
        return Ok(Done::Answered);
    }
    let at = words.iter().position(|word| word != "--json");
    let Some((command, rest)) = at.and_then(|at| words[at..].split_first()) else {
        return Err(Failure::Use("which command?".to_string()));
    };
    match command.as_str() {
        "day" => calendar::day(rest, report),
        "date" => calendar::date(rest, report),
        "pack" => packing::pack(rest, report),
        "unpack" => packing::unpack(rest, report),
        "check" => packing::check(rest, report),
        "mend" => mending::mend(rest, report),
        "coordinates" => coordinates::coordinates(rest, report),
        "place" => place::place(rest, report),
        "sun-list" => list::sun_list(rest, report),
        "help" => put(HELP.as_bytes()).map(|()| Done::Answered),
        other => Err(Failure::Use(format!("there is no command `{other}`"))),
    }
}
