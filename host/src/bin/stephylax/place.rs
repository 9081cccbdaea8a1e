//! The command place: the apparent place of a planet at an instant, or at every step of a window.

use crate::arguments::Arguments;
use crate::dates::{instant, instant_text, instant_word, parted_at_date};
use crate::failure::Failure;
use crate::help::wrong_form;
use crate::json::Json;
use crate::place_tables::{csv, mount_lines, one, table};
use crate::progress::Progress;
use crate::report::Report;
use crate::sight::{bodies, sources, Sight};
use crate::tables::{counted, parted};
use crate::window::Window;
use crate::Done;
use stephylax::{Mount, Place};

/// How many places one command gives at most.
const MOST_PLACES: i64 = 1_000_000;

/// A place, and as the mount takes it if that was asked for.
pub struct Seen {
    pub t: i64,
    pub place: Place,
    pub mount: Option<Mount>,
}

/// The instants that were asked for.
pub struct Steps {
    pub window: Window,
    pub every: i64,
}

/// Reads 30s, 10m, 6h or 1d as milliseconds.
fn step(word: &str) -> Result<i64, Failure> {
    let wrong = || Failure::Use(format!("--every: `{word}` is not a step like 30s, 10m, 6h or 1d"));
    let unit = match word.chars().last() {
        Some('s') => 1000,
        Some('m') => 60_000,
        Some('h') => 3_600_000,
        Some('d') => 86_400_000,
        _ => return Err(wrong()),
    };
    let digits = &word[..word.len() - 1];
    if !digits.bytes().all(|byte| byte.is_ascii_digit()) {
        return Err(wrong());
    }
    let count: i64 = digits.parse().map_err(|_| wrong())?;
    count.checked_mul(unit).filter(|step| 0 < *step).ok_or_else(wrong)
}

impl Steps {
    fn asked(t0: i64, every: &str, arguments: &Arguments) -> Result<Steps, Failure> {
        let steps = Steps { window: Window::asked(t0, arguments)?, every: step(every)? };
        if !(1..=MOST_PLACES).contains(&steps.count()) {
            let (count, most) = (counted(steps.count(), "place"), parted(MOST_PLACES));
            return Err(Failure::Use(format!("these are {count}; 1 to {most} can be given")));
        }
        Ok(steps)
    }

    /// How many instants lie in the window, its first one among them.
    pub fn count(&self) -> i64 {
        let length = self.window.at(self.window.minutes) - self.window.t0;
        if length <= 0 {
            return 0;
        }
        (length - 1) / self.every + 1
    }
}

fn seen(sight: Sight, t: i64, mount: bool) -> Result<Seen, Failure> {
    let (planet, earth) = (&sight.planet.packed, &sight.earth.packed);
    let place = stephylax::apparent_place(planet, earth, t).map_err(|refusal| {
        let when = instant_text(t).map_or(format!("t = {t} ms"), |when| format!("{when} TD"));
        sight.failure(refusal, format!("{} at {when}", sight.planet.name))
    })?;
    let mount =
        if mount { Some(stephylax::mount_place(planet, earth, t).map_err(Failure::MountRefused)?) } else { None };
    Ok(Seen { t, place, mount })
}

fn json(seen: &Seen) -> Result<Json, Failure> {
    let mut fields = vec![
        ("t", seen.t.into()),
        ("td", instant_word(seen.t)?.into()),
        ("right_ascension", seen.place.right_ascension.into()),
        ("declination", seen.place.declination.into()),
        ("distance", seen.place.distance.into()),
    ];
    if let Some(mount) = seen.mount {
        fields.push(("right_ascension_degrees", mount.right_ascension.into()));
        fields.push(("declination_degrees", mount.declination.into()));
        fields.push(("distance_au", mount.distance.into()));
    }
    Ok(Json::Object(fields))
}

/// What was asked, judged before anything is read.
fn asked(arguments: &Arguments) -> Result<(&str, i64, Option<Steps>), Failure> {
    arguments.at_most_one(&["--json", "--csv"])?;
    let (planets, when) = parted_at_date(&arguments.words);
    let [planet] = planets[..] else {
        return Err(wrong_form("place"));
    };
    let every = arguments.option("--every");
    let long = ["--days", "--minutes"].into_iter().find(|name| arguments.flag(name));
    if let (None, Some(long)) = (every, long) {
        return Err(Failure::Use(format!("{long} wants --every STEP beside it")));
    }
    let t0 = instant(when)?;
    let steps = every.map(|every| Steps::asked(t0, every, arguments)).transpose()?;
    Ok((planet, t0, steps))
}

/// The places at every step, or at the one instant.
fn all(sight: Sight, t0: i64, steps: Option<&Steps>, mount: bool) -> Result<Vec<Seen>, Failure> {
    let (count, every) = steps.map_or((1, 0), |steps| (steps.count(), steps.every));
    let mut progress = Progress::new(count);
    let mut all = Vec::new();
    for i in 0..count {
        all.push(seen(sight, t0 + every * i, mount)?);
        progress.step(1, &format!("{} of {}", parted(i + 1), counted(count, "place")));
    }
    Ok(all)
}

pub fn place(rest: &[String], report: &mut Report) -> Result<Done, Failure> {
    let valued = ["--data", "--earth", "--every", "--days", "--minutes"];
    let arguments = Arguments::sorted(rest, &valued, &["--mount", "--csv"])?;
    let (planet, t0, steps) = asked(&arguments)?;
    report.window = steps.as_ref().map(|steps| steps.window.json(("every_ms", steps.every))).transpose()?;
    let bodies = bodies(&[planet], &arguments)?;
    report.sources = sources(&bodies[..1], &bodies[1]);
    let sight = Sight { planet: &bodies[0], earth: &bodies[1] };
    let all = all(sight, t0, steps.as_ref(), arguments.flag("--mount"))?;
    if report.is_json() {
        let places = all.iter().map(json).collect::<Result<_, _>>()?;
        report.give_json(Json::Object(vec![("places", Json::List(places))]))?;
    } else if arguments.flag("--csv") {
        report.give_text(&csv(sight, steps.as_ref(), &all)?)?;
    } else if arguments.flag("--mount") {
        report.give_text(&mount_lines(&all))?;
    } else if let Some(steps) = steps {
        report.give_text(&table(sight, &steps, &all)?)?;
    } else {
        report.give_text(&one(sight, &all[0])?)?;
    }
    Ok(Done::Answered)
}
