//! The runs of listed minutes of a window of any length, asked of the library in parts of a day.

use crate::failure::Failure;
use crate::progress::Progress;
use crate::sight::Sight;
use crate::window::{Window, DAY};
use stephylax::{sun_list, Refusal};

/// First and last minute of a run, counted from the window's start.
pub type Run = (i64, i64);

/// Adds the runs of a part that begins at minute `start`. A run that goes on across the cut is one run.
fn join(runs: &mut Vec<Run>, start: i64, numbers: &[u64]) {
    for pair in numbers.chunks(2) {
        let (first, last) = (start + pair[0] as i64, start + pair[1] as i64);
        match runs.last_mut() {
            Some(run) if run.1 + 1 == first => run.1 = last,
            _ => runs.push((first, last)),
        }
    }
}

/// The refusal of the part that begins at minute `start`. The figure of an unusable minute is counted from the window's start.
fn failure(sight: Sight, refusal: Refusal, window: &Window, start: i64) -> Failure {
    match refusal {
        Refusal::NotUsable(minute) => {
            let minute = start + minute;
            let when = window.when(minute).map_or(String::new(), |when| format!(" at {when} TD"));
            Failure::refused_at(Refusal::NotUsable(minute), format!("{}{when}", sight.planet.name))
        }
        // The window is at fault, whatever planet is seen.
        Refusal::BadWindow | Refusal::PastLimit(_) => refusal.into(),
        _ => sight.failure(refusal, sight.planet.name.clone()),
    }
}

/// Asks for the last minute of a window and for the first, so that one that reaches past a limit is not worked in vain.
/// Whether places are usable is left to the parts, which find the first minute that is not.
pub fn judge_ends(sight: Sight, window: &Window, keep_out: i64) -> Result<(), Failure> {
    let Sight { planet, earth } = sight;
    let asked = |minute| sun_list(&planet.packed, &earth.packed, window.at(minute), 1, keep_out, &mut [0; 2]);
    let last = window.minutes - 1;
    match asked(last) {
        Ok(_) | Err(Refusal::NotUsable(_)) => {}
        Err(Refusal::TooFar(_)) => {
            let minute = first_too_far(last, |minute| matches!(asked(minute), Err(Refusal::TooFar(_))));
            return Err(failure(sight, Refusal::TooFar(window.at(minute)), window, 0));
        }
        Err(refusal) => return Err(failure(sight, refusal, window, 0)),
    }
    match asked(0) {
        Err(refusal @ Refusal::TooFar(_)) => Err(failure(sight, refusal, window, 0)),
        _ => Ok(()),
    }
}

/// The first minute that is too far, where the last one is. Unless minute 0 is too far itself, all are from some minute on.
fn first_too_far(last: i64, too_far: impl Fn(i64) -> bool) -> i64 {
    if too_far(0) {
        return 0;
    }
    let (mut near, mut far) = (0, last);
    while near + 1 < far {
        let middle = near + (far - near) / 2;
        if too_far(middle) {
            far = middle;
        } else {
            near = middle;
        }
    }
    far
}

/// All runs of a window.
pub fn runs(sight: Sight, window: &Window, keep_out: i64, progress: &mut Progress) -> Result<Vec<Run>, Failure> {
    let Sight { planet, earth } = sight;
    let mut runs = Vec::new();
    let mut numbers = [0; DAY as usize];
    let mut done = 0;
    while done < window.minutes.max(1) {
        let minutes = (window.minutes - done).min(DAY);
        let count = sun_list(&planet.packed, &earth.packed, window.at(done), minutes, keep_out, &mut numbers)
            .map_err(|refusal| failure(sight, refusal, window, done))?;
        join(&mut runs, done, &numbers[..count]);
        done += DAY;
        progress
            .step(minutes, &format!("{}: {} of {} days", planet.name, done / DAY, (window.minutes + DAY - 1) / DAY));
    }
    Ok(runs)
}
