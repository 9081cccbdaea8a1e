//! The list of minutes near the Sun.

use super::cosine::sine;
use super::packed::{not_too_far, parse};
use super::place::{geometry, Frame, Geometry};
use super::{refused, rounded, within_limit, Refused, TURN};

/// Half arcminutes in a turn.
pub const TURN_HALF_ARCMINUTES: i128 = 43_200;

/// Four times the squared sine of (keep-out + 1)/2 arcminutes.
pub fn threshold(keep_out: i64) -> i64 {
    let s = sine(rounded((keep_out as i128 + 1) * TURN as i128, TURN_HALF_ARCMINUTES) as i64);
    4 * s * s
}

/// The squared difference of the unit vectors to the Sun and to the planet.
pub fn squared_separation(geometry: &Geometry) -> i64 {
    let difference = geometry.earth.negated().unit().minus(geometry.geocentric.unit());
    difference.x * difference.x + difference.y * difference.y + difference.z * difference.z
}

/// Writes the first and last minute of each run into `runs`: how many numbers, or a refusal that leaves it untouched.
pub fn sun_list(
    planet: &[u8],
    earth: &[u8],
    t0: i64,
    minutes: i64,
    keep_out: i64,
    runs: &mut [u64],
) -> Result<usize, Refused> {
    if !(60..=2700).contains(&keep_out) || !(1..=1440).contains(&minutes) {
        return refused(12, 0);
    }
    within_limit(t0)?;
    within_limit(t0 + 60_000 * (minutes - 1))?;
    let planet = parse(planet)?;
    let earth = parse(earth)?;
    not_too_far(&[&planet, &earth], (0..minutes).map(|minute| t0 + 60_000 * minute))?;
    let limit = threshold(keep_out);
    let mut numbers: Vec<u64> = Vec::new();
    let mut in_run = false;
    for minute in 0..minutes {
        let Some(geometry) = geometry(&planet, &earth, t0 + 60_000 * minute, Frame::Theory) else {
            return refused(11, minute);
        };
        let listed = squared_separation(&geometry) <= limit;
        if listed && !in_run {
            numbers.push(minute as u64);
        }
        if !listed && in_run {
            numbers.push(minute as u64 - 1);
        }
        in_run = listed;
    }
    if in_run {
        numbers.push(minutes as u64 - 1);
    }
    if runs.len() < numbers.len() {
        return refused(7, numbers.len() as i64);
    }
    runs[..numbers.len()].copy_from_slice(&numbers);
    Ok(numbers.len())
}
