//! A term's angle and value, and the coordinates of a series at an instant.

use super::cosine::cosine;
use super::packed::{not_too_far, parse, Series, Term};
use super::{rounded, within_limit, within_turn, Refused, ANGLE_PER_PART, MILLENNIUM, U};

#[derive(Clone, Copy, Debug, PartialEq, Eq)]
pub struct Coordinates {
    pub longitude: i64,
    pub latitude: i64,
    pub radius: i64,
}

pub fn term_angle(term: Term, t: i64) -> i64 {
    let unit = ANGLE_PER_PART as i128;
    let turned = rounded(unit * term.c as i128 * t as i128, MILLENNIUM as i128);
    within_turn(unit * term.b as i128 + turned)
}

pub fn term_value(term: Term, t: i64) -> i64 {
    let cosine = cosine(term_angle(term, t));
    match term.a.checked_mul(2 * cosine) {
        Some(product) if product.abs() < i64::MAX - U => (product + U).div_euclid(2 * U),
        _ => rounded(term.a as i128 * cosine as i128, U as i128) as i64,
    }
}

/// One coordinate from its six blocks.
fn coordinate(blocks: &[Vec<Term>], t: i64) -> i64 {
    let mut v = 0;
    for block in blocks.iter().rev() {
        let sum: i64 = block.iter().map(|term| term_value(*term, t)).sum();
        v = sum as i128 + rounded(v * t as i128, MILLENNIUM as i128);
    }
    v as i64
}

/// The coordinates at a t within its limit, where the series may be asked.
pub fn coordinates(series: &Series, t: i64) -> Coordinates {
    Coordinates {
        longitude: coordinate(&series.blocks[..6], t),
        latitude: coordinate(&series.blocks[6..12], t),
        radius: coordinate(&series.blocks[12..], t),
    }
}

pub fn coordinates_at(packed: &[u8], t: i64) -> Result<Coordinates, Refused> {
    within_limit(t)?;
    let series = parse(packed)?;
    not_too_far(&[&series], [t])?;
    Ok(coordinates(&series, t))
}
