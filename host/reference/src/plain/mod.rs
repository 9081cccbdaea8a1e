//! The rules of docs/RULES.md in plain Rust, written from the paper that they follow alone, with wide integers.
//!
//! Nothing here is proved and nothing here is used by the command line: the tests compare the proved library with it,
//! and the benchmark measures it beside the library.

pub mod calendar;
pub mod cosine;
pub mod exact;
pub mod mending;
pub mod nutation;
pub mod packed;
pub mod place;
pub mod published;
pub mod series;
pub mod sun_list;
pub mod text;
pub mod wide;

/// A refusal: its number in the table of docs/RULES.md and the figure given with it.
#[derive(Clone, Copy, Debug, PartialEq, Eq)]
pub struct Refused {
    pub number: u64,
    pub figure: i64,
}

pub fn refused<A>(number: u64, figure: i64) -> Result<A, Refused> {
    Err(Refused { number, figure })
}

/// The unit of a cosine.
pub const U: i64 = 1_000_000_000;
/// A millennium in milliseconds.
pub const MILLENNIUM: i64 = 31_557_600_000_000;
/// The greatest |t|, and the greatest of the near range, up to which every series may be asked.
pub const T_LIMIT: i64 = 4 * MILLENNIUM;
pub const NEAR_LIMIT: i64 = 2 * MILLENNIUM;
/// A quarter of a turn, and the turn, in 10^-16 radian, the unit of an angle.
pub const QUARTER: i64 = 15_707_963_267_948_966;
pub const TURN: i64 = 4 * QUARTER;
/// How many units of an angle a part has, and the step to the working angle w.
pub const ANGLE_PER_PART: i64 = 100_000;
pub const ANGLE_STEP: i64 = 10_000_000;
/// Parts (10^-11) in a radian or an AU.
pub const PARTS: i64 = 100_000_000_000;

/// Rounded n/d: the floor of (2n + d)/(2d).
#[inline(always)]
pub fn rounded(n: i128, d: i128) -> i128 {
    let (n, d) = (2 * n + d, 2 * d);
    let cut = n / d;
    if n < cut * d {
        return cut - 1;
    }
    cut
}

/// x mod the turn.
#[inline(always)]
pub fn within_turn(x: i128) -> i64 {
    match i64::try_from(x) {
        Ok(x) => x.rem_euclid(TURN),
        Err(_) => x.rem_euclid(TURN as i128) as i64,
    }
}

/// Refusal 2, for a t past its limit.
pub fn within_limit(t: i64) -> Result<(), Refused> {
    if !(-T_LIMIT..=T_LIMIT).contains(&t) {
        return refused(2, t);
    }
    Ok(())
}

/// Whether t is beyond the near range.
pub fn is_far(t: i64) -> bool {
    !(-NEAR_LIMIT..=NEAR_LIMIT).contains(&t)
}
