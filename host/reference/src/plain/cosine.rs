//! The working cosine.

use super::{ANGLE_STEP, QUARTER, TURN, U};

/// The even part: U - y h/(U 2m(2m-1)), for m = 6 down to 1.
fn even(w: i64) -> i64 {
    let y = square(w);
    let mut h = U as u64;
    for m in (1..=6).rev() {
        let d = U as u64 * (2 * m * (2 * m - 1));
        h = U as u64 - (2 * y * h + d) / (2 * d);
    }
    h as i64
}

/// The odd part: the same with 2m(2m+1), then times w.
fn odd(w: i64) -> i64 {
    let y = square(w);
    let mut h = U as u64;
    for m in (1..=6).rev() {
        let d = U as u64 * (2 * m * (2 * m + 1));
        h = U as u64 - (2 * y * h + d) / (2 * d);
    }
    (2 * w * h as i64 + U).div_euclid(2 * U)
}

fn square(w: i64) -> u64 {
    (2 * (w * w) as u64 + U as u64) / (2 * U as u64)
}

/// The quarter that an angle of 0 to a turn is nearest to, and the working angle w from it.
fn reduced(x: i64) -> (i64, i64) {
    let q = (2 * x + QUARTER).div_euclid(2 * QUARTER);
    let r = x - q * QUARTER;
    (q % 4, (2 * r + ANGLE_STEP).div_euclid(2 * ANGLE_STEP))
}

/// The cosine of an angle in 10^-16 radian. Whole turns change q by a multiple of 4 and nothing else.
pub fn cosine(x: i64) -> i64 {
    let (q, w) = reduced(x.rem_euclid(TURN));
    match q {
        0 => even(w),
        1 => -odd(w),
        2 => -even(w),
        _ => odd(w),
    }
}

pub fn sine(x: i64) -> i64 {
    let (q, w) = reduced(x.rem_euclid(TURN));
    match q {
        0 => odd(w),
        1 => even(w),
        2 => -odd(w),
        _ => -even(w),
    }
}
