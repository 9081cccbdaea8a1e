//! Nutation and obliquity: the five arguments, the whole table published in 1980, and the mean obliquity.

use super::cosine::{cosine, sine};
use super::{rounded, within_turn, MILLENNIUM, TURN, U};

/// The arguments D, M, M', F and Omega in 10^-8 arcsecond: coefficients of the powers 0 to 4 of 10 tau.
const ARGUMENTS: [[i64; 5]; 5] = [
    [107_226_073_512_000, 160_296_160_146_030_000, -586_810_000, 659_500, -3_184],
    [128_710_479_304_800, 12_959_658_104_740_000, -55_290_000, 14_700, 0],
    [48_586_828_096_800, 171_791_592_347_280_000, 3_238_930_000, 5_165_100, -24_470],
    [33_577_955_755_200, 173_952_726_309_830_000, -1_225_050_000, -102_100, 417],
    [45_016_039_814_400, -696_289_026_560_000, 747_420_000, 770_200, -5_939],
];

/// The mean obliquity in 10^-5 arcsecond: coefficients of the powers 0 to 3 of tau.
const OBLIQUITY: [i64; 4] = [8_438_144_800, -46_815_000, -5_900, 181_300];

/// Units of an argument, and of the sums and the obliquity, in a turn.
const ARGUMENT_TURN: i128 = 129_600_000_000_000;
const SUM_TURN: i128 = 129_600_000_000;

/// A row of the table: the sine's first figure in 10^-4 arcsecond and its rate in 10^-5 arcsecond a century, the same of
/// the cosine, then the multipliers of the five arguments.
pub type Row = [i64; 9];

/// Nutation in longitude and in obliquity, and the mean obliquity, in 10^-5 arcsecond.
#[derive(Clone, Copy, Debug, PartialEq, Eq)]
pub struct Nutation {
    pub longitude: i64,
    pub obliquity: i64,
    pub mean_obliquity: i64,
}

/// A polynomial, highest power first, each product by `factor` t/T rounded.
fn polynomial(coefficients: &[i64], factor: i64, t: i64) -> i64 {
    let mut v = 0;
    for coefficient in coefficients.iter().rev() {
        v = *coefficient as i128 + rounded(v * factor as i128 * t as i128, MILLENNIUM as i128);
    }
    v as i64
}

pub fn arguments(t: i64) -> [i64; 5] {
    ARGUMENTS.map(|coefficients| polynomial(&coefficients, 10, t))
}

/// The angle of s units, `turn` of them in a turn.
fn angle(s: i128, turn: i128) -> i128 {
    rounded(s * TURN as i128, turn)
}

/// A coefficient in 10^-5 arcsecond: ten times the first figure plus the rounded rate part.
fn coefficient(figure: i64, rate: i64, t: i64) -> i128 {
    10 * figure as i128 + rounded(10 * rate as i128 * t as i128, MILLENNIUM as i128)
}

pub fn nutation(t: i64) -> Nutation {
    let arguments = arguments(t);
    let mut longitude = 0;
    let mut obliquity = 0;
    for row in &TABLE {
        let s: i128 = (0..5).map(|i| row[4 + i] as i128 * arguments[i] as i128).sum();
        let x = within_turn(angle(s, ARGUMENT_TURN));
        longitude += rounded(coefficient(row[0], row[1], t) * sine(x) as i128, U as i128);
        obliquity += rounded(coefficient(row[2], row[3], t) * cosine(x) as i128, U as i128);
    }
    let mean_obliquity = polynomial(&OBLIQUITY, 1, t);
    Nutation { longitude: longitude as i64, obliquity: obliquity as i64, mean_obliquity }
}

impl Nutation {
    pub fn true_obliquity(self) -> i64 {
        self.mean_obliquity + self.obliquity
    }

    /// The nutation in longitude as an angle in 10^-16 radian.
    pub fn longitude_angle(self) -> i64 {
        angle(self.longitude as i128, SUM_TURN) as i64
    }

    /// The true obliquity as an angle.
    pub fn obliquity_angle(self) -> i64 {
        angle(self.true_obliquity() as i128, SUM_TURN) as i64
    }
}

pub const TABLE: [Row; 106] = [
    [-171996, -1742, 92025, 89, 0, 0, 0, 0, 1],
    [-13187, -16, 5736, -31, -2, 0, 0, 2, 2],
    [-2274, -2, 977, -5, 0, 0, 0, 2, 2],
    [2062, 2, -895, 5, 0, 0, 0, 0, 2],
    [1426, -34, 54, -1, 0, 1, 0, 0, 0],
    [712, 1, -7, 0, 0, 0, 1, 0, 0],
    [-517, 12, 224, -6, -2, 1, 0, 2, 2],
    [-386, -4, 200, 0, 0, 0, 0, 2, 1],
    [-301, 0, 129, -1, 0, 0, 1, 2, 2],
    [217, -5, -95, 3, -2, -1, 0, 2, 2],
    [-158, 0, -1, 0, -2, 0, 1, 0, 0],
    [129, 1, -70, 0, -2, 0, 0, 2, 1],
    [123, 0, -53, 0, 0, 0, -1, 2, 2],
    [63, 1, -33, 0, 0, 0, 1, 0, 1],
    [63, 0, -2, 0, 2, 0, 0, 0, 0],
    [-59, 0, 26, 0, 2, 0, -1, 2, 2],
    [-58, -1, 32, 0, 0, 0, -1, 0, 1],
    [-51, 0, 27, 0, 0, 0, 1, 2, 1],
    [48, 0, 1, 0, -2, 0, 2, 0, 0],
    [46, 0, -24, 0, 0, 0, -2, 2, 1],
    [-38, 0, 16, 0, 2, 0, 0, 2, 2],
    [-31, 0, 13, 0, 0, 0, 2, 2, 2],
    [29, 0, -1, 0, 0, 0, 2, 0, 0],
    [29, 0, -12, 0, -2, 0, 1, 2, 2],
    [26, 0, -1, 0, 0, 0, 0, 2, 0],
    [-22, 0, 0, 0, -2, 0, 0, 2, 0],
    [21, 0, -10, 0, 0, 0, -1, 2, 1],
    [17, -1, 0, 0, 0, 2, 0, 0, 0],
    [-16, 1, 7, 0, -2, 2, 0, 2, 2],
    [16, 0, -8, 0, 2, 0, -1, 0, 1],
    [-15, 0, 9, 0, 0, 1, 0, 0, 1],
    [-13, 0, 7, 0, -2, 0, 1, 0, 1],
    [-12, 0, 6, 0, 0, -1, 0, 0, 1],
    [11, 0, 0, 0, 0, 0, 2, -2, 0],
    [-10, 0, 5, 0, 2, 0, -1, 2, 1],
    [-8, 0, 3, 0, 2, 0, 1, 2, 2],
    [-7, 0, 3, 0, 0, -1, 0, 2, 2],
    [-7, 0, 3, 0, 2, 0, 0, 2, 1],
    [-7, 0, 0, 0, -2, 1, 1, 0, 0],
    [7, 0, -3, 0, 0, 1, 0, 2, 2],
    [-6, 0, 3, 0, 2, 0, -2, 0, 1],
    [-6, 0, 3, 0, 2, 0, 0, 0, 1],
    [6, 0, -3, 0, -2, 0, 2, 2, 2],
    [6, 0, 0, 0, 2, 0, 1, 0, 0],
    [6, 0, -3, 0, -2, 0, 1, 2, 1],
    [-5, 0, 3, 0, -2, 0, 0, 0, 1],
    [-5, 0, 3, 0, -2, -1, 0, 2, 1],
    [-5, 0, 3, 0, 0, 0, 2, 2, 1],
    [5, 0, 0, 0, 0, -1, 1, 0, 0],
    [-4, 0, 0, 0, -1, 0, 1, 0, 0],
    [-4, 0, 0, 0, 1, 0, 0, 0, 0],
    [-4, 0, 0, 0, -2, 1, 0, 0, 0],
    [4, 0, 0, 0, 0, 0, 1, -2, 0],
    [4, 0, -2, 0, -2, 0, 2, 0, 1],
    [4, 0, -2, 0, -2, 1, 0, 2, 1],
    [-3, 0, 0, 0, 0, 1, 1, 0, 0],
    [-3, 0, 0, 0, -1, -1, 1, 0, 0],
    [-3, 0, 1, 0, 2, -1, -1, 2, 2],
    [-3, 0, 1, 0, 2, -1, 0, 2, 2],
    [-3, 0, 1, 0, 0, -1, 1, 2, 2],
    [-3, 0, 1, 0, 0, 0, 3, 2, 2],
    [-3, 0, 1, 0, 0, 0, -2, 2, 2],
    [3, 0, 0, 0, 0, 0, 1, 2, 0],
    [-2, 0, 1, 0, 4, 0, -1, 2, 2],
    [-2, 0, 1, 0, 0, 0, 1, 0, 2],
    [-2, 0, 1, 0, -2, 0, -1, 2, 1],
    [-2, 0, 1, 0, -2, -2, 0, 2, 1],
    [-2, 0, 1, 0, 0, 0, -2, 0, 1],
    [2, 0, -1, 0, 0, 0, 2, 0, 1],
    [2, 0, 0, 0, 0, 0, 3, 0, 0],
    [2, 0, -1, 0, 0, 1, 1, 2, 2],
    [2, 0, -1, 0, 1, 0, 0, 2, 2],
    [-1, 0, 0, 0, 2, 0, 1, 0, 1],
    [-1, 0, 1, 0, 2, 0, 1, 2, 1],
    [-1, 0, 0, 0, -2, 1, 1, 0, 1],
    [-1, 0, 0, 0, 2, 1, 0, 0, 0],
    [-1, 0, 0, 0, -2, 1, 0, 2, 0],
    [-1, 0, 0, 0, 2, 1, 0, -2, 0],
    [-1, 0, 0, 0, 2, 0, 1, -2, 0],
    [-1, 0, 0, 0, -2, 0, 1, -2, 0],
    [-1, 0, 0, 0, -2, 0, 1, 2, 0],
    [-1, 0, 0, 0, -4, 0, 1, 0, 0],
    [-1, 0, 0, 0, -4, 0, 2, 0, 0],
    [-1, 0, 0, 0, 4, 0, 0, 2, 2],
    [-1, 0, 0, 0, -1, 0, 0, 2, 2],
    [-1, 0, 1, 0, 4, 0, -2, 2, 2],
    [-1, 0, 0, 0, 2, 0, 2, 2, 2],
    [-1, 0, 0, 0, 0, -1, 0, 2, 1],
    [-1, 0, 0, 0, 0, 0, 0, -2, 1],
    [1, 0, 0, 0, -2, 0, 0, 4, 2],
    [1, 0, 0, 0, 0, 1, 0, 0, 2],
    [1, 0, -1, 0, -2, 1, 1, 2, 2],
    [1, 0, 0, 0, -2, 0, 3, 2, 2],
    [1, 0, -1, 0, 2, 0, -2, 2, 2],
    [1, 0, -1, 0, 0, 0, -1, 0, 2],
    [1, 0, 0, 0, 2, 0, 0, -2, 1],
    [1, 0, 0, 0, 0, 1, 0, 2, 1],
    [1, 0, 0, 0, 0, 0, -1, 4, 2],
    [1, 0, 0, 0, -2, 1, 2, 0, 0],
    [1, 0, 0, 0, 2, 0, 2, 0, 0],
    [1, 0, -1, 0, -2, 0, 2, 2, 1],
    [1, 0, 0, 0, 0, 0, 2, -2, 1],
    [1, 0, 0, 0, -2, -1, 1, 0, 0],
    [1, 0, 0, 0, 1, 0, -1, 0, 1],
    [1, 0, 0, 0, 2, -1, -1, 0, 1],
    [1, 0, 0, 0, 1, 1, 0, 0, 0],
];
