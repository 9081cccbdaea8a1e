//! The answers of the calls.

use crate::refusal::Refusal;

/// A date, and the milliseconds since its midnight.
#[derive(Clone, Copy, Debug, PartialEq, Eq)]
pub struct Date {
    pub year: i64,
    pub month: i64,
    pub day: i64,
    pub ms: i64,
}

/// A good packed series.
#[derive(Clone, Copy, Debug, PartialEq, Eq)]
pub struct Checked {
    /// How many terms it has.
    pub terms: i64,
    /// Whether it is good for the wide range: it may be asked for instants beyond two millennia too.
    pub wide: bool,
}

/// Longitude and latitude in 10^-11 radian, radius in 10^-11 AU.
#[derive(Clone, Copy, Debug, PartialEq, Eq)]
pub struct Coordinates {
    pub longitude: i64,
    pub latitude: i64,
    pub radius: i64,
}

/// Right ascension and declination in hundredths of an arcsecond, distance in 10^-11 AU. In the frame of the star catalogues (FK5).
#[derive(Clone, Copy, Debug, PartialEq, Eq)]
pub struct Place {
    pub right_ascension: i64,
    pub declination: i64,
    pub distance: i64,
}

/// Right ascension and declination in degrees, distance in AU.
#[derive(Clone, Copy, Debug, PartialEq)]
pub struct Mount {
    pub right_ascension: f64,
    pub declination: f64,
    pub distance: f64,
}

/// What is done to a byte of a text that is mended.
#[derive(Clone, Copy, Debug, PartialEq, Eq)]
pub enum Fate {
    Dropped,
    TabToSpace,
}

/// A change: the offset of the byte in the text as it was, and what became of it.
#[derive(Clone, Copy, Debug, PartialEq, Eq)]
pub struct Change {
    pub offset: usize,
    pub fate: Fate,
}

/// What was written when a text was mended: how many bytes, and how many changes, two numbers each.
#[derive(Clone, Copy, Debug, PartialEq, Eq)]
pub struct Mended {
    pub length: usize,
    pub changes: usize,
    /// What the reader of texts says of the clean text: the length of its packed form, or why it is refused.
    pub verdict: Result<usize, Refusal>,
}

/// A clean text, with the changes that made it, in the order of their offsets.
#[derive(Clone, Debug, PartialEq, Eq)]
pub struct Clean {
    pub text: Vec<u8>,
    pub changes: Vec<Change>,
    /// What the reader of texts says of it: the length of its packed form, or why it is refused.
    pub verdict: Result<usize, Refusal>,
}
