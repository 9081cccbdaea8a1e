//! The C interface of the proved library, as include/stephylax.h declares it.
//!
//! Nothing checks these declarations against the library but the tests, which compare every field of every answer.

/// How many 64-bit words the states of the readers have, of texts and of published files.
pub const TEXT_WORDS: usize = 17;
pub const PUBLISHED_WORDS: usize = 31;

#[repr(C)]
#[derive(Clone, Copy, Debug, PartialEq, Eq)]
pub struct Day {
    pub refusal: u64,
    pub figure: i64,
    pub day_number: i64,
}

#[repr(C)]
#[derive(Clone, Copy, Debug, PartialEq, Eq)]
pub struct Date {
    pub refusal: u64,
    pub figure: i64,
    pub year: i64,
    pub month: i64,
    pub day: i64,
    pub ms: i64,
}

#[repr(C)]
#[derive(Clone, Copy, Debug, PartialEq, Eq)]
pub struct Instant {
    pub refusal: u64,
    pub figure: i64,
    pub t: i64,
}

#[repr(C)]
#[derive(Clone, Copy, Debug, PartialEq, Eq)]
pub struct Written {
    pub refusal: u64,
    pub figure: i64,
    pub length: i64,
}

/// What stands of a text or a published file in pieces: `accepted` is 1 after the end of an accepted one, else 0.
#[repr(C)]
#[derive(Clone, Copy, Debug, PartialEq, Eq)]
pub struct Answer {
    pub refusal: u64,
    pub figure: i64,
    pub length: i64,
    pub accepted: i64,
}

/// A good series: `wide` is 1 if it is good for the wide range, else 0.
#[repr(C)]
#[derive(Clone, Copy, Debug, PartialEq, Eq)]
pub struct Checked {
    pub refusal: u64,
    pub figure: i64,
    pub terms: i64,
    pub wide: i64,
}

#[repr(C)]
#[derive(Clone, Copy, Debug, PartialEq, Eq)]
pub struct Coordinates {
    pub refusal: u64,
    pub figure: i64,
    pub longitude: i64,
    pub latitude: i64,
    pub radius: i64,
}

#[repr(C)]
#[derive(Clone, Copy, Debug, PartialEq, Eq)]
pub struct Place {
    pub refusal: u64,
    pub figure: i64,
    pub right_ascension: i64,
    pub declination: i64,
    pub distance: i64,
}

#[repr(C)]
#[derive(Clone, Copy, Debug, PartialEq)]
pub struct Mount {
    pub refusal: u64,
    pub right_ascension: f64,
    pub declination: f64,
    pub distance: f64,
}

/// A mended text: `verdict` and `place` are what the reader of texts says of it.
#[repr(C)]
#[derive(Clone, Copy, Debug, PartialEq, Eq)]
pub struct Mended {
    pub refusal: u64,
    pub figure: i64,
    pub length: i64,
    pub changes: i64,
    pub verdict: u64,
    pub place: i64,
}

/// The state of a text reader. Its words are the library's own.
#[repr(C)]
#[derive(Clone, Copy, Debug, PartialEq, Eq)]
pub struct Text {
    pub words: [u64; TEXT_WORDS],
}

/// The state of a reader of published files. Its words are the library's own.
#[repr(C)]
#[derive(Clone, Copy, Debug, PartialEq, Eq)]
pub struct Published {
    pub words: [u64; PUBLISHED_WORDS],
}

extern "C" {
    pub fn stephylax_day_of_date(year: i64, month: i64, day: i64) -> Day;
    pub fn stephylax_date_of_day(day_number: i64) -> Date;
    pub fn stephylax_instant_of_date(year: i64, month: i64, day: i64, ms: i64) -> Instant;
    pub fn stephylax_date_of_instant(t: i64) -> Date;
    pub fn stephylax_read_text(text: *const u8, n: usize, packed: *mut u8, room: usize) -> Written;
    pub fn stephylax_text_start() -> Text;
    pub fn stephylax_text_piece(state: Text, text: *const u8, n: usize, packed: *mut u8, room: usize) -> Text;
    pub fn stephylax_text_end(state: Text, packed: *mut u8, room: usize) -> Text;
    pub fn stephylax_text_answer(state: Text) -> Answer;
    pub fn stephylax_mend(
        text: *const u8,
        n: usize,
        out: *mut u8,
        room: usize,
        changes: *mut u64,
        change_room: usize,
    ) -> Mended;
    pub fn stephylax_read_published(text: *const u8, n: usize, packed: *mut u8, room: usize) -> Written;
    pub fn stephylax_published_start() -> Published;
    pub fn stephylax_published_piece(
        state: Published,
        text: *const u8,
        n: usize,
        packed: *mut u8,
        room: usize,
    ) -> Published;
    pub fn stephylax_published_end(state: Published, packed: *mut u8, room: usize) -> Published;
    pub fn stephylax_published_answer(state: Published) -> Answer;
    pub fn stephylax_check(packed: *const u8, n: usize) -> Checked;
    pub fn stephylax_print(packed: *const u8, n: usize, text: *mut u8, room: usize) -> Written;
    pub fn stephylax_coordinates_at(packed: *const u8, n: usize, t: i64) -> Coordinates;
    pub fn stephylax_apparent_place(planet: *const u8, np: usize, earth: *const u8, ne: usize, t: i64) -> Place;
    pub fn stephylax_mount_place(planet: *const u8, np: usize, earth: *const u8, ne: usize, t: i64) -> Mount;
    pub fn stephylax_sun_list(
        planet: *const u8,
        np: usize,
        earth: *const u8,
        ne: usize,
        t0: i64,
        minutes: i64,
        keep_out: i64,
        runs: *mut u64,
        room: usize,
    ) -> Written;
}
