//! Safe calls of the proved library. Each passes its input on as it is and turns the answer into a `Result`.

use crate::answers::{Change, Checked, Clean, Coordinates, Date, Fate, Mended, Mount, Place};
use crate::ffi;
use crate::refusal::Refusal;

fn answer<A>(refusal: u64, figure: i64, answer: A) -> Result<A, Refusal> {
    if refusal == 0 {
        return Ok(answer);
    }
    Err(Refusal::of(refusal, figure))
}

/// The noon day number of a date.
pub fn day_of_date(year: i64, month: i64, day: i64) -> Result<i64, Refusal> {
    // SAFETY: the function takes every number.
    let day = unsafe { ffi::stephylax_day_of_date(year, month, day) };
    answer(day.refusal, day.figure, day.day_number)
}

fn date(date: ffi::Date) -> Result<Date, Refusal> {
    let ffi::Date { refusal, figure, year, month, day, ms } = date;
    answer(refusal, figure, Date { year, month, day, ms })
}

/// The date of a noon day number; its milliseconds are 0.
pub fn date_of_day(day_number: i64) -> Result<Date, Refusal> {
    // SAFETY: the function takes every number.
    date(unsafe { ffi::stephylax_date_of_day(day_number) })
}

/// The instant of a date and the milliseconds since its midnight.
pub fn instant_of_date(year: i64, month: i64, day: i64, ms: i64) -> Result<i64, Refusal> {
    // SAFETY: the function takes every number.
    let instant = unsafe { ffi::stephylax_instant_of_date(year, month, day, ms) };
    answer(instant.refusal, instant.figure, instant.t)
}

/// The date of an instant.
pub fn date_of_instant(t: i64) -> Result<Date, Refusal> {
    // SAFETY: the function takes every number.
    date(unsafe { ffi::stephylax_date_of_instant(t) })
}

fn written(written: ffi::Written) -> Result<usize, Refusal> {
    answer(written.refusal, written.figure, written.length as usize)
}

/// Packs the text of a series, given whole: how many bytes of `packed` it took.
pub fn read_text(text: &[u8], packed: &mut [u8]) -> Result<usize, Refusal> {
    // SAFETY: both slices are lent for the call, with their lengths.
    written(unsafe { ffi::stephylax_read_text(text.as_ptr(), text.len(), packed.as_mut_ptr(), packed.len()) })
}

/// Mends a text: writes the clean one, and for each change the offset of its byte and 0 (dropped) or 1 (a tab made a space).
pub fn mend(text: &[u8], out: &mut [u8], changes: &mut [u64]) -> Result<Mended, Refusal> {
    let (list, numbers) = (changes.as_mut_ptr(), changes.len());
    // SAFETY: all three slices are lent for the call, with their lengths.
    let m = unsafe { ffi::stephylax_mend(text.as_ptr(), text.len(), out.as_mut_ptr(), out.len(), list, numbers) };
    let verdict = answer(m.verdict, m.place, m.place as usize);
    answer(m.refusal, m.figure, Mended { length: m.length as usize, changes: m.changes as usize, verdict })
}

/// The same into memory of its own.
pub fn mended(text: &[u8]) -> Clean {
    // A text never grows. How many changes it takes is told by a first call, with no room for any; a text without a change is
    // mended by that call already, and once more by the next.
    let (mut out, mut list) = (vec![0; text.len()], Vec::new());
    if let Err(Refusal::NoRoom(changes)) = mend(text, &mut out, &mut list) {
        list.resize(2 * changes as usize, 0);
    }
    let mended = mend(text, &mut out, &mut list).expect("there is room for the text and for every change");
    out.truncate(mended.length);
    let fate = |kind: u64| if kind == 0 { Fate::Dropped } else { Fate::TabToSpace };
    let change = |pair: &[u64]| Change { offset: pair[0] as usize, fate: fate(pair[1]) };
    Clean { text: out, changes: list.chunks(2).map(change).collect(), verdict: mended.verdict }
}

/// Packs a published file, given whole: how many bytes of `packed` it took.
pub fn read_published(text: &[u8], packed: &mut [u8]) -> Result<usize, Refusal> {
    // SAFETY: both slices are lent for the call, with their lengths.
    written(unsafe { ffi::stephylax_read_published(text.as_ptr(), text.len(), packed.as_mut_ptr(), packed.len()) })
}

/// The state of a reader: of texts, or of published files.
pub trait State: Copy {
    fn start() -> Self;
    fn piece(self, text: &[u8], packed: &mut [u8]) -> Self;
    fn end(self, packed: &mut [u8]) -> Self;
    fn answer(self) -> ffi::Answer;
}

// SAFETY, for both: the functions take every state, and the slices are lent for the call, with their lengths.
impl State for ffi::Text {
    fn start() -> ffi::Text {
        unsafe { ffi::stephylax_text_start() }
    }

    fn piece(self, text: &[u8], packed: &mut [u8]) -> ffi::Text {
        unsafe { ffi::stephylax_text_piece(self, text.as_ptr(), text.len(), packed.as_mut_ptr(), packed.len()) }
    }

    fn end(self, packed: &mut [u8]) -> ffi::Text {
        unsafe { ffi::stephylax_text_end(self, packed.as_mut_ptr(), packed.len()) }
    }

    fn answer(self) -> ffi::Answer {
        unsafe { ffi::stephylax_text_answer(self) }
    }
}

impl State for ffi::Published {
    fn start() -> ffi::Published {
        unsafe { ffi::stephylax_published_start() }
    }

    fn piece(self, text: &[u8], packed: &mut [u8]) -> ffi::Published {
        unsafe { ffi::stephylax_published_piece(self, text.as_ptr(), text.len(), packed.as_mut_ptr(), packed.len()) }
    }

    fn end(self, packed: &mut [u8]) -> ffi::Published {
        unsafe { ffi::stephylax_published_end(self, packed.as_mut_ptr(), packed.len()) }
    }

    fn answer(self) -> ffi::Answer {
        unsafe { ffi::stephylax_published_answer(self) }
    }
}

/// Packs a series that comes in pieces, all into the one buffer that it holds.
pub struct Reader<'a, S: State> {
    state: S,
    packed: &'a mut [u8],
}

/// A reader of texts.
pub type TextReader<'a> = Reader<'a, ffi::Text>;
/// A reader of published files.
pub type PublishedReader<'a> = Reader<'a, ffi::Published>;

impl<'a, S: State> Reader<'a, S> {
    pub fn new(packed: &'a mut [u8]) -> Reader<'a, S> {
        Reader { state: S::start(), packed }
    }

    /// Takes the next piece: how many bytes are packed so far.
    pub fn piece(&mut self, text: &[u8]) -> Result<usize, Refusal> {
        self.state = self.state.piece(text, self.packed);
        self.standing()
    }

    /// Says that the input has ended: how many bytes it took.
    pub fn end(&mut self) -> Result<usize, Refusal> {
        self.state = self.state.end(self.packed);
        self.standing()
    }

    /// Whether the input has ended and is good: only then is what is packed a series.
    pub fn accepted(&self) -> bool {
        self.state.answer().accepted == 1
    }

    fn standing(&self) -> Result<usize, Refusal> {
        let stands = self.state.answer();
        answer(stands.refusal, stands.figure, stands.length as usize)
    }
}

/// Judges a packed series. Of series stored end to end, with nothing between them, the figure of refusal 9 is the length of the first,
/// after which the next one begins.
pub fn check(packed: &[u8]) -> Result<Checked, Refusal> {
    // SAFETY: the slice is lent for the call, with its length.
    let c = unsafe { ffi::stephylax_check(packed.as_ptr(), packed.len()) };
    answer(c.refusal, c.figure, Checked { terms: c.terms, wide: c.wide == 1 })
}

/// Prints a packed series as plain text: how many bytes of `text` it took.
pub fn print(packed: &[u8], text: &mut [u8]) -> Result<usize, Refusal> {
    // SAFETY: both slices are lent for the call, with their lengths.
    written(unsafe { ffi::stephylax_print(packed.as_ptr(), packed.len(), text.as_mut_ptr(), text.len()) })
}

/// The coordinates of a packed series at an instant, in the frame of the theory.
pub fn coordinates_at(packed: &[u8], t: i64) -> Result<Coordinates, Refusal> {
    // SAFETY: the slice is lent for the call, with its length.
    let c = unsafe { ffi::stephylax_coordinates_at(packed.as_ptr(), packed.len(), t) };
    answer(c.refusal, c.figure, Coordinates { longitude: c.longitude, latitude: c.latitude, radius: c.radius })
}

/// The apparent place of a planet at an instant, in the frame of the star catalogues (FK5).
pub fn apparent_place(planet: &[u8], earth: &[u8], t: i64) -> Result<Place, Refusal> {
    // SAFETY: both slices are lent for the call, with their lengths.
    let p = unsafe { ffi::stephylax_apparent_place(planet.as_ptr(), planet.len(), earth.as_ptr(), earth.len(), t) };
    answer(
        p.refusal,
        p.figure,
        Place { right_ascension: p.right_ascension, declination: p.declination, distance: p.distance },
    )
}

/// The apparent place as the mount takes it, or the number of the refusal.
pub fn mount_place(planet: &[u8], earth: &[u8], t: i64) -> Result<Mount, u64> {
    // SAFETY: both slices are lent for the call, with their lengths.
    let m = unsafe { ffi::stephylax_mount_place(planet.as_ptr(), planet.len(), earth.as_ptr(), earth.len(), t) };
    if m.refusal != 0 {
        return Err(m.refusal);
    }
    Ok(Mount { right_ascension: m.right_ascension, declination: m.declination, distance: m.distance })
}

/// Writes the first and last minute of each run near the Sun: how many numbers of `runs` they took. In the frame of the theory.
pub fn sun_list(
    planet: &[u8],
    earth: &[u8],
    t0: i64,
    minutes: i64,
    keep_out: i64,
    runs: &mut [u64],
) -> Result<usize, Refusal> {
    // SAFETY: all three slices are lent for the call, with their lengths.
    written(unsafe {
        ffi::stephylax_sun_list(
            planet.as_ptr(),
            planet.len(),
            earth.as_ptr(),
            earth.len(),
            t0,
            minutes,
            keep_out,
            runs.as_mut_ptr(),
            runs.len(),
        )
    })
}
