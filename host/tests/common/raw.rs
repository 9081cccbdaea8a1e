//! The C interface itself: every field of every answer, those that an answer does not use too, which are 0.

use super::calls::{Calls, Mended, Outcome};
use std::fmt::Debug;
use stephylax::ffi::{self, Written};

/// An answer with the fields of its struct; a refusal with all of them 0.
fn flat<const N: usize>(refusal: u64, figure: i64, fields: [i64; N]) -> Outcome<[i64; N]> {
    if refusal == 0 {
        assert_eq!(figure, 0, "an answer has no figure");
        return Ok(fields);
    }
    assert_eq!(fields, [0; N], "a refusal has no answer");
    Err((refusal, figure))
}

fn written(written: Written) -> Outcome<usize> {
    flat(written.refusal, written.figure, [written.length]).map(|[length]| length as usize)
}

fn date(date: ffi::Date) -> Outcome<[i64; 4]> {
    flat(date.refusal, date.figure, [date.year, date.month, date.day, date.ms])
}

fn mount(m: ffi::Mount) -> Result<[f64; 3], u64> {
    let fields = [m.right_ascension, m.declination, m.distance];
    if m.refusal != 0 {
        assert_eq!(fields.map(f64::to_bits), [0; 3], "a refusal has no answer");
        return Err(m.refusal);
    }
    Ok(fields)
}

/// What stands of a text or a published file: its length, and whether it is accepted, which a refused one never is.
fn standing(a: ffi::Answer) -> Outcome<(usize, bool)> {
    flat(a.refusal, a.figure, [a.length, a.accepted]).map(|[length, accepted]| {
        assert!(accepted == 0 || accepted == 1, "accepted is {accepted}");
        (length as usize, accepted == 1)
    })
}

/// A mended text: refused 7 alone, and its verdict never is.
fn mended(m: ffi::Mended) -> Outcome<Mended> {
    let fields = [m.length, m.changes, m.verdict as i64, m.place];
    assert!(m.refusal == 0 || m.refusal == 7, "mending is refused {}", m.refusal);
    flat(m.refusal, m.figure, fields).map(|[length, changes, verdict, place]| {
        assert_ne!(verdict, 7, "a verdict says that there is no room");
        let verdict = if verdict == 0 { Ok(place as usize) } else { Err((m.verdict, place)) };
        (length as usize, changes as usize, verdict)
    })
}

/// The functions of a reader in pieces, with its state.
struct Reader<S> {
    start: unsafe extern "C" fn() -> S,
    piece: unsafe extern "C" fn(S, *const u8, usize, *mut u8, usize) -> S,
    end: unsafe extern "C" fn(S, *mut u8, usize) -> S,
    answer: unsafe extern "C" fn(S) -> ffi::Answer,
}

const TEXT: Reader<ffi::Text> = Reader {
    start: ffi::stephylax_text_start,
    piece: ffi::stephylax_text_piece,
    end: ffi::stephylax_text_end,
    answer: ffi::stephylax_text_answer,
};

const PUBLISHED: Reader<ffi::Published> = Reader {
    start: ffi::stephylax_published_start,
    piece: ffi::stephylax_published_piece,
    end: ffi::stephylax_published_end,
    answer: ffi::stephylax_published_answer,
};

/// Every state that a call gives is used again, once, before the next: a state is a value. A series is accepted after its
/// end and not before.
fn pieces<S: Copy + PartialEq + Debug>(reader: Reader<S>, pieces: &[&[u8]], packed: &mut [u8]) -> Outcome<usize> {
    let (out, room) = (packed.as_mut_ptr(), packed.len());
    // SAFETY: the pieces and the buffer are lent for each call, with their lengths.
    unsafe {
        let mut state = (reader.start)();
        for piece in pieces {
            let first = (reader.piece)(state, piece.as_ptr(), piece.len(), out, room);
            let again = (reader.piece)(state, piece.as_ptr(), piece.len(), out, room);
            assert_eq!(first, again, "the same state and piece gave two states");
            state = first;
            assert_eq!((reader.answer)(state).accepted, 0, "what has not ended is accepted");
        }
        state = (reader.end)(state, out, room);
        let answer = (reader.answer)(state);
        for piece in pieces {
            state = (reader.piece)(state, piece.as_ptr(), piece.len(), out, room);
            assert_eq!((reader.answer)(state), answer, "a call after the end changed the answer");
        }
        state = (reader.end)(state, out, room);
        assert_eq!((reader.answer)(state), answer, "a second end changed the answer");
        let (length, accepted) = standing(answer)?;
        assert!(accepted, "what has ended is neither refused nor accepted");
        Ok(length)
    }
}

/// The proved library through its C interface.
pub const RAW: Calls = Calls {
    name: "C interface",
    // SAFETY: every function takes every number, and every slice is lent for the call with its length.
    day_of_date: |year, month, day| unsafe {
        let d = ffi::stephylax_day_of_date(year, month, day);
        flat(d.refusal, d.figure, [d.day_number]).map(|[n]| n)
    },
    date_of_day: |n| unsafe {
        date(ffi::stephylax_date_of_day(n)).map(|[year, month, day, ms]| {
            assert_eq!(ms, 0, "a day number has no time");
            [year, month, day]
        })
    },
    instant_of_date: |[year, month, day, ms]| unsafe {
        let i = ffi::stephylax_instant_of_date(year, month, day, ms);
        flat(i.refusal, i.figure, [i.t]).map(|[t]| t)
    },
    date_of_instant: |t| unsafe { date(ffi::stephylax_date_of_instant(t)) },
    read_text: |text, packed| unsafe {
        written(ffi::stephylax_read_text(text.as_ptr(), text.len(), packed.as_mut_ptr(), packed.len()))
    },
    read_pieces: |cut, packed| pieces(TEXT, cut, packed),
    mend: |text, out, changes| unsafe {
        let (list, numbers) = (changes.as_mut_ptr(), changes.len());
        mended(ffi::stephylax_mend(text.as_ptr(), text.len(), out.as_mut_ptr(), out.len(), list, numbers))
    },
    read_published: |file, packed| unsafe {
        written(ffi::stephylax_read_published(file.as_ptr(), file.len(), packed.as_mut_ptr(), packed.len()))
    },
    published_pieces: |cut, packed| pieces(PUBLISHED, cut, packed),
    check: |packed| unsafe {
        let c = ffi::stephylax_check(packed.as_ptr(), packed.len());
        flat(c.refusal, c.figure, [c.terms, c.wide]).map(|[terms, wide]| {
            assert!(wide == 0 || wide == 1, "wide is {wide}");
            (terms, wide == 1)
        })
    },
    print: |packed, text| unsafe {
        written(ffi::stephylax_print(packed.as_ptr(), packed.len(), text.as_mut_ptr(), text.len()))
    },
    coordinates_at: |packed, t| unsafe {
        let c = ffi::stephylax_coordinates_at(packed.as_ptr(), packed.len(), t);
        flat(c.refusal, c.figure, [c.longitude, c.latitude, c.radius])
    },
    apparent_place: |planet, earth, t| unsafe {
        let p = ffi::stephylax_apparent_place(planet.as_ptr(), planet.len(), earth.as_ptr(), earth.len(), t);
        flat(p.refusal, p.figure, [p.right_ascension, p.declination, p.distance])
    },
    mount_place: |planet, earth, t| unsafe {
        mount(ffi::stephylax_mount_place(planet.as_ptr(), planet.len(), earth.as_ptr(), earth.len(), t))
    },
    sun_list: |planet, earth, [t0, minutes, keep_out], runs| unsafe {
        written(ffi::stephylax_sun_list(
            planet.as_ptr(),
            planet.len(),
            earth.as_ptr(),
            earth.len(),
            t0,
            minutes,
            keep_out,
            runs.as_mut_ptr(),
            runs.len(),
        ))
    },
};
