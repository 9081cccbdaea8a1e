//! Every public call of docs/RULES.md as a function with one shape, so that vectors and comparisons are written once.

use reference::plain;
use reference::plain::text::{Answer, Reader};
use stephylax::{PublishedReader, Refusal, State, TextReader};

/// An answer, or the refusal's number and figure.
pub type Outcome<A> = Result<A, (u64, i64)>;

/// Of a mended text: its length, the number of changes, and the reader's verdict on it.
pub type Mended = (usize, usize, Outcome<usize>);

pub struct Calls {
    pub name: &'static str,
    pub day_of_date: fn(i64, i64, i64) -> Outcome<i64>,
    pub date_of_day: fn(i64) -> Outcome<[i64; 3]>,
    pub instant_of_date: fn([i64; 4]) -> Outcome<i64>,
    pub date_of_instant: fn(i64) -> Outcome<[i64; 4]>,
    pub read_text: fn(&[u8], &mut [u8]) -> Outcome<usize>,
    /// Each piece in a call, the end, and then each piece and the end once more, which must change nothing. The length
    /// after each call is asked too.
    pub read_pieces: fn(&[&[u8]], &mut [u8]) -> Outcome<usize>,
    /// A text, then both outputs.
    pub mend: fn(&[u8], &mut [u8], &mut [u64]) -> Outcome<Mended>,
    /// Whole and in pieces for published files.
    pub read_published: fn(&[u8], &mut [u8]) -> Outcome<usize>,
    pub published_pieces: fn(&[&[u8]], &mut [u8]) -> Outcome<usize>,
    /// The number of terms, and whether the series is good for the wide range.
    pub check: fn(&[u8]) -> Outcome<(i64, bool)>,
    pub print: fn(&[u8], &mut [u8]) -> Outcome<usize>,
    pub coordinates_at: fn(&[u8], i64) -> Outcome<[i64; 3]>,
    pub apparent_place: fn(&[u8], &[u8], i64) -> Outcome<[i64; 3]>,
    pub mount_place: fn(&[u8], &[u8], i64) -> Result<[f64; 3], u64>,
    /// Planet, Earth, then t0, minutes and keep-out, then the output.
    pub sun_list: fn(&[u8], &[u8], [i64; 3], &mut [u64]) -> Outcome<usize>,
}

fn outcome<A>(result: Result<A, plain::Refused>) -> Outcome<A> {
    result.map_err(|refused| (refused.number, refused.figure))
}

fn plain_pieces(pieces: &[&[u8]], packed: &mut [u8]) -> Outcome<usize> {
    let mut reader = Reader::start();
    for _ in 0..2 {
        for piece in pieces {
            reader.piece(piece, packed);
        }
        reader.end();
    }
    match reader.answer() {
        Answer::Refused(refused) => Err((refused.number, refused.figure)),
        _ => Ok(reader.written()),
    }
}

/// The independent implementation.
pub const PLAIN: Calls = Calls {
    name: "plain",
    day_of_date: |year, month, day| outcome(plain::calendar::day_of_date(year, month, day)),
    date_of_day: |n| outcome(plain::calendar::date_of_day(n).map(|d| [d.year, d.month, d.day])),
    instant_of_date: |[year, month, day, ms]| outcome(plain::calendar::instant_of_date(year, month, day, ms)),
    date_of_instant: |t| outcome(plain::calendar::date_of_instant(t).map(|(d, ms)| [d.year, d.month, d.day, ms])),
    read_text: |text, packed| outcome(plain::text::read_text(text, packed)),
    read_pieces: plain_pieces,
    mend: |text, out, changes| {
        let answer = plain::mending::mend(text, out, changes);
        outcome(answer.map(|m| (m.length, m.changes, outcome(m.verdict))))
    },
    read_published: |file, packed| outcome(plain::published::read_published(file, packed)),
    // This one takes a file whole: where it is cut must not matter.
    published_pieces: |pieces, packed| outcome(plain::published::read_published(&pieces.concat(), packed)),
    check: |packed| outcome(plain::packed::check(packed)).map(|c| (c.terms, c.wide)),
    print: |packed, text| outcome(plain::packed::print(packed, text)),
    coordinates_at: |packed, t| {
        let answer = plain::series::coordinates_at(packed, t);
        outcome(answer.map(|c| [c.longitude, c.latitude, c.radius]))
    },
    apparent_place: |planet, earth, t| {
        let answer = plain::place::apparent_place(planet, earth, t);
        outcome(answer.map(|p| [p.right_ascension, p.declination, p.distance]))
    },
    mount_place: |planet, earth, t| {
        let answer = plain::place::mount_place(planet, earth, t);
        answer.map(|m| [m.right_ascension, m.declination, m.distance])
    },
    sun_list: |planet, earth, [t0, minutes, keep_out], runs| {
        outcome(plain::sun_list::sun_list(planet, earth, t0, minutes, keep_out, runs))
    },
};

fn refusal<A>(result: Result<A, Refusal>) -> Outcome<A> {
    result.map_err(|refusal| (refusal.number(), refusal.figure()))
}

fn library_pieces<S: State>(mut reader: stephylax::Reader<S>, pieces: &[&[u8]]) -> Outcome<usize> {
    let mut answer = Ok(0);
    let mut ended = false;
    for _ in 0..2 {
        for piece in pieces {
            let standing = refusal(reader.piece(piece));
            assert!(standing == answer || (!ended && answer.is_ok()), "a call after the end changed the answer");
            answer = standing;
            assert_eq!(reader.accepted(), ended && answer.is_ok(), "accepted before the end, or after a refusal");
        }
        let standing = refusal(reader.end());
        assert!(standing == answer || (!ended && answer.is_ok()), "a call after the end changed the answer");
        answer = standing;
        ended = true;
        assert_eq!(reader.accepted(), answer.is_ok(), "ended, and neither accepted nor refused");
    }
    answer
}

/// The proved library through the safe wrapper.
pub const LIBRARY: Calls = Calls {
    name: "library",
    day_of_date: |year, month, day| refusal(stephylax::day_of_date(year, month, day)),
    date_of_day: |n| {
        let answer = refusal(stephylax::date_of_day(n));
        answer.map(|d| {
            assert_eq!(d.ms, 0);
            [d.year, d.month, d.day]
        })
    },
    instant_of_date: |[year, month, day, ms]| refusal(stephylax::instant_of_date(year, month, day, ms)),
    date_of_instant: |t| refusal(stephylax::date_of_instant(t)).map(|d| [d.year, d.month, d.day, d.ms]),
    read_text: |text, packed| refusal(stephylax::read_text(text, packed)),
    read_pieces: |pieces, packed| library_pieces(TextReader::new(packed), pieces),
    mend: |text, out, changes| {
        refusal(stephylax::mend(text, out, changes)).map(|m| (m.length, m.changes, refusal(m.verdict)))
    },
    read_published: |file, packed| refusal(stephylax::read_published(file, packed)),
    published_pieces: |pieces, packed| library_pieces(PublishedReader::new(packed), pieces),
    check: |packed| refusal(stephylax::check(packed)).map(|c| (c.terms, c.wide)),
    print: |packed, text| refusal(stephylax::print(packed, text)),
    coordinates_at: |packed, t| {
        refusal(stephylax::coordinates_at(packed, t)).map(|c| [c.longitude, c.latitude, c.radius])
    },
    apparent_place: |planet, earth, t| {
        let answer = refusal(stephylax::apparent_place(planet, earth, t));
        answer.map(|p| [p.right_ascension, p.declination, p.distance])
    },
    mount_place: |planet, earth, t| {
        let answer = stephylax::mount_place(planet, earth, t);
        answer.map(|m| [m.right_ascension, m.declination, m.distance])
    },
    sun_list: |planet, earth, [t0, minutes, keep_out], runs| {
        refusal(stephylax::sun_list(planet, earth, t0, minutes, keep_out, runs))
    },
};
