//! Series that a store holds end to end: the refusal of what begins with one says where the next one begins, and cut at any
//! other places the same bytes are no list of series. Texts are told apart so too; published files are not.

mod common;

use common::calls::Outcome;
use common::generate::{packed, series, text};
use common::{hex, packed_series, published, rounds, same, same_output, unhex, Random};
use reference::layout;
use reference::plain::packed::{pack, text_of, Series, Term};
use reference::plain::PARTS;
use std::collections::BTreeSet;

/// Where bytes begin that are refused, and their refusal.
type RefusedAt = (usize, (u64, i64));

/// The series of a store, from the first on: what is accepted is the last one, and 9 says where the next one begins.
fn split<A>(store: &[u8], read: impl Fn(&[u8]) -> Outcome<A>) -> Result<Vec<&[u8]>, RefusedAt> {
    let mut pieces = Vec::new();
    let mut rest = store;
    loop {
        match read(rest) {
            Ok(_) => {
                pieces.push(rest);
                return Ok(pieces);
            }
            Err((9, next)) if 0 < next => {
                let (piece, after) = rest.split_at(next as usize);
                pieces.push(piece);
                rest = after;
            }
            Err(refusal) => return Err((store.len() - rest.len(), refusal)),
        }
    }
}

/// The first refused piece of a store that is cut at these places.
fn first_refused<A>(store: &[u8], places: &BTreeSet<usize>, read: impl Fn(&[u8]) -> Outcome<A>) -> Option<RefusedAt> {
    let mut start = 0;
    for &end in places.iter().chain([&store.len()]) {
        if let Err(refusal) = read(&store[start..end]) {
            return Some((start, refusal));
        }
        start = end;
    }
    None
}

/// Which piece that must be: the first that is no stored series. A piece that ends inside a series is refused 8 with its own
/// length, and one that goes on after a series 9 with the length of that.
fn first_astray(stored: &BTreeSet<usize>, places: &BTreeSet<usize>) -> Option<RefusedAt> {
    let &place = stored.symmetric_difference(places).next()?;
    let start = stored.range(..place).next_back().copied().unwrap_or(0);
    let number = if stored.contains(&place) { 9 } else { 8 };
    Some((start, (number, (place - start) as i64)))
}

/// How a store is cut elsewhere: a place is left out, is moved by at most twenty bytes, is moved anywhere, or is added; or all
/// places are any.
#[derive(Clone, Copy)]
enum Change {
    LeftOut,
    MovedBeside,
    Moved,
    Added,
    All,
}

const CHANGES: [Change; 5] = [Change::LeftOut, Change::MovedBeside, Change::Moved, Change::Added, Change::All];

/// The places after a change, no two of them the same and each inside the store, so that no piece is empty. They may be those
/// before it: a store of one series has none that could be left out or moved.
fn changed(change: Change, stored: &BTreeSet<usize>, length: usize, random: &mut Random) -> BTreeSet<usize> {
    let last = length as i64 - 1;
    let anywhere = random.between(1, last) as usize;
    let old = stored.iter().copied().nth(random.below(stored.len().max(1) as u64) as usize);
    let step = random.pick(&[-1, 1]) * random.between(1, 20);
    let (gone, new) = match change {
        Change::LeftOut => (old, None),
        Change::MovedBeside => (old, old.map(|place| (place as i64 + step).clamp(1, last) as usize)),
        Change::Moved => (old, old.map(|_| anywhere)),
        Change::Added => (None, Some(anywhere)),
        Change::All => return (0..random.below(6)).map(|_| random.between(1, last) as usize).collect(),
    };
    let mut places = stored.clone();
    if let Some(place) = gone {
        places.remove(&place);
    }
    places.extend(new);
    places
}

/// How often each case came: stores by how many series they have, series that have no terms or are published, changes by their kind, and
/// pieces that end inside a series or go on after it.
#[derive(Debug, Default)]
struct Tried {
    stores: [u64; 6],
    no_terms: u64,
    published: u64,
    changes: [u64; 5],
    cut_short: u64,
    too_long: u64,
}

impl Tried {
    /// Each came often enough in a full run.
    fn all(&self) {
        let others = [self.no_terms, self.published, self.cut_short, self.too_long];
        let counts = [&self.stores[..], &self.changes, &others].concat();
        assert!(rounds(100) == 1 || counts.iter().all(|&count| 40 <= count), "{self:?}");
    }
}

/// What a store holds: packed series, or texts.
struct Form<A> {
    read: fn(&[u8]) -> Outcome<A>,
    /// Good ones and others.
    draw: fn(&mut Random) -> Vec<u8>,
    no_terms: Vec<u8>,
    published: [Vec<u8>; 3],
}

impl<A> Form<A> {
    fn accepted(&self, random: &mut Random) -> Vec<u8> {
        match random.below(100) {
            0 => self.published[random.below(3) as usize].clone(),
            1..=20 => self.no_terms.clone(),
            _ => loop {
                let drawn = (self.draw)(random);
                if (self.read)(&drawn).is_ok() {
                    return drawn;
                }
            },
        }
    }

    fn try_stores(&self, stores: u64, random: &mut Random) {
        let mut tried = Tried::default();
        for _ in 0..stores {
            let list: Vec<_> = (0..random.between(1, 6)).map(|_| self.accepted(random)).collect();
            tried.stores[list.len() - 1] += 1;
            tried.no_terms += list.iter().filter(|&one| *one == self.no_terms).count() as u64;
            tried.published += list.iter().filter(|&one| self.published.contains(one)).count() as u64;
            let store = list.concat();
            let found = split(&store, self.read);
            assert!(found == Ok(list.iter().map(Vec::as_slice).collect()), "{}", hex(&store));
            let ends = list.iter().scan(0, |end, one| {
                *end += one.len();
                Some(*end)
            });
            self.try_other_places(&store, &ends.take(list.len() - 1).collect(), random, &mut tried);
        }
        tried.all();
    }

    fn try_other_places(&self, store: &[u8], stored: &BTreeSet<usize>, random: &mut Random, tried: &mut Tried) {
        for change in CHANGES {
            let places = changed(change, stored, store.len(), random);
            let wanted = first_astray(stored, &places);
            assert_eq!(first_refused(store, &places, self.read), wanted, "cut at {places:?}: {}", hex(store));
            if let Some((_, (number, _))) = wanted {
                tried.changes[change as usize] += 1;
                tried.cut_short += (number == 8) as u64;
                tried.too_long += (number == 9) as u64;
            }
        }
    }
}

fn check(bytes: &[u8]) -> Outcome<i64> {
    same(|calls| (calls.check)(bytes), || hex(bytes)).map(|(terms, _)| terms)
}

/// A packed form is shorter than its text, so there is room.
fn read_text(text: &[u8]) -> Outcome<usize> {
    same_output(&vec![0; text.len()], |calls, packed| (calls.read_text)(text, packed), || hex(text)).0
}

#[test]
fn packed_series_end_to_end() {
    let planets = packed_series();
    let published = ["mercury", "venus", "earth"].map(|planet| planets[planet].clone());
    let form = Form { read: check, draw: packed, no_terms: vec![0; 18], published };
    form.try_stores(rounds(60_000), &mut Random(31));
}

/// Texts with odd spaces, and plain ones.
#[test]
fn texts_end_to_end() {
    let draw = |random: &mut Random| if random.one_in(3) { text_of(&series(random)) } else { text(random) };
    let published = ["mercury", "venus", "earth"].map(published);
    let form = Form { read: read_text, draw, no_terms: b"0\n".repeat(18), published };
    form.try_stores(rounds(16_000), &mut Random(32));
}

/// A series whose only term is 1, in this block.
fn one_term(block: usize) -> Series {
    let mut series = Series::default();
    series.blocks[block] = vec![Term { a: PARTS, b: 0, c: 0 }];
    series
}

#[test]
fn short_examples() {
    assert_eq!(check(b""), Err((8, 0)));
    assert_eq!(check(&[0; 18]), Ok(0));
    assert_eq!(check(&[0; 36]), Err((9, 18)));
    assert_eq!(check(&[0x80, 0]), Err((10, 1)));
    assert_eq!(split(&[&[0x80, 0][..], &[0; 36]].concat(), check), Err((0, (10, 1))));
    // No series begins with another one, but one may end with another: stores cannot be read from their end.
    let series = pack(&one_term(0));
    assert_eq!(check(&series), Ok(1));
    assert!(18 < series.len() && series.ends_with(&[0; 18]));

    assert_eq!(read_text(b""), Err((8, 0)));
    assert_eq!(read_text(&b"0\n".repeat(18)), Ok(18));
    assert_eq!(read_text(&b"0\n".repeat(36)), Err((9, 36)));
}

/// Erased bytes, FF, after the last series are no series: nine of them are a number that is too long, fewer one that has not ended.
#[test]
fn erased_bytes_after_the_last_series() {
    let store = [0, 17].map(|block| pack(&one_term(block))).concat();
    for count in 1..60 {
        let refusal = if 9 <= count { (4, 8) } else { (8, count as i64) };
        assert_eq!(split(&[&store[..], &vec![0xFF; count]].concat(), check), Err((store.len(), refusal)));
    }
}

/// Zeros after the last series are series without terms, eighteen bytes each, and what is left over of them is refused.
#[test]
fn zeros_after_the_last_series() {
    let [first, last] = [0, 17].map(|block| pack(&one_term(block)));
    for count in 0..60 {
        let store = [&first[..], &last, &vec![0; count]].concat();
        let mut list = vec![&first[..], &last];
        list.resize(2 + count / 18, &[0; 18]);
        let left = count % 18;
        let wanted = if left == 0 { Ok(list) } else { Err((store.len() - left, (8, left as i64))) };
        assert_eq!(split(&store, check), wanted);
    }
}

/// No text begins with a zero byte or an erased one.
#[test]
fn after_the_last_text() {
    let store = [0, 17].map(|block| text_of(&one_term(block))).concat();
    assert_eq!(split(&store, read_text).map(|pieces| pieces.len()), Ok(2));
    for byte in [0, 0xFF] {
        let filled = [&store[..], &[byte; 60]].concat();
        assert_eq!(split(&filled, read_text), Err((store.len(), (3, 0))));
    }
}

/// The packed form of a published file.
fn read_published(file: &[u8]) -> Outcome<Vec<u8>> {
    let (answer, mut packed) =
        same_output(&[7; 80], |calls, packed| (calls.read_published)(file, packed), || hex(file));
    packed.truncate(answer?);
    Ok(packed)
}

/// A published file may end after any block, so a file and after it one of later blocks are together a file too, of one series.
#[test]
fn published_files_are_not_told_apart_so() {
    let [first, second] = [0, 1].map(|block| layout::published(&one_term(block)));
    let joined = [&first[..], &second].concat();
    let term = &unhex("80a0b787e9050000")[..];
    assert_eq!(read_published(&first), Ok([&[1], term, &[0; 17]].concat()));
    assert_eq!(read_published(&second), Ok([&[0, 1], term, &[0; 16]].concat()));
    assert_eq!(read_published(&joined), Ok([&[1], term, &[1], term, &[0; 16]].concat()));
    // The file without a byte is the beginning of each.
    assert_eq!(read_published(b""), Ok(vec![0; 18]));
    // Only a file with the heading of the last block has an end of its own.
    let whole = layout::published(&one_term(17));
    assert_eq!(read_published(&[&whole[..], &first].concat()), Err((9, whole.len() as i64)));
}
