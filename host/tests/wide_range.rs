//! The wide range: which series are good for it, and what every call with an instant answers at the limit of t, at that of the near range
//! and beside them. The library and the independent implementation must agree throughout.

mod common;

use common::calls::Outcome;
use common::coarse::{at_wide_limit, constant, fill, Edge, ACCEPTED, LIMIT, WIDE};
use common::{hex, packed_series, rounds, same, same_output, unhex, Met, Random};
use reference::plain::packed::{pack, parse, Series, Term};
use reference::plain::place::{geometry, light_time, Frame};
use reference::plain::{is_far, NEAR_LIMIT, PARTS, T_LIMIT};

fn check(series: &Series) -> Outcome<(i64, bool)> {
    let bytes = pack(series);
    same(|calls| (calls.check)(&bytes), || hex(&bytes))
}

fn coordinates(series: &Series, t: i64) -> Outcome<[i64; 3]> {
    let bytes = pack(series);
    same(|calls| (calls.coordinates_at)(&bytes, t), || format!("t {t} packed {}", hex(&bytes)))
}

/// An instant at one of both limits, on either side, or beside it; now and then any.
fn at_a_limit(random: &mut Random) -> i64 {
    if random.one_in(6) {
        return random.between(-T_LIMIT, T_LIMIT);
    }
    random.pick(&[-1, 1]) * (random.pick(&[NEAR_LIMIT, T_LIMIT]) + random.between(-1, 1))
}

/// A series whose blocks total what they may in the wide range, or one part more, or whose coarseness is at its limit there, or as little
/// past it as can be. Each answers, or is refused 2 or 17, by its instant alone.
#[test]
fn series_at_both_rules() {
    let mut random = Random(61);
    let mut met = Met::default();
    for _ in 0..rounds(60_000) {
        let (edge, wide) = (random.pick(&[Edge::Total, Edge::Coarseness]), random.one_in(2));
        let series = at_wide_limit(&mut random, edge, wide);
        let terms = series.blocks.iter().map(|block| block.len() as i64).sum();
        assert_eq!(check(&series), Ok((terms, wide)), "{edge:?} {}", hex(&pack(&series)));
        let t = at_a_limit(&mut random);
        let wanted = match t.abs() {
            size if T_LIMIT < size => Some((2, t)),
            size if NEAR_LIMIT < size && !wide => Some((17, t)),
            _ => None,
        };
        assert_eq!(coordinates(&series, t).err(), wanted, "{edge:?} {t} {}", hex(&pack(&series)));
        met.note("total met, far", edge == Edge::Total && wide && is_far(t) && wanted.is_none());
        met.note("total passed, far", edge == Edge::Total && !wide && wanted == Some((17, t)));
        met.note("coarseness met, far", edge == Edge::Coarseness && wide && is_far(t) && wanted.is_none());
        met.note("coarseness passed, far", edge == Edge::Coarseness && !wide && wanted == Some((17, t)));
        met.note("not good, at the end of the near range", !wide && t.abs() == NEAR_LIMIT && wanted.is_none());
        met.note("not good, just past the near range", t.abs() == NEAR_LIMIT + 1 && wanted == Some((17, t)));
        met.note("good, at the limit of t", t.abs() == T_LIMIT && wanted.is_none());
        met.note("not good, at the limit of t", t.abs() == T_LIMIT && wanted == Some((17, t)));
        met.note("good, just past the limit of t", wide && t.abs() == T_LIMIT + 1);
        met.note("not good, just past the limit of t", !wide && t.abs() == T_LIMIT + 1);
    }
    met.all();
}

/// A series that only the rules of acceptance allow is accepted, and not good for the wide range.
#[test]
fn accepted_and_not_good() {
    let mut random = Random(62);
    for _ in 0..rounds(2_000) {
        let mut series = Series::default();
        let first = random.pick(&[0, 6, 12]);
        series.blocks[first..first + 6].clone_from_slice(&ACCEPTED.coordinate_of(&mut random, LIMIT));
        assert!(matches!(check(&series), Ok((_, false))), "{}", hex(&pack(&series)));
        assert!(coordinates(&series, NEAR_LIMIT).is_ok());
        assert_eq!(coordinates(&series, NEAR_LIMIT + 1), Err((17, NEAR_LIMIT + 1)));
    }
}

/// Sums that are as great as they can be, in each coordinate and with either sign: 1,365 times the greatest total.
#[test]
fn greatest_sums() {
    const GREATEST: i64 = 1365 * 50_000 * PARTS;
    for (first, sign) in [0, 6, 12].into_iter().flat_map(|first| [(first, -1), (first, 1)]) {
        for t in [-T_LIMIT, T_LIMIT] {
            let mut series = Series::default();
            for (power, block) in series.blocks[first..first + 6].iter_mut().enumerate() {
                // Each power of a negative tau has its own sign.
                let turned = if t < 0 && power % 2 == 1 { -1 } else { 1 };
                block.push(constant(sign * turned * WIDE.total));
            }
            let mut wanted = [0; 3];
            wanted[first / 6] = sign * GREATEST;
            assert_eq!(coordinates(&series, t), Ok(wanted));
        }
    }
}

/// The published series are good for the wide range.
#[test]
fn published_series() {
    for (planet, bytes) in packed_series() {
        let (_, wide) = same(|calls| (calls.check)(&bytes), || planet.to_string()).unwrap();
        assert!(wide, "{planet}");
    }
}

/// A body at this distance that rests, or moves. A block of its longitude or latitude totals what it may in the wide range, or one part
/// more.
fn body(random: &mut Random, radius: i64, wide: bool, rests: bool) -> Series {
    let mut series = Series::default();
    series.blocks[0].push(constant(random.between(0, 7 * PARTS)));
    series.blocks[12].push(constant(radius));
    let mut block = random.pick(&[0, 6]);
    if !rests {
        let (b, c) = (random.between(0, 10 * PARTS - 1), random.between(-1_000_000 * PARTS + 1, 1_000_000 * PARTS - 1));
        series.blocks[random.pick(&[0, 6, 12])].push(Term { a: random.between(-radius / 9, radius / 9), b, c });
        block += random.below(6) as usize;
    }
    fill(random, &mut series.blocks[block], WIDE.total + !wide as i64);
    series
}

/// Planet and Earth, and whether each is good for the wide range. Now and then the planet is too near the Sun.
struct Bodies {
    planet: Series,
    earth: Series,
    wide: [bool; 2],
}

impl Bodies {
    fn drawn(random: &mut Random) -> Bodies {
        let wide = [0; 2].map(|_| !random.one_in(3));
        let radius = random.pick(&[PARTS / 3, PARTS * 3 / 4, 2 * PARTS, 40 * PARTS]);
        let radius = if random.one_in(8) { PARTS / 20 } else { radius };
        let rest = random.one_in(2);
        Bodies { planet: body(random, radius, wide[0], rest), earth: body(random, PARTS, wide[1], rest), wide }
    }

    fn packed(&self) -> (Vec<u8>, Vec<u8>) {
        (pack(&self.planet), pack(&self.earth))
    }

    fn are_good(&self) -> bool {
        self.wide == [true; 2]
    }

    /// The light time at t, if the place is usable.
    fn light(&self, t: i64) -> Option<i64> {
        geometry(&self.planet, &self.earth, t, Frame::Catalogues).map(|geometry| light_time(geometry.distance))
    }

    /// Whether a list takes the minute at t.
    fn are_usable(&self, t: i64) -> bool {
        geometry(&self.planet, &self.earth, t, Frame::Theory).is_some()
    }
}

/// Places whose light left on the other side of a limit, or at it, or a millisecond beside.
#[test]
fn places_at_both_limits() {
    let mut random = Random(63);
    let mut met = Met::default();
    for _ in 0..rounds(60_000) {
        let bodies = Bodies::drawn(&mut random);
        let (planet, earth) = bodies.packed();
        let limit = random.pick(&[-T_LIMIT, -NEAR_LIMIT, -NEAR_LIMIT, NEAR_LIMIT, T_LIMIT]);
        let light = bodies.light(limit).unwrap_or(0);
        let t = limit
            + match random.below(4) {
                0 => random.between(-3, 3),
                1 => random.between(0, 2 * light),
                _ => light + random.between(-2, 2),
            };
        let input = || format!("t {t} planet {} earth {}", hex(&planet), hex(&earth));
        let answer = same(|calls| (calls.apparent_place)(&planet, &earth, t), input);
        let mount = same(|calls| (calls.mount_place)(&planet, &earth, t).map(|m| m.map(f64::to_bits)), input);
        assert_eq!(mount.err(), answer.err().map(|(number, _)| number), "{}", input());

        let refused = answer.err();
        let left = t - bodies.light(t).unwrap_or(0);
        let (answered, is_17_before) = (answer.is_ok(), refused == Some((17, left)) && left != t);
        met.note("t near, light left far, answered", answered && !is_far(t) && is_far(left));
        met.note("t near, light left far, 17", is_17_before);
        met.note("t far, light left near, answered", answered && is_far(t) && !is_far(left));
        met.note("t far, light left near, 17", refused == Some((17, t)) && !is_far(left));
        met.note("both far, answered", answered && is_far(t) && is_far(left));
        met.note("both far, 17", refused == Some((17, t)) && is_far(left));
        met.note("the planet's series not good", refused.is_some_and(|(n, _)| n == 17) && bodies.wide == [false, true]);
        met.note("Earth's series not good", refused.is_some_and(|(n, _)| n == 17) && bodies.wide == [true, false]);
        met.note("not good, light left at the near limit", answered && !bodies.are_good() && left == -NEAR_LIMIT);
        met.note("not good, light left a ms before it", is_17_before && left == -NEAR_LIMIT - 1);
        met.note("light left at the limit of t", answered && left == -T_LIMIT);
        met.note("light left a ms before that", refused == Some((2, -T_LIMIT - 1)) && -T_LIMIT <= t);
        met.note("past the limit, series good or not", refused == Some((2, t)));
        met.note("17 and not usable", refused == Some((17, t)) && bodies.light(t).is_none());
        met.note("far, good and not usable", refused == Some((11, 0)) && is_far(t));
    }
    met.all();
}

/// Two good series, the planet just at 64 AU two millennia before 2000, and above it when the light left: the earlier instant is far, so it is
/// worked, and then not usable.
#[test]
fn not_usable_when_the_light_left() {
    let planet = unhex("00000000000000000000000001ffff97bde5ca8a07000001ffffb3ccd4dfc603000000000000");
    let earth = unhex("019ed9cfd5a412000000000000000000000000000180a0b787e90500000000000000");
    let [p, e] = [&planet, &earth].map(|bytes| parse(bytes).unwrap());
    assert!(geometry(&p, &e, -NEAR_LIMIT, Frame::Catalogues).is_some() && p.is_wide() && e.is_wide());
    let answer = same(|calls| (calls.apparent_place)(&planet, &earth, -NEAR_LIMIT), String::new);
    assert_eq!(answer, Err((11, 0)));
}

/// Windows with a limit inside, at an end or beside it, with room or without.
#[test]
fn windows_at_both_limits() {
    let mut random = Random(64);
    let mut met = Met::default();
    for _ in 0..rounds(60_000) {
        let bodies = Bodies::drawn(&mut random);
        let (planet, earth) = bodies.packed();
        let minutes = if random.one_in(500) { 1440 } else { random.between(1, 12) };
        let limit = random.pick(&[-T_LIMIT, -NEAR_LIMIT, -NEAR_LIMIT, NEAR_LIMIT, NEAR_LIMIT, T_LIMIT]);
        let off = if random.one_in(3) { random.between(-59_999, 59_999) } else { random.between(-1, 1) };
        let t0 = limit + off - 60_000 * random.between(-1, minutes);
        let last = t0 + 60_000 * (minutes - 1);
        let window = [t0, minutes, random.between(60, 2700)];
        let room = if random.one_in(8) { 0 } else { 1440 };
        let input = || format!("{window:?} room {room} planet {} earth {}", hex(&planet), hex(&earth));
        let before = vec![random.next(); room];
        let (answer, _) = same_output(&before, |calls, runs| (calls.sun_list)(&planet, &earth, window, runs), input);

        let refused = answer.err();
        let (good, answered) = (bodies.are_good(), answer.is_ok());
        let inside =
            matches!(refused, Some((17, t)) if t != t0 && is_far(t) && !is_far(t - 60_000) && (t - t0) % 60_000 == 0);
        met.note("begins near, ends far, answered", answered && good && !is_far(t0) && is_far(last));
        met.note("begins near, ends far, 17", inside && is_far(last));
        met.note("begins far, ends near, answered", answered && good && is_far(t0) && !is_far(last));
        met.note("begins far, ends near, 17", refused == Some((17, t0)) && !is_far(last));
        met.note("all far, answered", answered && is_far(t0) && is_far(last));
        met.note("all far, 17", refused == Some((17, t0)) && is_far(last));
        met.note("not good, ends at the near limit", answered && !good && last == NEAR_LIMIT);
        met.note("not good, begins at the near limit", answered && !good && t0 == -NEAR_LIMIT);
        met.note("first far minute a ms past the limit", inside && refused == Some((17, NEAR_LIMIT + 1)));
        met.note("begins at the limit of t", answered && t0 == -T_LIMIT);
        met.note("ends at the limit of t", answered && last == T_LIMIT);
        met.note("begins past the limit of t", refused == Some((2, t0)));
        met.note("ends past the limit of t", refused == Some((2, last)) && T_LIMIT - 60_000 * minutes < t0);
        met.note("a minute not usable before the first far one", inside && !bodies.are_usable(t0));
        met.note("far, good and not usable", refused == Some((11, 0)) && is_far(t0));
        met.note("17 without room", room == 0 && refused.is_some_and(|(number, _)| number == 17));
        met.note("a minute listed beyond two millennia", matches!(answer, Ok(count) if 0 < count) && is_far(t0));
        met.note("the planet's series not good", refused.is_some_and(|(n, _)| n == 17) && bodies.wide == [false, true]);
        met.note("Earth's series not good", refused.is_some_and(|(n, _)| n == 17) && bodies.wide == [true, false]);
    }
    met.all();
}
