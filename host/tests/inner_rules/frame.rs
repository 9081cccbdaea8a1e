//! The turn to the frame of the catalogues, and sights in both frames: at random, at ties and beside them, at the least usable distance,
//! and on the vectors of places; beside the independent implementation.

use crate::common::calls::LIBRARY;
use crate::common::generate::{any_number, as_near_as_is_usable};
use crate::common::{expected, numbers, packed_series, rounds, two_series, Fields, Met, Random};
use crate::proved;
use crate::terms::{inverse, product};
use crate::vectors::place_lines;
use reference::plain::place::{seen, Frame, Vector, TO_CATALOGUES, TO_CATALOGUES_UNIT};
use reference::plain::series::Coordinates;
use reference::plain::{ANGLE_PER_PART, PARTS, QUARTER};

/// The greatest component that is turned; one past it counts as 0.
const REACH: i64 = 1 << 43;

/// The constants of the turn, each of which it has twice, with either sign.
const CONSTANTS: [i64; 3] = [TO_CATALOGUES[0][1], TO_CATALOGUES[2][0], TO_CATALOGUES[1][2]];

fn three(v: Vector) -> [i64; 3] {
    [v.x, v.y, v.z]
}

/// A component from `least` to `most` whose product with a constant of the turn is a tie, or up to two beside one.
fn at_a_tie(random: &mut Random, least: i64, most: i64) -> i64 {
    loop {
        let wanted = TO_CATALOGUES_UNIT / 2 + random.between(-2, 2);
        let first = product(wanted, inverse(random.pick(&CONSTANTS), TO_CATALOGUES_UNIT), TO_CATALOGUES_UNIT);
        let v = first + TO_CATALOGUES_UNIT * random.between(-9, 8);
        if (least..=most).contains(&v) {
            return v;
        }
    }
}

/// How a product with a constant of the turn lies to a tie, for every product of a vector.
fn note_ties(met: &mut Met, v: [i64; 3]) {
    let products = TO_CATALOGUES.iter().flat_map(|row| row.iter().zip(v)).filter(|(&m, _)| m != 0);
    for (&m, v) in products {
        let rest = product(m, v, TO_CATALOGUES_UNIT) - TO_CATALOGUES_UNIT / 2;
        met.note("a tie of two positive numbers", rest == 0 && 0 < m && 0 < v);
        met.note("a tie of two negative numbers", rest == 0 && m < 0 && v < 0);
        met.note("a tie of a negative constant", rest == 0 && m < 0 && 0 < v);
        met.note("a tie of a negative component", rest == 0 && 0 < m && v < 0);
        met.note("just below a tie", rest == -1);
        met.note("just above a tie", rest == 1);
    }
}

#[test]
fn turned_vectors() {
    let mut random = Random(49);
    let mut met = Met::default();
    for _ in 0..rounds(200_000) {
        let v = [0; 3].map(|_| match random.below(8) {
            0 => any_number(&mut random),
            1 => random.pick(&[-1, 1]) * (REACH + random.between(-2, 2)),
            2 | 3 => random.between(-REACH, REACH) >> random.below(44),
            _ => at_a_tie(&mut random, -REACH, REACH),
        });
        let [x, y, z] = v.map(|x| if (-REACH..=REACH).contains(&x) { x } else { 0 });
        assert_eq!(proved::turned(v), three(Vector { x, y, z }.turned()), "{v:?}");
        note_ties(&mut met, [x, y, z]);
        met.note("at the reach", v.contains(&REACH) && v.contains(&-REACH));
        met.note("past the reach", v.contains(&(REACH + 1)) || v.contains(&(-REACH - 1)));
    }
    met.all();
}

/// Earth's place, the geocentric vector and the distance of a sight in this frame, on which both programs agree.
fn same_sight(planet: [i64; 3], earth: [i64; 3], frame: Frame) -> Option<([i64; 3], [i64; 3], i64)> {
    let coordinates = |[longitude, latitude, radius]: [i64; 3]| Coordinates { longitude, latitude, radius };
    let answer = proved::sight(planet, earth, frame).map(|s| (s.earth, s.vector, s.distance as i64));
    let wanted = seen(coordinates(planet), coordinates(earth), frame);
    let wanted = wanted.map(|g| (three(g.earth), three(g.geocentric), g.distance));
    assert_eq!(answer, wanted, "{planet:?} {earth:?} {frame:?}");
    answer
}

/// L, B and R: of any number of turns and with radii at their limits, or on an axis with a radius at a tie, which is then a component.
fn body(random: &mut Random) -> [i64; 3] {
    if random.one_in(3) {
        let quarters = |n: i64| QUARTER * n / ANGLE_PER_PART;
        let [l, b] = [random.between(0, 3), random.between(-1, 1)].map(quarters);
        return [l, b, at_a_tie(random, PARTS / 10, 64 * PARTS)];
    }
    let radius = random.pick(&[PARTS / 10, 64 * PARTS]) + random.between(-2, 2);
    let radius = if random.one_in(4) { radius } else { random.between(PARTS / 10, 64 * PARTS) };
    [any_number(random), any_number(random), radius]
}

#[test]
fn sights() {
    let mut random = Random(48);
    let mut met = Met::default();
    let mut usable = 0;
    for _ in 0..rounds(100_000) {
        let [planet, earth] =
            if random.one_in(4) { as_near_as_is_usable(&mut random) } else { [body(&mut random), body(&mut random)] };
        let sights = [Frame::Theory, Frame::Catalogues].map(|frame| same_sight(planet, earth, frame));
        if let Some((earth, vector, _)) = sights[0] {
            note_ties(&mut met, earth);
            note_ties(&mut met, [0, 1, 2].map(|i| earth[i] + vector[i]));
        }
        met.note("usable in the theory's frame alone", sights[0].is_some() && sights[1].is_none());
        met.note("usable in the catalogues' frame alone", sights[0].is_none() && sights[1].is_some());
        usable += sights[1].is_some() as u64;
    }
    met.all();
    assert!(rounds(100_000) / 4 < usable, "only {usable} sights are usable");
}

/// At the instants of the vectors of places, where both series have coordinates: the sights of the place, and those that a list would have
/// there. Some are usable in one frame alone.
#[test]
fn sights_of_the_vectors() {
    let series = packed_series();
    let (mut in_both, mut in_theory, mut in_catalogues) = (0, 0, 0);
    for (_, line) in place_lines() {
        let fields = &mut Fields::of(&line);
        if line.starts_with("light") {
            continue;
        }
        let (planet, earth) = two_series(fields, &series);
        let t = fields.number();
        let mut instants = vec![t];
        if let Ok([.., light]) = expected(fields, numbers::<8>) {
            instants.push(t - light);
        }
        for t in instants {
            let coordinates = [&planet, &earth].map(|packed| (LIBRARY.coordinates_at)(packed, t));
            let [Ok(planet), Ok(earth)] = coordinates else {
                continue;
            };
            match [Frame::Theory, Frame::Catalogues].map(|frame| same_sight(planet, earth, frame).is_some()) {
                [true, true] => in_both += 1,
                [true, false] => in_theory += 1,
                [false, true] => in_catalogues += 1,
                [false, false] => {}
            }
        }
    }
    assert_eq!([in_both, in_theory, in_catalogues], [511, 20, 40]);
}
