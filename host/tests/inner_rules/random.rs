//! The other rules at random, with numbers at the edges of their ranges among them, beside the independent implementation.

use crate::common::generate::any_number;
use crate::common::{rounds, Random};
use crate::proved;
use crate::terms::edge;
use reference::plain::place::{direction, latitude, Vector};
use reference::plain::{cosine, nutation, NEAR_LIMIT, PARTS, TURN, T_LIMIT};

/// Angles of 64 bits: any, and those at and beside edges, with whole turns.
#[test]
fn cosines_and_sines() {
    let mut random = Random(45);
    let turns = i64::MAX / TURN - 1;
    for _ in 0..rounds(200_000) {
        let turned = edge(&mut random) + TURN * random.between(-turns, turns);
        let x = if random.one_in(4) { any_number(&mut random) } else { turned };
        assert_eq!([proved::cosine(x), proved::sine(x)], [cosine::cosine(x), cosine::sine(x)], "{x}");
    }
}

#[test]
fn nutation_at_random() {
    let mut random = Random(46);
    for round in 0..rounds(20_000) {
        let t = [-T_LIMIT, T_LIMIT, -NEAR_LIMIT, NEAR_LIMIT, 0, -1, 1].get(round as usize).copied();
        let t = t.unwrap_or_else(|| random.between(-T_LIMIT, T_LIMIT));
        let (answer, wanted) = (proved::nutation(t), nutation::nutation(t));
        let sums = [answer.longitude, answer.obliquity, answer.mean];
        assert_eq!(sums, [wanted.longitude, wanted.obliquity, wanted.mean_obliquity], "{t}");
        let angles = [answer.longitude_angle, answer.true_angle];
        assert_eq!(angles, [wanted.longitude_angle(), wanted.obliquity_angle()], "{t}");
        assert_eq!(proved::arguments(t), nutation::arguments(t), "{t}");
    }
}

/// A component of any size, within the reach of a vector between usable places.
fn component(random: &mut Random) -> i64 {
    random.between(-128 * PARTS, 128 * PARTS) >> random.below(44)
}

#[test]
fn directions_and_latitudes() {
    let mut random = Random(47);
    for _ in 0..rounds(100_000) {
        let [x, y, z] = [0; 3].map(|_| component(&mut random));
        assert_eq!(proved::direction(x, y), direction(x, y), "{x} {y}");
        assert_eq!(proved::latitude([x, y, z]), latitude(Vector { x, y, z }), "{x} {y} {z}");
    }
}
