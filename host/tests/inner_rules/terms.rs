//! A term's angle and value (RULES, "Working cosine and sums"), at random and at every edge, beside the independent implementation; and
//! how far a term's cosine is from the reference cosine.

use crate::common::{rounds, Random};
use crate::proved;
use reference::plain::exact::{common_factor, exact_angle, reference, Fraction};
use reference::plain::packed::Term;
use reference::plain::series::{term_angle, term_value};
use reference::plain::wide::Wide;
use reference::plain::{ANGLE_PER_PART, ANGLE_STEP, MILLENNIUM, PARTS, QUARTER, TURN, T_LIMIT, U};

/// The greatest |a|, b and |c|.
const A_LAST: i64 = 100_000 * PARTS - 1;
const B_LAST: i64 = 10 * PARTS - 1;
const C_LAST: i64 = 1_000_000 * PARTS - 1;

/// In so many milliseconds a term turns by c units of angle. Where c t is an odd multiple of half of it, a rounding meets a tie.
const TICK: i64 = MILLENNIUM / ANGLE_PER_PART;

/// a, b, c and t.
type AtInstant = [i64; 4];

/// A number of at most `last` on either side: an end or beside it, 0, 1, or any.
fn number(random: &mut Random, last: i64) -> i64 {
    let magnitude = match random.below(8) {
        0 | 1 => last,
        2 => last - random.between(1, 3),
        3 => 0,
        4 => 1,
        5 => random.between(0, last) >> random.below(56),
        _ => random.between(0, last),
    };
    random.pick(&[-1, 1]) * magnitude
}

fn amplitude(random: &mut Random) -> i64 {
    if random.one_in(2) {
        return random.pick(&[-U, U]);
    }
    number(random, A_LAST)
}

/// The number from 0 to n - 1 that times a is 1 more than a multiple of n, where a and n have no common factor.
pub fn inverse(a: i64, n: i64) -> i64 {
    let (mut last, mut rest) = (n, a.rem_euclid(n));
    let (mut last_factor, mut factor) = (0, 1);
    while rest != 0 {
        let q = last / rest;
        (last, rest) = (rest, last - q * rest);
        (last_factor, factor) = (factor, last_factor - q * factor);
    }
    last_factor.rem_euclid(n)
}

/// a b mod n.
pub fn product(a: i64, b: i64, n: i64) -> i64 {
    (a as i128 * b as i128).rem_euclid(n as i128) as i64
}

/// Every number at an edge or anywhere.
fn anywhere(random: &mut Random) -> AtInstant {
    [amplitude(random), number(random, B_LAST).abs(), number(random, C_LAST), number(random, T_LIMIT)]
}

/// c t is a tie, or up to two beside one.
fn at_a_tie(random: &mut Random) -> AtInstant {
    loop {
        let c = number(random, C_LAST);
        let wanted = TICK / 2 + random.between(-2, 2);
        let factor = common_factor(TICK, c.abs());
        if wanted % factor != 0 {
            continue;
        }
        let step = TICK / factor;
        let first = product(wanted / factor, inverse(c / factor, step), step);
        let t = first + step * random.between(-T_LIMIT / step, T_LIMIT / step - 1);
        assert_eq!(product(c, t, TICK), wanted, "c {c} t {t}");
        return [amplitude(random), number(random, B_LAST).abs(), c, t];
    }
}

/// An angle of less than a turn: a whole quarter, the middle between two, or where the working angle goes on to the next number; or up to
/// two beside it.
pub fn edge(random: &mut Random) -> i64 {
    // The last change of the working angle before the middle.
    let last = (QUARTER + ANGLE_STEP) / (2 * ANGLE_STEP);
    let step = |n: i64| n * ANGLE_STEP - ANGLE_STEP / 2;
    let off = match random.below(4) {
        0 => 0,
        1 => QUARTER / 2,
        2 => step(last - random.between(0, 2)),
        _ => step(random.between(0, last)),
    };
    let quarters = QUARTER * random.between(0, 3);
    (quarters + random.pick(&[-1, 1]) * off + random.between(-2, 2)).rem_euclid(TURN)
}

/// A term with this angle. t is m ticks, so c t is m c of them, and m has no factor in common with the turn.
fn of_angle(random: &mut Random, x: i64) -> AtInstant {
    loop {
        let m = number(random, T_LIMIT / TICK);
        if common_factor(TURN, m.abs()) != 1 {
            continue;
        }
        let b = number(random, B_LAST).abs();
        let c = product(x - product(ANGLE_PER_PART, b, TURN), inverse(m, TURN), TURN);
        let c = if random.one_in(2) { c - TURN } else { c };
        return [amplitude(random), b, c, m * TICK];
    }
}

/// The proved angle and value, which are the plain ones too.
fn same_term([a, b, c, t]: AtInstant) -> [i64; 2] {
    let term = Term { a, b, c };
    let answer = proved::term([a, b, c, t]);
    assert_eq!(answer, [term_angle(term, t), term_value(term, t)], "{term:?} at {t}");
    answer
}

#[test]
fn at_random_and_at_the_limits() {
    let mut random = Random(41);
    for _ in 0..rounds(200_000) {
        same_term(anywhere(&mut random));
    }
    // Every limit with every other.
    for a in [-A_LAST, 0, A_LAST] {
        for b in [0, 1, B_LAST - 1, B_LAST] {
            for c in [0, 1, C_LAST - 1, C_LAST].into_iter().flat_map(|c| [-c, c]) {
                for t in [0, 1, T_LIMIT - 1, T_LIMIT].into_iter().flat_map(|t| [-t, t]) {
                    same_term([a, b, c, t]);
                }
            }
        }
    }
}

#[test]
fn at_and_beside_ties() {
    let mut random = Random(42);
    for _ in 0..rounds(100_000) {
        same_term(at_a_tie(&mut random));
    }
}

#[test]
fn at_and_beside_edges_of_an_angle() {
    let mut random = Random(43);
    for _ in 0..rounds(100_000) {
        let x = edge(&mut random);
        let drawn = of_angle(&mut random, x);
        assert_eq!(same_term(drawn)[0], x, "{drawn:?}");
    }
}

/// How far the cosine of a term is from the reference cosine, in 1/U.
fn off_reference([_, b, c, t]: AtInstant) -> Fraction {
    // With this amplitude the value is the cosine.
    let [_, cosine] = proved::term([U, b, c, t]);
    let exact = reference(&exact_angle(b, c, t));
    let off = exact.cosine.times_small(U as i128).minus(&exact.lower.times_small(cosine as i128));
    Fraction { upper: if off.is_positive() { off } else { off.negated() }, lower: exact.lower }
}

/// x is not more than n/1000.
fn at_most_thousandths(x: &Fraction, n: i128) -> bool {
    x.upper.times_small(1000).at_most(&x.lower.times_small(n))
}

/// Terms that are as far from the reference as any that is known, within two millennia and within four: more than 1/U, well within the
/// promised 3/U.
#[test]
fn farthest_known_from_the_reference() {
    let near = [U, 150_190_231_715, 99_999_999_999_999_999, 63_115_199_999_999];
    let wide = [U, 720_774_734_114, -99_999_999_999_999_999, T_LIMIT];
    for (term, wanted, thousandths) in
        [(near, [7_867_739_512_949_282, 706_133_282], 1356), (wide, [23_548_187_022_943_816, -706_133_282], 1373)]
    {
        assert_eq!(same_term(term), wanted);
        let off = off_reference(term);
        assert!(!at_most_thousandths(&off, thousandths - 1) && at_most_thousandths(&off, thousandths + 1), "{term:?}");
    }
}

/// Promised is at most 3/U for each term, and no distance for a constant one.
#[test]
fn near_the_reference() {
    let mut random = Random(44);
    for round in 0..rounds(15_000) {
        let term = match round % 3 {
            0 => anywhere(&mut random),
            1 => at_a_tie(&mut random),
            _ => {
                let x = edge(&mut random);
                of_angle(&mut random, x)
            }
        };
        assert!(at_most_thousandths(&off_reference(term), 3000), "{term:?}");
    }
    for t in [-T_LIMIT, -1, 0, 1, T_LIMIT] {
        assert_eq!(off_reference([U, 0, 0, t]).upper, Wide::of(0), "{t}");
    }
}
