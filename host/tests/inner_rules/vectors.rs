//! Every line of the vectors of inner rules; the root that docs/RULES.md works; roots at squares.

use crate::common::calls::{Outcome, LIBRARY};
use crate::common::{expected, numbers, packed_series, repository, two_series, vectors, Fields};
use crate::proved;
use reference::plain::place::Frame;

/// The case lines of a vector file, which has so many: every test below ends each of them, and none passes on less.
fn counted(name: &str, count: usize) -> Vec<(usize, String)> {
    let lines = vectors(name);
    assert_eq!(lines.len(), count, "the case lines of {name}");
    lines
}

#[test]
fn working_cosine_and_sine() {
    for (number, line) in counted("cosine.txt", 1519) {
        let fields = &mut Fields::of(&line);
        let x = fields.number();
        let answer = [proved::cosine(x), proved::sine(x)];
        assert_eq!(answer, numbers(fields), "line {number}: {line}");
        assert!(fields.done(), "line {number}: {line}");
    }
}

#[test]
fn terms() {
    for (number, line) in counted("terms.txt", 1714) {
        let fields = &mut Fields::of(&line);
        let term = proved::term(numbers(fields));
        assert_eq!(term, numbers(fields), "line {number}: {line}");
        assert!(fields.done(), "line {number}: {line}");
    }
}

#[test]
fn turned_vectors() {
    for (number, line) in counted("turn.txt", 260) {
        let fields = &mut Fields::of(&line);
        let turned = proved::turned(numbers(fields));
        assert_eq!(turned, numbers(fields), "line {number}: {line}");
        assert!(fields.done(), "line {number}: {line}");
    }
}

#[test]
fn roots() {
    for (number, line) in counted("root.txt", 3913) {
        let fields = &mut Fields::of(&line);
        let root = proved::root(numbers(fields));
        assert_eq!(root, fields.number(), "line {number}: {line}");
        assert!(fields.done(), "line {number}: {line}");
    }
}

/// The lines of the table that works a root in docs/RULES.md: the pair, what has been read, the rest and the pair, the trial, the bit,
/// the root and the rest left.
fn worked_lines() -> Vec<[i64; 7]> {
    let rules = std::fs::read_to_string(repository("docs/RULES.md")).expect("the rules can be read");
    let (_, section) = rules.split_once("### The floor root bit by bit").expect("the rules work a root");
    let (section, _) = section.split_once("\n## ").expect("another section follows");
    let lines = section.lines().filter(|line| line.starts_with("| 0") || line.starts_with("| 1"));
    let figures = lines.map(|line| {
        let mut fields = line.trim_matches('|').split('|').map(str::trim);
        let pair = i64::from_str_radix(fields.next().expect("a pair"), 2).expect("two bits");
        let mut figure = || fields.next().expect("a figure").parse::<i64>().expect("a number");
        let line = [pair, figure(), figure(), figure(), figure(), figure(), figure()];
        assert_eq!(fields.next(), None);
        line
    });
    figures.collect()
}

/// The root that is worked in the rules: every figure follows from the line before it, each bit is decided by squares as the rules
/// say, and the library finds the same root.
#[test]
fn worked_root() {
    let lines = worked_lines();
    assert_eq!(lines.len(), 11);
    let (mut number, mut root, mut rest) = (0, 0, 0);
    for [pair, read, with_pair, trial, bit, new_root, left] in lines {
        assert_eq!([read, with_pair, trial], [4 * number + pair, 4 * rest + pair, 4 * root + 1]);
        let with_bit = 2 * root + 1;
        assert_eq!(bit == 1, with_bit * with_bit <= read, "the bit at {read}");
        assert_eq!([new_root, left], [2 * root + bit, with_pair - bit * trial]);
        assert_eq!(new_root * new_root + left, read);
        (number, root, rest) = (read, new_root, left);
    }
    let vector = [1413, 47, 35];
    assert_eq!(number, 2_000_003);
    assert_eq!(number, vector.map(|x| x * x).iter().sum::<i64>());
    assert_eq!(proved::root(vector), root);
}

/// Squares, and 1 less than a square, up to near 2^90, and the greatest sum that is taken, of three components of 2^45. The squares of
/// 2mm, 2m and 1 are (2mm + 1)(2mm + 1) together, and without the 1 they are just below it.
#[test]
fn roots_at_a_square() {
    const REACH: i64 = 1 << 45;
    let mut greatest = 0;
    for step in 0..4096 {
        let m = 1 + step * step / 4;
        greatest = 2 * m * m;
        assert_eq!(proved::root([greatest, 2 * m, 1]), greatest + 1, "m = {m}");
        assert_eq!(proved::root([greatest, 2 * m, 0]), greatest, "m = {m}");
        assert_eq!(proved::root([0, -greatest, 0]), greatest, "m = {m}");
    }
    assert!(REACH - REACH / 100 < greatest && greatest <= REACH);
    assert_eq!(proved::root([REACH; 3]), 60_941_120_090_265);
    for shift in 0..=45 {
        for x in [(1 << shift) - 1, 1 << shift] {
            assert_eq!(proved::root([x, 0, 0]), x);
        }
    }
}

#[test]
fn directions() {
    for (number, line) in counted("direction.txt", 1078) {
        let fields = &mut Fields::of(&line);
        let kind = fields.word();
        let [x, y] = numbers(fields);
        let z = if kind == "lat" { fields.number() } else { 0 };
        assert_eq!(proved::direction(x, y), fields.number(), "line {number}: {line}");
        if kind == "lat" {
            assert_eq!(proved::latitude([x, y, z]), fields.number(), "line {number}: {line}");
        }
        assert!(fields.done(), "line {number}: {line}");
    }
}

#[test]
fn nutation_and_obliquity() {
    for (number, line) in counted("nutation.txt", 330) {
        let fields = &mut Fields::of(&line);
        let t = fields.number();
        let n = proved::nutation(t);
        let sums = [n.longitude, n.obliquity, n.mean, n.mean + n.obliquity];
        assert_eq!(sums, numbers(fields), "line {number}: {line}");
        assert_eq!(proved::arguments(t), numbers(fields), "line {number}: {line}");
        assert_eq!([n.longitude_angle, n.true_angle], numbers(fields), "line {number}: {line}");
        assert!(fields.done(), "line {number}: {line}");
    }
}

/// Planet and Earth at an instant. Their coordinates are those of the public call, which refuses 17 last: a place judges both series
/// before that.
fn seen(planet: &[u8], earth: &[u8], t: i64) -> Outcome<proved::SightFigures> {
    let (planet, earth) = ((LIBRARY.coordinates_at)(planet, t), (LIBRARY.coordinates_at)(earth, t));
    if let (Err((17, _)), Err(refusal)) = (planet, earth) {
        return Err(refusal);
    }
    proved::sight(planet?, earth?, Frame::Catalogues).ok_or((11, 0))
}

/// The figures on the way to a place: planet and Earth at t, D and its light time, the geocentric vector at the earlier
/// instant; or the first refusal.
fn steps(planet: &[u8], earth: &[u8], t: i64) -> Outcome<[i64; 11]> {
    let now = seen(planet, earth, t)?;
    let [x, y, z] = now.vector;
    let [earth_x, earth_y, earth_z] = now.earth;
    let distance = now.distance as i64;
    let light = proved::light_time(distance);
    let [then_x, then_y, then_z] = seen(planet, earth, t - light)?.vector;
    let planet = [earth_x + x, earth_y + y, earth_z + z];
    Ok([planet[0], planet[1], planet[2], earth_x, earth_y, earth_z, distance, light, then_x, then_y, then_z])
}

/// The case lines of the vectors of places.
pub fn place_lines() -> Vec<(usize, String)> {
    counted("place.txt", 617)
}

/// What follows these figures in a line is the answer of the public call, which has a test of its own.
#[test]
fn steps_to_a_place() {
    let series = packed_series();
    for (number, line) in place_lines() {
        let fields = &mut Fields::of(&line);
        if line.starts_with("light") {
            fields.word();
            assert_eq!(proved::light_time(fields.number()), fields.number(), "line {number}: {line}");
            continue;
        }
        let (planet, earth) = two_series(fields, &series);
        let answer = steps(&planet, &earth, fields.number());
        assert_eq!(answer, expected(fields, numbers), "line {number}: {line}");
    }
}
