//! What is promised of the library's answers, tried against exact fractions: coordinates within 10^-6 of the exact sums, and a
//! Sun list that misses no minute within the angle and lists none two arcminutes farther out.

mod common;

use common::calls::LIBRARY;
use common::coarse::{at_wide_limit, Edge};
use common::edges::Window;
use common::generate::{bodies, instant, orbit, window_start};
use common::{hex, published, Met, Random};
use reference::plain::exact::{exact_sum, Sight};
use reference::plain::packed::{pack, parse};
use reference::plain::wide::Wide;
use reference::plain::{is_far, PARTS, T_LIMIT};

fn rounds(n: u64) -> u64 {
    if std::env::var_os("STEPHYLAX_SHORT").is_some() {
        return n.div_ceil(20);
    }
    n
}

fn packed(planet: &str) -> Vec<u8> {
    let mut packed = vec![0; 200_000];
    let length = (LIBRARY.read_text)(&published(planet), &mut packed).expect("the published series is good");
    packed.truncate(length);
    packed
}

/// Each coordinate is within 100,000 parts of the exact sum of its six blocks, where there is an answer; whether there is one.
fn coordinates_are_close(bytes: &[u8], t: i64) -> bool {
    let Ok(coordinates) = (LIBRARY.coordinates_at)(bytes, t) else {
        return false;
    };
    let series = parse(bytes).expect("the library took it");
    for (coordinate, blocks) in coordinates.iter().zip(series.blocks.chunks(6)) {
        let sum = exact_sum(blocks, t);
        let exact = sum.upper.times_small(PARTS as i128);
        let low = sum.lower.times_small(*coordinate as i128 - 100_000);
        let high = sum.lower.times_small(*coordinate as i128 + 100_000);
        assert!(low.at_most(&exact) && exact.at_most(&high), "t {t}, {coordinate}, packed {}", hex(bytes));
    }
    true
}

#[test]
fn coordinates_of_published_series() {
    let mut random = Random(21);
    for planet in ["mercury", "venus", "earth"] {
        let bytes = packed(planet);
        for _ in 0..rounds(4) {
            coordinates_are_close(&bytes, instant(&mut random));
        }
    }
}

#[test]
fn coordinates_of_random_series() {
    let mut random = Random(22);
    let mut met = Met::default();
    for _ in 0..rounds(2000) {
        let t = instant(&mut random);
        let answered = coordinates_are_close(&pack(&orbit(&mut random, PARTS)), t);
        met.note("near", answered && !is_far(t));
        met.note("far", answered && is_far(t));
    }
    met.all();
}

/// Series that are as coarse as the wide range allows, at the ends of it.
#[test]
fn coordinates_at_the_wide_limit() {
    let mut random = Random(26);
    for _ in 0..rounds(100) {
        let series = pack(&at_wide_limit(&mut random, Edge::Coarseness, true));
        for t in [-T_LIMIT, T_LIMIT] {
            assert!(coordinates_are_close(&series, t), "t {t} packed {}", hex(&series));
        }
    }
}

/// Whether a minute is rightly listed or left out: listed if it is within the keep-out, not listed if it is two arcminutes
/// farther out.
fn minute_is_right(window: &Window, runs: &[u64], minute: i64) {
    let Window { planet, earth, t0, keep_out, .. } = window;
    let listed = runs.chunks(2).any(|run| (run[0]..=run[1]).contains(&(minute as u64)));
    let sight = Sight::at(planet, earth, t0 + 60_000 * minute);
    let series = || format!("planet {} earth {}", hex(&pack(planet)), hex(&pack(earth)));
    let input = || format!("t0 {t0} keep-out {keep_out} minute {minute} {}", series());
    assert!(listed || !sight.within(*keep_out), "a minute is missing: {}", input());
    assert!(!listed || sight.within(keep_out + 2), "a minute is listed too far out: {}", input());
}

/// The library's list, where it has one.
fn list(window: &Window) -> Option<Vec<u64>> {
    let mut runs = vec![0; 1440];
    let figures = [window.t0, window.minutes, window.keep_out];
    let count = (LIBRARY.sun_list)(&pack(&window.planet), &pack(&window.earth), figures, &mut runs).ok()?;
    runs.truncate(count);
    Some(runs)
}

/// The ends of runs that lie inside the window, each as the listed minute and the one beside it that is not.
fn inner_ends(runs: &[u64], minutes: i64) -> Vec<[i64; 2]> {
    let ends = runs.chunks(2).flat_map(|run| [[run[0] as i64, run[0] as i64 - 1], [run[1] as i64, run[1] as i64 + 1]]);
    ends.filter(|[_, beside]| (0..minutes).contains(beside)).collect()
}

/// Tries the library's lists of such windows against the exact test, on both sides of the run's end that is nearest to the
/// threshold. At least nine of ten windows have such an end within an arcminute of it; of the others one minute is tried. One
/// window of five at least begins beyond two millennia.
fn lists_are_right(windows: u64, random: &mut Random, draw: fn(&mut Random) -> Window) {
    let (mut tried, mut near, mut far) = (0, 0, 0);
    while tried < windows {
        let window = draw(random);
        let Some(runs) = list(&window) else {
            continue;
        };
        tried += 1;
        near += window.shape(&runs).near as u64;
        far += is_far(window.t0) as u64;
        let off = |[listed, beside]: &[i64; 2]| window.off_threshold(*listed).min(window.off_threshold(*beside));
        match inner_ends(&runs, window.minutes).into_iter().min_by_key(off) {
            Some(end) => end.into_iter().for_each(|minute| minute_is_right(&window, &runs, minute)),
            None => minute_is_right(&window, &runs, random.between(0, window.minutes - 1)),
        }
    }
    println!("of {windows} windows {near} have a run's end within an arcminute of the threshold, {far} begin far");
    assert!(windows < 40 || windows <= 5 * far, "beyond two millennia: {far} of {windows}");
    assert!(9 * windows <= 10 * near, "a run's end near the threshold: {near} of {windows}");
}

#[test]
fn lists_of_moving_bodies() {
    lists_are_right(rounds(120), &mut Random(23), Window::of_movement);
}

#[test]
fn lists_at_the_threshold() {
    lists_are_right(rounds(80), &mut Random(26), Window::of_rounding);
}

/// Bodies of any kind, most of them far from the Sun: one minute of each window.
#[test]
fn lists_of_random_series() {
    let mut random = Random(27);
    let mut tried = 0;
    while tried < rounds(20) {
        let (planet, earth) = bodies(&mut random);
        let (Ok(planet), Ok(earth)) = (parse(&planet), parse(&earth)) else {
            continue;
        };
        let t0 = window_start(&mut random);
        let (minutes, keep_out) = (random.between(1, 400), random.between(60, 2700));
        let window = Window { planet, earth, t0, minutes, keep_out };
        let Some(runs) = list(&window) else {
            continue;
        };
        tried += 1;
        minute_is_right(&window, &runs, random.between(0, minutes - 1));
    }
}

/// The transit of 2019: Mercury comes within a degree of the Sun and leaves it on the same day.
#[test]
fn list_of_mercury() {
    let (planet, earth) = (parse(&packed("mercury")).unwrap(), parse(&packed("earth")).unwrap());
    let t0 = (LIBRARY.instant_of_date)([2019, 11, 11, 0]).unwrap();
    let window = Window { planet, earth, t0, minutes: 1440, keep_out: 60 };
    let runs = list(&window).unwrap();
    let ends = inner_ends(&runs, window.minutes);
    assert!(!ends.is_empty(), "{runs:?}");
    for minute in ends.into_iter().flatten() {
        minute_is_right(&window, &runs, minute);
    }
}

/// The arithmetic behind the exact figures, on products that take the halving way and the plain one.
#[test]
fn wide_numbers() {
    let mut random = Random(25);
    let mut wide = |limbs: usize| {
        let two_64 = Wide::of(1 << 64);
        (0..limbs).fold(Wide::of(0), |v, _| v.times(&two_64).plus(&Wide::of(random.next() as i128)))
    };
    for limbs in [1, 2, 39, 40, 41, 80, 81, 150] {
        let (a, b, c) = (wide(limbs), wide(limbs + 3).negated(), wide(2 * limbs));
        let left = a.plus(&b).times(&c);
        let right = a.times(&c).plus(&b.times(&c));
        assert_eq!(left, right, "{limbs} limbs");
        assert_eq!(a.minus(&b).plus(&b), a, "{limbs} limbs");
    }
}
