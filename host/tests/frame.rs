//! The frame of the star catalogues: an apparent place is in it, the Sun list is in the theory's own. What is usable, or listed, in one
//! frame alone shows which of the two a call works in. The library and the independent implementation must agree throughout.

mod common;

use common::calls::{Calls, Outcome};
use common::coarse::constant;
use common::generate::as_near_as_is_usable;
use common::{
    expected, hex, numbers, packed_series, rounds, same, same_output, two_series, vectors, Fields, Met, Random,
};
use reference::plain::packed::{pack, parse, Series};
use reference::plain::place::{geometry, light_time, Frame};
use reference::plain::sun_list::{squared_separation, threshold};
use reference::plain::{MILLENNIUM, PARTS};

/// Which minutes of a window are listed, if its list is worked in this frame; or the first that is not usable.
fn listed(planet: &Series, earth: &Series, [t0, minutes, keep_out]: [i64; 3], frame: Frame) -> Result<Vec<bool>, i64> {
    let limit = threshold(keep_out);
    let minute = |j: i64| {
        let geometry = geometry(planet, earth, t0 + 60_000 * j, frame).ok_or(j)?;
        Ok(squared_separation(&geometry) <= limit)
    };
    (0..minutes).map(minute).collect()
}

/// The vectors of the list that would be answered otherwise in the frame of the catalogues are answered in the theory's.
#[test]
fn lists_are_in_the_frame_of_the_theory() {
    let series = packed_series();
    let (mut other_minutes, mut refused_in_theory, mut refused_in_catalogues) = (0, 0, 0);
    for (number, line) in vectors("sunlist.txt") {
        let fields = &mut Fields::of(&line);
        let (planet, earth) = two_series(fields, &series);
        let window = numbers(fields);
        let room = fields.number() as usize;
        let wanted: Outcome<Vec<u64>> =
            expected(fields, |fields| (0..fields.number()).map(|_| fields.number() as u64).collect());
        if !matches!(wanted, Ok(_) | Err((11, _))) {
            continue;
        }
        let [p, e] = [&planet, &earth].map(|bytes| parse(bytes).expect("its list is worked"));
        match [Frame::Theory, Frame::Catalogues].map(|frame| listed(&p, &e, window, frame)) {
            [in_theory, in_catalogues] if in_theory == in_catalogues => continue,
            [Ok(_), Ok(_)] => other_minutes += 1,
            [Err(_), _] => refused_in_theory += 1,
            [_, Err(_)] => refused_in_catalogues += 1,
        }
        let call = |calls: &Calls, runs: &mut [u64]| (calls.sun_list)(&planet, &earth, window, runs);
        let (answer, runs) = same_output(&vec![7; room], call, || line.clone());
        assert_eq!(answer.map(|count| runs[..count].to_vec()), wanted, "line {number}: {line}");
    }
    assert_eq!([other_minutes, refused_in_theory, refused_in_catalogues], [71, 14, 6]);
}

/// A body with these L, B and R at t = 0, whose radius grows by so much in a millennium.
fn body([l, b, r]: [i64; 3], growing: i64) -> Series {
    let mut series = Series::default();
    for (block, a) in [(0, l), (6, b), (12, r), (13, growing)] {
        series.blocks[block].push(constant(a));
    }
    series
}

/// Two bodies, and how the calls take them.
struct Bodies {
    series: [Series; 2],
    packed: [Vec<u8>; 2],
}

impl Bodies {
    fn of(planet: Series, earth: Series) -> Bodies {
        let series = [planet, earth];
        Bodies { packed: [pack(&series[0]), pack(&series[1])], series }
    }

    fn input(&self, t: i64) -> String {
        format!("t {t} planet {} earth {}", hex(&self.packed[0]), hex(&self.packed[1]))
    }

    fn place(&self, t: i64) -> Outcome<[i64; 3]> {
        let [planet, earth] = &self.packed;
        same(|calls| (calls.apparent_place)(planet, earth, t), || self.input(t))
    }

    /// Of the minute at t alone.
    fn list(&self, t: i64) -> Outcome<usize> {
        let [planet, earth] = &self.packed;
        same_output(&[7; 2], |calls, runs| (calls.sun_list)(planet, earth, [t, 1, 60], runs), || self.input(t)).0
    }

    /// The instant at which the light left that arrives at t, where the planet's distance at t is usable for a place.
    fn light_left(&self, t: i64) -> Option<i64> {
        let geometry = geometry(&self.series[0], &self.series[1], t, Frame::Catalogues)?;
        Some(t - light_time(geometry.distance))
    }
}

/// Planet and Earth in line with the Sun at the least usable distance, which rounding passes in one frame and not in the other. L and B
/// are in tenths of a radian, radii in tenths of an AU.
#[test]
fn least_distances_at_rest() {
    for ([l, b, planet, earth], place, list) in [
        // The distance is 0.1 AU,
        ([3, 0, 4, 3], None, Some((11, 0))),
        ([29, 0, 4, 3], Some((11, 0)), None),
        // or a sixteenth of the sum of both radii.
        ([3, 0, 17, 15], None, Some((11, 0))),
        ([57, 2, 17, 15], Some((11, 0)), None),
    ] {
        let at = |radius: i64| body([l, b, radius].map(|tenths| tenths * PARTS / 10), 0);
        let bodies = Bodies::of(at(planet), at(earth));
        assert_eq!((bodies.place(0).err(), bodies.list(0).err()), (place, list), "{}", bodies.input(0));
    }
}

/// The same at random, at rest or while the planet comes or goes: at the instant itself, or when the light left.
#[test]
fn least_distances_at_random() {
    let mut random = Random(71);
    // At 0.1 AU, and at a sixteenth of the sum of both radii.
    let mut limits = [Met::default(), Met::default()];
    for _ in 0..rounds(40_000) {
        let [planet, earth] = as_near_as_is_usable(&mut random);
        let light = light_time((planet[2] - earth[2]).abs());
        // A few parts in the time of the light.
        let growing = random.between(-3, 3) * (MILLENNIUM / light);
        let bodies = Bodies::of(body(planet, growing), body(earth, 0));
        let t = random.pick(&[0, light]);
        let (place, left, taken) = (bodies.place(t), bodies.light_left(t), bodies.list(t).is_ok());
        let taken_before = left.is_some_and(|left| bodies.list(left).is_ok());
        assert!(matches!(place, Ok(_) | Err((11, 0))), "{place:?} {}", bodies.input(t));

        let (answered, usable) = (place.is_ok(), left.is_some());
        let met = &mut limits[(16 * PARTS / 10 < planet[2] + earth[2]) as usize];
        met.note("at t refused for a place alone", !usable && taken);
        met.note("at t refused in a list alone", answered && !taken);
        met.note("when the light left refused for a place alone", usable && !answered && taken_before);
        met.note("when the light left refused in a list alone", answered && !taken_before);
    }
    limits.iter().for_each(Met::all);
}
