//! Windows of the Sun list that reach its edges: their lists begin or end inside, have several runs, or are decided by rounding.

use super::coarse::{constant, WIDE};
use super::generate::window_start;
use super::Random;
use reference::plain::cosine::sine;
use reference::plain::packed::{Series, Term};
use reference::plain::place::{geometry, Frame};
use reference::plain::sun_list::{squared_separation, threshold, TURN_HALF_ARCMINUTES};
use reference::plain::{rounded, ANGLE_PER_PART, ANGLE_STEP, MILLENNIUM, PARTS, QUARTER, TURN};

/// Milliseconds in a minute, and minutes in a millennium.
const MINUTE: i64 = 60_000;
const MINUTES: i64 = MILLENNIUM / MINUTE;

pub struct Window {
    pub planet: Series,
    pub earth: Series,
    pub t0: i64,
    pub minutes: i64,
    pub keep_out: i64,
}

/// How a list lies in its window.
#[derive(Default)]
pub struct Shape {
    /// How many runs there are.
    pub runs: usize,
    /// Some minutes are listed, and some are not.
    pub partial: bool,
    /// A run ends inside, and the minute at its end or the one beside it is within an arcminute of the threshold.
    pub near: bool,
}

/// A wave of up to `size` parts, nearly as fast as a term can be.
fn wave(random: &mut Random, size: i64) -> Term {
    let c = random.between(500_000 * PARTS, 1_000_000 * PARTS - 1);
    Term { a: random.between(-size, size), b: random.between(0, 10 * PARTS - 1), c: random.pick(&[-1, 1]) * c }
}

/// A body whose longitude swings by up to `swing` parts: 100 radians are up to eleven degrees a minute.
fn swinging(random: &mut Random, radius: i64, swing: i64) -> Series {
    let mut series = Series::default();
    series.blocks[0] = vec![constant(random.between(0, 7 * PARTS)), wave(random, swing)];
    let size = random.pick(&[PARTS / 1000, PARTS / 30, PARTS / 3]);
    series.blocks[6].push(wave(random, size));
    series.blocks[12] = vec![constant(radius + random.between(-radius / 5, radius / 5)), wave(random, radius / 20)];
    series
}

impl Window {
    /// The planet runs about the Sun several times, or crawls; the keep-out is the separation of an inner minute, or an
    /// arcminute less.
    pub fn of_movement(random: &mut Random) -> Window {
        loop {
            let swift = !random.one_in(3);
            let radius = random.pick(&[PARTS / 3, PARTS * 3 / 4, 2 * PARTS, 40 * PARTS]);
            let swing = if swift { 135 * PARTS } else { random.pick(&[PARTS / 10, PARTS, 10 * PARTS]) };
            let mut window = Window {
                planet: swinging(random, radius, swing),
                earth: swinging(random, PARTS, PARTS / 10),
                t0: window_start(random),
                minutes: if swift { random.between(60, 200) } else { random.between(3, 80) },
                keep_out: 0,
            };
            for _ in 0..8 {
                let minute = random.between(1, window.minutes - 2);
                window.keep_out = window.arcminutes(minute) - random.between(0, 1);
                if (60..=2700).contains(&window.keep_out) {
                    return window;
                }
            }
        }
    }

    /// Sun, Earth and planet are a triangle of two equal sides, as wide at Earth as the threshold is, which turns by `turning`
    /// parts in a millennium while the planet's radius grows by `growing` billionths of the sides each minute. At t = 0 and
    /// without turning the squared separation is the threshold to the last digit: then all figures are exact.
    pub fn at_the_threshold(keep_out: i64, sides: i64, turning: i64, growing: i64) -> Window {
        let half = rounded((keep_out as i128 + 1) * TURN as i128, TURN_HALF_ARCMINUTES);
        let working = rounded(half, ANGLE_STEP as i128) as i64;
        let (mut planet, mut earth) = (Series::default(), Series::default());
        planet.blocks[0].push(constant(3 * QUARTER / ANGLE_PER_PART));
        earth.blocks[0].push(constant((2 * QUARTER + ANGLE_STEP * working) / ANGLE_PER_PART));
        planet.blocks[1].push(constant(turning));
        earth.blocks[1].push(constant(turning));
        planet.blocks[12].push(constant(200 * sides * sine(half as i64)));
        planet.blocks[13].push(constant(100 * sides * growing * MINUTES));
        earth.blocks[12].push(constant(sides * PARTS));
        Window { planet, earth, t0: -4 * MINUTE, minutes: 9, keep_out }
    }

    /// Planet and Earth turn together at the separation of the threshold, so that rounding tells which minutes are listed.
    pub fn of_rounding(random: &mut Random) -> Window {
        let turning = random.between(-99_000 * PARTS, 99_000 * PARTS);
        let mut window = Window::at_the_threshold(random.between(60, 2700), random.between(6, 30), turning, 0);
        // Series that turn faster are not good for the wide range.
        window.t0 = if turning.abs() <= WIDE.total { window_start(random) } else { random.between(-1 << 45, 1 << 45) };
        window.minutes = if random.one_in(100) { 1440 } else { random.between(3, 60) };
        window
    }

    /// The squared separation at a minute, from the plain program; none where the places are not usable.
    pub fn squared_separation(&self, minute: i64) -> Option<i64> {
        let geometry = geometry(&self.planet, &self.earth, self.t0 + MINUTE * minute, Frame::Theory);
        geometry.map(|geometry| squared_separation(&geometry))
    }

    /// How far the squared separation at a minute is from the threshold.
    pub fn off_threshold(&self, minute: i64) -> i64 {
        let squared = self.squared_separation(minute).expect("a list has places at all its minutes");
        (squared - threshold(self.keep_out)).abs()
    }

    /// The whole arcminutes of the separation at a minute, 0 where there is none.
    fn arcminutes(&self, minute: i64) -> i64 {
        let squared = self.squared_separation(minute).unwrap_or(0);
        (((squared as f64).sqrt() / 2e9).asin().to_degrees() * 120.0) as i64
    }

    /// What the list of this window shows.
    pub fn shape(&self, runs: &[u64]) -> Shape {
        let last = self.minutes as u64 - 1;
        let close = |minute: u64| {
            let squared = self.squared_separation(minute as i64).expect("a list has places at all its minutes");
            (threshold(self.keep_out - 1)..=threshold(self.keep_out + 1)).contains(&squared)
        };
        let begins = |run: &[u64]| 0 < run[0] && (close(run[0]) || close(run[0] - 1));
        let ends = |run: &[u64]| run[1] < last && (close(run[1]) || close(run[1] + 1));
        Shape {
            runs: runs.len() / 2,
            partial: !runs.is_empty() && runs != [0, last],
            near: runs.chunks(2).any(|run| begins(run) || ends(run)),
        }
    }
}
