//! A planet seen from Earth: the calls of the library that take both series.

use crate::arguments::Arguments;
use crate::failure::Failure;
use crate::json::Json;
use crate::series::{all, Series};
use stephylax::{coordinates_at, Refusal};

#[derive(Clone, Copy)]
pub struct Sight<'a> {
    pub planet: &'a Series,
    pub earth: &'a Series,
}

/// The planets of these words, and Earth after them: --earth, or the published one.
pub fn bodies(words: &[&str], arguments: &Arguments) -> Result<Vec<Series>, Failure> {
    let earth = arguments.option("--earth").unwrap_or("earth");
    all(&[words, &[earth]].concat(), arguments.option("--data"))
}

/// What is told of them as JSON.
pub fn sources(planets: &[Series], earth: &Series) -> Vec<Json> {
    let planets = planets.iter().map(|planet| planet.json("planet"));
    planets.chain([earth.json("earth")]).collect()
}

impl Sight<'_> {
    /// A refusal of a call that took both series. If one of them is at fault, it is named: the library judges the planet's
    /// first. Else `at` says where; of refusal 17, for which series and instant are at fault together, it does so too.
    pub fn failure(&self, refusal: Refusal, at: String) -> Failure {
        let is_too_far = matches!(refusal, Refusal::TooFar(_));
        let is_at_fault = |series: &&Series| match is_too_far {
            true => series.is_narrow(),
            false => stephylax::check(&series.packed) == Err(refusal),
        };
        let at_fault = [self.planet, self.earth].into_iter().find(is_at_fault);
        let blame = at_fault.map(|series| series.blame_for(refusal));
        Failure::refused_at(
            refusal,
            match blame {
                Some(blame) if is_too_far => format!("{at}; {blame}"),
                Some(blame) => blame,
                None => at,
            },
        )
    }

    /// The angle between planet and Sun in degrees. It is worked in floating point, for the eye: no list rests on it.
    pub fn separation(&self, t: i64) -> Result<f64, Failure> {
        let (planet, earth) = (vector(self.planet, t)?, vector(self.earth, t)?);
        let seen = [0, 1, 2].map(|i| planet[i] - earth[i]);
        let sun = earth.map(|v| -v);
        let cross = [[1, 2], [2, 0], [0, 1]].map(|[i, j]| seen[i] * sun[j] - seen[j] * sun[i]);
        let across = cross.iter().map(|v| v * v).sum::<f64>().sqrt();
        let along: f64 = (0..3).map(|i| seen[i] * sun[i]).sum();
        Ok(across.atan2(along).to_degrees())
    }
}

/// The heliocentric vector of a series at t, in AU.
fn vector(series: &Series, t: i64) -> Result<[f64; 3], Failure> {
    let c = coordinates_at(&series.packed, t)?;
    let [l, b, r] = [c.longitude, c.latitude, c.radius].map(|parts| parts as f64 * 1e-11);
    Ok([r * b.cos() * l.cos(), r * b.cos() * l.sin(), r * b.sin()])
}
