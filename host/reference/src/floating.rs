//! The same work in f64 with the system's cosine, over unpacked tables: the benchmark's yardstick. Nothing here is exact.

use crate::plain::nutation::TABLE;
use crate::plain::packed::Series;
use crate::plain::place::{TO_CATALOGUES, TO_CATALOGUES_UNIT};

struct Term {
    a: f64,
    b: f64,
    c: f64,
}

/// A series as tables of doubles, block by block.
pub struct Tables {
    blocks: Vec<Vec<Term>>,
}

#[derive(Clone, Copy, Debug)]
pub struct Vector {
    x: f64,
    y: f64,
    z: f64,
}

/// Right ascension and declination in radians, distance in AU.
#[derive(Clone, Copy, Debug)]
pub struct Place {
    pub right_ascension: f64,
    pub declination: f64,
    pub distance: f64,
}

const MILLENNIUM_MS: f64 = 31_557_600_000_000.0;
const ARCSECOND: f64 = std::f64::consts::PI / 648_000.0;

impl Tables {
    pub fn of(series: &Series) -> Tables {
        let number = |parts: i64| parts as f64 / 1e11;
        let block = |terms: &Vec<crate::plain::packed::Term>| {
            terms.iter().map(|t| Term { a: number(t.a), b: number(t.b), c: number(t.c) }).collect()
        };
        Tables { blocks: series.blocks.iter().map(block).collect() }
    }

    fn coordinate(&self, first: usize, tau: f64) -> f64 {
        let mut v = 0.0;
        for block in self.blocks[first..first + 6].iter().rev() {
            let sum: f64 = block.iter().map(|term| term.a * (term.b + term.c * tau).cos()).sum();
            v = v * tau + sum;
        }
        v
    }

    /// Longitude, latitude and radius at t milliseconds.
    pub fn coordinates(&self, t: i64) -> [f64; 3] {
        let tau = t as f64 / MILLENNIUM_MS;
        [0, 6, 12].map(|first| self.coordinate(first, tau))
    }

    fn vector(&self, t: i64) -> Vector {
        let [l, b, r] = self.coordinates(t);
        Vector::of_angles(r, l, b)
    }
}

impl Vector {
    fn of_angles(length: f64, longitude: f64, latitude: f64) -> Vector {
        let flat = length * latitude.cos();
        Vector { x: flat * longitude.cos(), y: flat * longitude.sin(), z: length * latitude.sin() }
    }

    /// In the frame of the star catalogues.
    fn turned(self) -> Vector {
        let v = [self.x, self.y, self.z];
        let product = |m: i64, v: f64| m as f64 / TO_CATALOGUES_UNIT as f64 * v;
        let [x, y, z] = TO_CATALOGUES.map(|row| product(row[0], v[0]) + product(row[1], v[1]) + product(row[2], v[2]));
        Vector { x: self.x + x, y: self.y + y, z: self.z + z }
    }

    fn minus(self, other: Vector) -> Vector {
        Vector { x: self.x - other.x, y: self.y - other.y, z: self.z - other.z }
    }

    fn dot(self, other: Vector) -> f64 {
        self.x * other.x + self.y * other.y + self.z * other.z
    }

    fn length(self) -> f64 {
        self.dot(self).sqrt()
    }
}

/// Nutation in longitude and true obliquity, in radians.
fn nutation(t: i64) -> (f64, f64) {
    let tau = t as f64 / MILLENNIUM_MS;
    let c = 10.0 * tau;
    let polynomial = |k: [f64; 5], x: f64| k.iter().rev().fold(0.0, |v, k| v * x + k);
    let arguments = [
        polynomial([1_072_260.735_12, 1_602_961_601.460_3, -5.868_1, 0.006_595, -0.000_031_84], c),
        polynomial([1_287_104.793_048, 129_596_581.047_4, -0.552_9, 0.000_147, 0.0], c),
        polynomial([485_868.280_968, 1_717_915_923.472_8, 32.389_3, 0.051_651, -0.000_244_7], c),
        polynomial([335_779.557_552, 1_739_527_263.098_3, -12.250_5, -0.001_021, 0.000_004_17], c),
        polynomial([450_160.398_144, -6_962_890.265_6, 7.474_2, 0.007_702, -0.000_059_39], c),
    ];
    let (mut longitude, mut obliquity) = (0.0, 0.0);
    for row in &TABLE {
        let s: f64 = (0..5).map(|i| row[4 + i] as f64 * arguments[i]).sum::<f64>() * ARCSECOND;
        longitude += (10.0 * row[0] as f64 + row[1] as f64 * c) * s.sin();
        obliquity += (10.0 * row[2] as f64 + row[3] as f64 * c) * s.cos();
    }
    let mean = polynomial([84_381.448, -468.15, -0.059, 1.813, 0.0], tau);
    (longitude * 1e-5 * ARCSECOND, (mean + obliquity * 1e-5) * ARCSECOND)
}

pub fn place(planet: &Tables, earth: &Tables, t: i64) -> Place {
    let seen_at = |t: i64| planet.vector(t).turned().minus(earth.vector(t).turned());
    let distance = seen_at(t).length();
    let seen = seen_at(t - (499_004.781_984 * distance).round() as i64);
    let (longitude, obliquity) = nutation(t);
    let latitude = (seen.z / (seen.x * seen.x + seen.y * seen.y).sqrt()).atan();
    let rebuilt = Vector::of_angles(seen.length(), seen.y.atan2(seen.x) + longitude, latitude);
    let (s, c) = obliquity.sin_cos();
    let v = Vector { x: rebuilt.x, y: rebuilt.y * c - rebuilt.z * s, z: rebuilt.y * s + rebuilt.z * c };
    Place {
        right_ascension: v.y.atan2(v.x).rem_euclid(2.0 * std::f64::consts::PI),
        declination: (v.z / (v.x * v.x + v.y * v.y).sqrt()).atan(),
        distance,
    }
}

/// The angle between planet and Sun as seen from Earth, in radians.
pub fn separation(planet: &Tables, earth: &Tables, t: i64) -> f64 {
    let earth = earth.vector(t);
    let seen = planet.vector(t).minus(earth);
    let sun = Vector { x: 0.0, y: 0.0, z: 0.0 }.minus(earth);
    (sun.dot(seen) / (sun.length() * seen.length())).clamp(-1.0, 1.0).acos()
}

/// First and last minutes of the runs within `keep_out` arcminutes plus one.
pub fn sun_list(planet: &Tables, earth: &Tables, t0: i64, minutes: i64, keep_out: i64) -> Vec<u64> {
    let limit = (keep_out + 1) as f64 * 60.0 * ARCSECOND;
    let mut numbers = Vec::new();
    let mut in_run = false;
    for minute in 0..minutes {
        let listed = separation(planet, earth, t0 + 60_000 * minute) <= limit;
        if listed && !in_run {
            numbers.push(minute as u64);
        }
        if !listed && in_run {
            numbers.push(minute as u64 - 1);
        }
        in_run = listed;
    }
    if in_run {
        numbers.push(minutes as u64 - 1);
    }
    numbers
}
