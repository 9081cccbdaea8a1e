//! Rectangular places, light time, directions, the apparent place and the mount's figures.

use super::cosine::{cosine, sine};
use super::nutation::nutation;
use super::packed::{not_too_far, parse, Series};
use super::series::{coordinates, Coordinates};
use super::{refused, rounded, within_limit, within_turn, Refused, ANGLE_PER_PART, PARTS, TURN, U};

/// Three numbers in parts.
#[derive(Clone, Copy, Debug, PartialEq, Eq)]
pub struct Vector {
    pub x: i64,
    pub y: i64,
    pub z: i64,
}

#[derive(Clone, Copy, Debug, PartialEq, Eq)]
pub struct Place {
    pub right_ascension: i64,
    pub declination: i64,
    pub distance: i64,
}

#[derive(Clone, Copy, Debug, PartialEq)]
pub struct Mount {
    pub right_ascension: f64,
    pub declination: f64,
    pub distance: f64,
}

/// What the turn to the frame of the star catalogues adds to x, y and z, a row each: so many 10^-12 of x, of y and of z. The whole that
/// each keeps of itself, the diagonal, is left out.
pub const TO_CATALOGUES: [[i64; 3]; 3] = [[0, 440_291, -190_889], [-440_291, 0, 188_593], [190_889, -188_593, 0]];
pub const TO_CATALOGUES_UNIT: i64 = 1_000_000_000_000;

/// Hundredths of an arcsecond in a quarter of a turn, and in a turn.
const QUARTER_K: i64 = 32_400_000;
const TURN_K: i128 = 129_600_000;

/// Rounded n f/U, f a cosine or a sine.
fn scaled(n: i64, f: i64) -> i64 {
    rounded(n as i128 * f as i128, U as i128) as i64
}

/// The greatest whole number whose square is at most n.
pub fn floor_root(n: u128) -> u128 {
    let mut root = (n as f64).sqrt() as u128;
    while n < root * root {
        root -= 1;
    }
    while (root + 1) * (root + 1) <= n {
        root += 1;
    }
    root
}

impl Vector {
    /// From a length and two angles in 10^-16 radian.
    fn of_angles(length: i64, longitude: i64, latitude: i64) -> Vector {
        let flat = scaled(length, cosine(latitude));
        Vector {
            x: scaled(flat, cosine(longitude)),
            y: scaled(flat, sine(longitude)),
            z: scaled(length, sine(latitude)),
        }
    }

    pub fn of_coordinates(c: Coordinates) -> Vector {
        let angle = |parts: i64| within_turn(ANGLE_PER_PART as i128 * parts as i128);
        Vector::of_angles(c.radius, angle(c.longitude), angle(c.latitude))
    }

    /// In the frame of the star catalogues, each product rounded to the part.
    pub fn turned(self) -> Vector {
        let v = [self.x, self.y, self.z];
        let product = |m: i64, v: i64| rounded(m as i128 * v as i128, TO_CATALOGUES_UNIT as i128) as i64;
        let [x, y, z] = TO_CATALOGUES.map(|row| product(row[0], v[0]) + product(row[1], v[1]) + product(row[2], v[2]));
        Vector { x: self.x + x, y: self.y + y, z: self.z + z }
    }

    pub fn minus(self, other: Vector) -> Vector {
        Vector { x: self.x - other.x, y: self.y - other.y, z: self.z - other.z }
    }

    pub fn negated(self) -> Vector {
        Vector { x: -self.x, y: -self.y, z: -self.z }
    }

    pub fn length(self) -> i64 {
        let square = |v: i64| v.unsigned_abs() as u128 * v.unsigned_abs() as u128;
        floor_root(square(self.x) + square(self.y) + square(self.z)) as i64
    }

    /// Rounded U component/length, for a vector that is not zero.
    pub fn unit(self) -> Vector {
        let length = self.length() as i128;
        let part = |v: i64| rounded(U as i128 * v as i128, length) as i64;
        Vector { x: part(self.x), y: part(self.y), z: part(self.z) }
    }

    /// Turned about the x axis by the obliquity.
    fn to_equator(self, obliquity: i64) -> Vector {
        let (c, s) = (cosine(obliquity), sine(obliquity));
        Vector { x: self.x, y: scaled(self.y, c) - scaled(self.z, s), z: scaled(self.y, s) + scaled(self.z, c) }
    }
}

/// The angle of k hundredths of an arcsecond.
fn angle_of(k: i64) -> i64 {
    rounded(k as i128 * TURN as i128, TURN_K) as i64
}

/// The direction of (x, y) in hundredths of an arcsecond.
pub fn direction(x: i64, y: i64) -> i64 {
    if x == 0 && y == 0 {
        return 0;
    }
    let (mut x, mut y, mut quarters) = (x, y, 0);
    while !(0 < x && 0 <= y) {
        (x, y) = (y, -x);
        quarters += 1;
    }
    let not_past = |k: i64| {
        let angle = angle_of(k);
        x as i128 * sine(angle) as i128 <= y as i128 * cosine(angle) as i128
    };
    // 0 is never past, and from the first k that is past all greater ones are.
    let (mut good, mut bad) = (0, QUARTER_K);
    while good + 1 < bad {
        let middle = (good + bad) / 2;
        if not_past(middle) {
            good = middle;
        } else {
            bad = middle;
        }
    }
    good + quarters * QUARTER_K
}

pub fn latitude(v: Vector) -> i64 {
    let flat = Vector { z: 0, ..v }.length();
    let k = direction(flat, v.z.abs());
    if v.z < 0 {
        -k
    } else {
        k
    }
}

/// Light time in milliseconds.
pub fn light_time(distance: i64) -> i64 {
    rounded(499_004_781_984 * distance as i128, 100_000_000_000_000_000) as i64
}

/// The frame that both heliocentric places are taken in.
#[derive(Clone, Copy, Debug, PartialEq, Eq)]
pub enum Frame {
    /// The theory's own, as its series give them: that of the Sun list.
    Theory,
    /// That of the star catalogues, FK5: that of apparent places.
    Catalogues,
}

impl Frame {
    fn place_of(self, c: Coordinates) -> Vector {
        let place = Vector::of_coordinates(c);
        match self {
            Frame::Theory => place,
            Frame::Catalogues => place.turned(),
        }
    }
}

/// Both heliocentric places in one frame, the geocentric vector and its length, where the place is usable.
#[derive(Clone, Copy, Debug, PartialEq, Eq)]
pub struct Geometry {
    pub planet: Vector,
    pub earth: Vector,
    pub geocentric: Vector,
    pub distance: i64,
}

pub fn geometry(planet: &Series, earth: &Series, t: i64, frame: Frame) -> Option<Geometry> {
    seen(coordinates(planet, t), coordinates(earth, t), frame)
}

/// The geometry of these coordinates of the planet and of Earth.
pub fn seen(p: Coordinates, e: Coordinates, frame: Frame) -> Option<Geometry> {
    let radii = PARTS / 10..=64 * PARTS;
    if !radii.contains(&p.radius) || !radii.contains(&e.radius) {
        return None;
    }
    let planet = frame.place_of(p);
    let earth = frame.place_of(e);
    let geocentric = planet.minus(earth);
    let distance = geocentric.length();
    if distance < PARTS / 10 || 16 * distance < p.radius + e.radius {
        return None;
    }
    Some(Geometry { planet, earth, geocentric, distance })
}

/// The apparent place, with the geometry at t and at the earlier instant.
pub fn apparent_place_worked(planet: &[u8], earth: &[u8], t: i64) -> Result<(Place, Geometry, Geometry), Refused> {
    within_limit(t)?;
    let planet = parse(planet)?;
    let earth = parse(earth)?;
    let usable = |t: i64| {
        not_too_far(&[&planet, &earth], [t])?;
        geometry(&planet, &earth, t, Frame::Catalogues).map_or_else(|| refused(11, 0), Ok)
    };
    let now = usable(t)?;
    let earlier_t = t - light_time(now.distance);
    within_limit(earlier_t)?;
    let earlier = usable(earlier_t)?;
    let nutation = nutation(t);
    let seen = earlier.geocentric;
    let longitude = angle_of(direction(seen.x, seen.y)) + nutation.longitude_angle();
    let rebuilt = Vector::of_angles(seen.length(), longitude, angle_of(latitude(seen)));
    let v = rebuilt.to_equator(nutation.obliquity_angle());
    let place = Place { right_ascension: direction(v.x, v.y), declination: latitude(v), distance: now.distance };
    Ok((place, now, earlier))
}

pub fn apparent_place(planet: &[u8], earth: &[u8], t: i64) -> Result<Place, Refused> {
    Ok(apparent_place_worked(planet, earth, t)?.0)
}

/// The mount's figures, or the number of the refusal.
pub fn mount_place(planet: &[u8], earth: &[u8], t: i64) -> Result<Mount, u64> {
    match apparent_place(planet, earth, t) {
        Ok(place) => Ok(Mount {
            right_ascension: place.right_ascension as f64 / 360000.0,
            declination: place.declination as f64 / 360000.0,
            distance: place.distance as f64 / 1e11,
        }),
        Err(refusal) => Err(refusal.number),
    }
}
