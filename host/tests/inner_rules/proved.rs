//! The functions that the crate inner_rules shows to tests.

use reference::plain::place::Frame;

#[repr(C)]
struct TermFigures {
    angle: u64,
    value: i64,
}

#[repr(C)]
pub struct NutationFigures {
    pub longitude: i64,
    pub obliquity: i64,
    pub mean: i64,
    pub longitude_angle: i64,
    pub true_angle: i64,
}

/// D, M, M', F and the longitude of the node.
#[repr(C)]
struct ArgumentFigures {
    figures: [i64; 5],
}

#[repr(C)]
struct VectorFigures {
    x: i64,
    y: i64,
    z: i64,
}

/// 1, Earth's place, the planet's geocentric vector and its length; or nothing but 0.
#[repr(C)]
pub struct SightFigures {
    pub usable: u64,
    pub earth: [i64; 3],
    pub vector: [i64; 3],
    pub distance: u64,
}

#[link(name = "inner_rules", kind = "static")]
extern "C" {
    fn stephylax_test_cosine(x: i64) -> i64;
    fn stephylax_test_sine(x: i64) -> i64;
    fn stephylax_test_root(x: i64, y: i64, z: i64) -> u64;
    fn stephylax_test_direction(x: i64, y: i64) -> i64;
    fn stephylax_test_latitude(x: i64, y: i64, z: i64) -> i64;
    fn stephylax_test_term(a: i64, b: i64, c: i64, t: i64) -> TermFigures;
    fn stephylax_test_nutation(t: i64) -> NutationFigures;
    fn stephylax_test_arguments(t: i64) -> ArgumentFigures;
    fn stephylax_test_light(distance: i64) -> i64;
    fn stephylax_test_turned(x: i64, y: i64, z: i64) -> VectorFigures;
    fn stephylax_test_sight(
        turned: u64,
        l: i64,
        b: i64,
        r: i64,
        earth_l: i64,
        earth_b: i64,
        earth_r: i64,
    ) -> SightFigures;
}

// SAFETY of every call below: the functions take every number and touch no memory of ours.

pub fn cosine(x: i64) -> i64 {
    unsafe { stephylax_test_cosine(x) }
}

pub fn sine(x: i64) -> i64 {
    unsafe { stephylax_test_sine(x) }
}

/// The root of x x + y y + z z.
pub fn root([x, y, z]: [i64; 3]) -> i64 {
    unsafe { stephylax_test_root(x, y, z) as i64 }
}

pub fn direction(x: i64, y: i64) -> i64 {
    unsafe { stephylax_test_direction(x, y) }
}

pub fn latitude([x, y, z]: [i64; 3]) -> i64 {
    unsafe { stephylax_test_latitude(x, y, z) }
}

/// A term's angle and value, from a, b, c and t.
pub fn term([a, b, c, t]: [i64; 4]) -> [i64; 2] {
    let term = unsafe { stephylax_test_term(a, b, c, t) };
    [term.angle as i64, term.value]
}

pub fn nutation(t: i64) -> NutationFigures {
    unsafe { stephylax_test_nutation(t) }
}

pub fn arguments(t: i64) -> [i64; 5] {
    unsafe { stephylax_test_arguments(t).figures }
}

pub fn light_time(distance: i64) -> i64 {
    unsafe { stephylax_test_light(distance) }
}

/// A vector turned to the frame of the catalogues.
pub fn turned([x, y, z]: [i64; 3]) -> [i64; 3] {
    let v = unsafe { stephylax_test_turned(x, y, z) };
    [v.x, v.y, v.z]
}

/// From L, B and R of the planet and of Earth, where they are usable in this frame.
pub fn sight([l, b, r]: [i64; 3], [earth_l, earth_b, earth_r]: [i64; 3], frame: Frame) -> Option<SightFigures> {
    let turned = (frame == Frame::Catalogues) as u64;
    let sight = unsafe { stephylax_test_sight(turned, l, b, r, earth_l, earth_b, earth_r) };
    (sight.usable == 1).then_some(sight)
}
