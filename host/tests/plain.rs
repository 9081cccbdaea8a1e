//! The inner figures of the independent implementation against the vectors.

mod common;

use common::{published, vectors, Fields};
use reference::plain::packed::{parse, Series, Term};
use reference::plain::place::{direction, latitude, light_time, Vector};
use reference::plain::{cosine, exact, nutation, place, series, text};
use std::collections::HashMap;

fn packed(planet: &str) -> Vec<u8> {
    let mut packed = vec![0; 200_000];
    let length = text::read_text(&published(planet), &mut packed).expect("the published series is good");
    packed.truncate(length);
    packed
}

#[test]
fn working_cosine_and_sine() {
    for (number, line) in vectors("cosine.txt") {
        let fields = &mut Fields::of(&line);
        let x = fields.number();
        let wanted = (fields.number(), fields.number());
        assert_eq!((cosine::cosine(x), cosine::sine(x)), wanted, "line {number}: {line}");
    }
}

#[test]
fn terms() {
    for (number, line) in vectors("terms.txt") {
        let fields = &mut Fields::of(&line);
        let term = Term { a: fields.number(), b: fields.number(), c: fields.number() };
        let t = fields.number();
        let answer = (series::term_angle(term, t), series::term_value(term, t));
        assert_eq!(answer, (fields.number(), fields.number()), "line {number}: {line}");
    }
}

#[test]
fn roots() {
    for (number, line) in vectors("root.txt") {
        let fields = &mut Fields::of(&line);
        let v = Vector { x: fields.number(), y: fields.number(), z: fields.number() };
        assert_eq!(v.length(), fields.number(), "line {number}: {line}");
    }
}

#[test]
fn turned_vectors() {
    let mut cases = 0;
    for (number, line) in vectors("turn.txt") {
        let fields = &mut Fields::of(&line);
        let mut vector = || Vector { x: fields.number(), y: fields.number(), z: fields.number() };
        assert_eq!(vector().turned(), vector(), "line {number}: {line}");
        assert!(fields.done(), "line {number}: {line}");
        cases += 1;
    }
    assert_eq!(cases, 260);
}

#[test]
fn directions() {
    for (number, line) in vectors("direction.txt") {
        let fields = &mut Fields::of(&line);
        let kind = fields.word();
        let (x, y) = (fields.number(), fields.number());
        let z = if kind == "lat" { fields.number() } else { 0 };
        assert_eq!(direction(x, y), fields.number(), "line {number}: {line}");
        if kind == "lat" {
            assert_eq!(latitude(Vector { x, y, z }), fields.number(), "line {number}: {line}");
        }
    }
}

#[test]
fn nutation_and_obliquity() {
    for (number, line) in vectors("nutation.txt") {
        let fields = &mut Fields::of(&line);
        let t = fields.number();
        let n = nutation::nutation(t);
        let sums = [n.longitude, n.obliquity, n.mean_obliquity, n.true_obliquity()];
        assert_eq!(sums, [0; 4].map(|_| fields.number()), "line {number}: {line}");
        assert_eq!(nutation::arguments(t), [0; 5].map(|_| fields.number()), "line {number}: {line}");
        let angles = [n.longitude_angle(), n.obliquity_angle()];
        assert_eq!(angles, [0; 2].map(|_| fields.number()), "line {number}: {line}");
    }
}

/// The vectors on the way to an apparent place, and light times.
#[test]
fn rectangular_places() {
    let named: HashMap<&str, Vec<u8>> = ["mercury", "venus", "earth"].map(|planet| (planet, packed(planet))).into();
    for (number, line) in vectors("place.txt") {
        let fields = &mut Fields::of(&line);
        let (planet, earth) = match fields.word() {
            "light" => {
                assert_eq!(light_time(fields.number()), fields.number(), "line {number}: {line}");
                continue;
            }
            "name" => (named[fields.word()].clone(), named["earth"].clone()),
            _ => (fields.bytes(), fields.bytes()),
        };
        let t = fields.number();
        if fields.number() != 0 {
            continue;
        }
        let (_, now, earlier) = place::apparent_place_worked(&planet, &earth, t).expect("a place");
        let mut vector = || Vector { x: fields.number(), y: fields.number(), z: fields.number() };
        assert_eq!((now.planet, now.earth), (vector(), vector()), "line {number}: {line}");
        assert_eq!((now.distance, light_time(now.distance)), (fields.number(), fields.number()), "line {number}");
        let mut vector = || Vector { x: fields.number(), y: fields.number(), z: fields.number() };
        assert_eq!(earlier.geocentric, vector(), "line {number}: {line}");
    }
}

#[test]
fn exact_test() {
    let named: HashMap<&str, Series> =
        ["mercury", "venus", "earth"].map(|planet| (planet, parse(&packed(planet)).unwrap())).into();
    // Lines that differ in k alone share the work.
    let mut last: Option<(String, exact::Sight)> = None;
    for (number, line) in vectors("exact.txt") {
        let fields = &mut Fields::of(&line);
        let (planet, earth) = match fields.word() {
            "name" => (named[fields.word()].clone(), named["earth"].clone()),
            _ => (parse(&fields.bytes()).unwrap(), parse(&fields.bytes()).unwrap()),
        };
        let t = fields.number();
        let k = fields.number();
        let head = line.rsplitn(3, ' ').last().unwrap().to_string();
        if last.as_ref().map(|(known, _)| known) != Some(&head) {
            last = Some((head, exact::Sight::at(&planet, &earth, t)));
        }
        let within = last.as_ref().unwrap().1.within(k);
        assert_eq!(within, fields.number() == 1, "line {number}: {line}");
    }
}
