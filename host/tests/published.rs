//! Figures of the published documents, and some of our own, with the published series.

mod common;

use common::calls::LIBRARY;
use common::{published, repository, same, vectors};
use reference::floating;
use reference::plain::nutation::TABLE;
use reference::plain::packed::parse;
use reference::plain::place::{apparent_place_worked, geometry, light_time, Frame, Vector};

fn packed(planet: &str) -> Vec<u8> {
    let mut packed = vec![0; 200_000];
    let length = (LIBRARY.read_text)(&published(planet), &mut packed).expect("the published series is good");
    packed.truncate(length);
    packed
}

/// A worked example from outside this project: Mercury on 2005-01-01 at 0h TD, in the frame of the star catalogues. Printed are 17h 10min
/// 10.349s, -21° 17′ 23.81″ and 1.059197986 AU.
#[test]
fn mercury_in_2005() {
    let t = (LIBRARY.instant_of_date)([2005, 1, 1, 0]).unwrap();
    assert_eq!(t, 157_809_600_000);
    let (mercury, earth) = (packed("mercury"), packed("earth"));
    let place = same(|calls| (calls.apparent_place)(&mercury, &earth, t), || "Mercury".to_string()).unwrap();
    assert_eq!(place, [92_715_523, -7_664_381, 105_919_798_645]);
    // In thousandths of an arcsecond. A thousandth of a second of right ascension has 15 of them.
    let [right_ascension, declination, distance] = place;
    let printed = ((17 * 60 + 10) * 60_000 + 10_349) * 15;
    assert!((10 * right_ascension - printed).abs() <= 5, "{right_ascension} against {printed}");
    let printed = -((21 * 60 + 17) * 60_000 + 23_810);
    assert!((10 * declination - printed).abs() <= 5, "{declination} against {printed}");
    assert_eq!(distance / 100, 1_059_197_986);
    // The benchmark's yardstick, in doubles, comes within two hundredths of an arcsecond; unturned it would be nine and four off.
    let [mercury, earth] = [mercury, earth].map(|packed| floating::Tables::of(&parse(&packed).unwrap()));
    let (doubles, hundredths) = (floating::place(&mercury, &earth, t), 1f64.to_degrees() * 360_000.0);
    assert!((doubles.right_ascension * hundredths - right_ascension as f64).abs() < 2.0, "{doubles:?}");
    assert!((doubles.declination * hundredths - declination as f64).abs() < 2.0, "{doubles:?}");
}

/// Of the same example, the independent implementation's geocentric vector when the light left. Printed are, to eleven decimals,
/// -0.21282066905, -1.03702719761 and 0.03050584416 AU: in the theory's own frame every component is thousands of parts from that.
#[test]
fn mercury_when_the_light_left() {
    let (t, mercury, earth) = (157_809_600_000, packed("mercury"), packed("earth"));
    let (place, _, earlier) = apparent_place_worked(&mercury, &earth, t).unwrap();
    let light = light_time(place.distance);
    assert_eq!(light, 528_545);
    let off_printed = |v: Vector| [v.x + 21_282_066_905, v.y + 103_702_719_761, v.z - 3_050_584_416].map(i64::abs);
    let seen = earlier.geocentric;
    assert_eq!(seen, Vector { x: -21_282_066_915, y: -103_702_719_726, z: 3_050_584_375 });
    assert!(off_printed(seen).iter().all(|&off| off < 50), "{seen:?}");
    let (mercury, earth) = (parse(&mercury).unwrap(), parse(&earth).unwrap());
    let in_theory = geometry(&mercury, &earth, t - light, Frame::Theory).unwrap().geocentric;
    assert!(off_printed(in_theory).iter().all(|&off| 5_000 < off), "{in_theory:?}");
}

/// L, B and R of Mercury on 2005-01-01, where three figures more of the turn change nothing; and L three and a half days before the end of
/// two millennia, where without them it was 5,218,049,938,527,110.
#[test]
fn coordinates_of_mercury() {
    let mercury = packed("mercury");
    let near = (LIBRARY.coordinates_at)(&mercury, 157_809_600_000);
    assert_eq!(near, Ok([13_526_611_349_607, 7_586_278_953, 40_230_582_936]));
    let [longitude, _, _] = (LIBRARY.coordinates_at)(&mercury, 63_114_900_000_000).unwrap();
    assert_eq!(longitude, 5_218_049_938_527_069);
}

/// Mercury four millennia on either side.
#[test]
fn mercury_at_the_limits() {
    let mercury = packed("mercury");
    let latest = (LIBRARY.coordinates_at)(&mercury, 126_230_400_000_000);
    assert_eq!(latest, Ok([10_435_690_770_408_170, -10_015_037_648, 46_500_464_271]));
    let earliest = (LIBRARY.coordinates_at)(&mercury, -126_230_400_000_000);
    assert_eq!(earliest, Ok([-10_434_803_276_112_400, 636_178_322, 46_084_112_010]));
}

/// The transit of 11 November 2019: listed from minute 296 to the day's end.
#[test]
fn mercury_near_the_sun_in_2019() {
    let t0 = (LIBRARY.instant_of_date)([2019, 11, 11, 0]).unwrap();
    let mut runs = [7; 4];
    let count = (LIBRARY.sun_list)(&packed("mercury"), &packed("earth"), [t0, 1440, 60], &mut runs);
    assert_eq!(count, Ok(2));
    assert_eq!(runs, [296, 1439, 7, 7]);
}

/// A row of nutation in the order of the published table of 1980: longitude and its rate, obliquity and its rate (rates in
/// tenths of the figures' unit), then the multipliers of D, M, M', F and the node.
type Row = [i64; 9];

/// A figure with one decimal at most, in tenths.
fn tenths(figure: &str) -> i64 {
    let (whole, tenth) = figure.split_once('.').unwrap_or((figure, "0"));
    assert_eq!(tenth.len(), 1, "{figure}");
    format!("{whole}{tenth}").parse().unwrap_or_else(|error| panic!("{figure}: {error}"))
}

/// vectors/iau1980.txt, whose lines begin with the multipliers of M', M, F, D and the node.
fn iau_1980() -> Vec<Row> {
    let row = |(number, line): (usize, String)| {
        let words: Vec<&str> = line.split_ascii_whitespace().collect();
        let Ok([m_moon, m_sun, f, d, node, psi, psi_rate, eps, eps_rate]) = <[&str; 9]>::try_from(words) else {
            panic!("line {number}: {line}");
        };
        let whole = |word: &str| word.parse().unwrap_or_else(|error| panic!("line {number}: {line}: {error}"));
        let [d, m_sun, m_moon, f, node] = [d, m_sun, m_moon, f, node].map(whole);
        [whole(psi), tenths(psi_rate), whole(eps), tenths(eps_rate), d, m_sun, m_moon, f, node]
    };
    vectors("iau1980.txt").into_iter().map(row).collect()
}

/// The rows that stand in the library's source.
fn library_rows() -> Vec<Row> {
    let path = repository("crates/nutation_table/src/lib.rt");
    let text = std::fs::read_to_string(&path).unwrap_or_else(|error| panic!("{}: {error}", path.display()));
    let rows = text.lines().filter_map(|line| line.trim().strip_prefix("Row(")?.strip_suffix("),"));
    let row = |inside: &str| -> Row {
        let numbers: Vec<i64> = inside.split(", ").map(|word| word.parse().expect(inside)).collect();
        numbers.try_into().unwrap_or_else(|_| panic!("Row({inside})"))
    };
    rows.map(row).collect()
}

/// The tables of the library and of the independent implementation are the IAU 1980 series, whatever the order of their rows.
#[test]
fn nutation_table_is_iau_1980() {
    let sorted = |mut rows: Vec<Row>| {
        rows.sort();
        rows
    };
    let wanted = sorted(iau_1980());
    assert_eq!(wanted.len(), 106);
    assert_eq!(sorted(library_rows()), wanted, "the library");
    assert_eq!(sorted(TABLE.to_vec()), wanted, "the independent implementation");
    assert_eq!(library_rows(), TABLE.to_vec(), "the order of the published table");
}
