//! Places and coordinates.

use crate::run::{fails, file, printed, radial, says};

#[test]
fn one_place() {
    let place = printed(&["place", "mercury", "2005-01-01"]);
    for figure in
        ["17h 10m 10.3", "-21° 17′ 23.", "1.05919798645 AU", "  Mercury: 6,827 terms, ", "  Earth: 2,425 terms, "]
    {
        assert!(place.contains(figure), "{place}");
    }
    let csv = printed(&["place", "mercury", "2005-01-01", "00:30", "--csv"]);
    assert_eq!(csv.lines().nth(1), Some("# apparent place of Mercury at 2005-01-01T00:30 TD"));
    fails(&["place", "mercury", "2026-02-31"], 1, "refused 1 (3)");
    fails(&["place", "earth", "2026-02-28"], 1, "refused 11 (0)");
    assert!(says(&["place", "earth", "2026-02-28"], 1).ends_with("; Earth at 2026-02-28 00:00 TD\n"));
}

#[test]
fn coordinates() {
    let said = printed(&["coordinates", "earth", "2000-01-01", "12:00"]);
    assert!(said.contains("175192386810") && said.contains("-396556") && said.contains("98332768187"), "{said}");
    assert!(said.contains("\n  Earth: 2,425 terms, "), "{said}");
}

/// The figures of the first place of a table, of CSV and of the mount are the same.
#[test]
fn a_range_of_places() {
    let range = ["place", "mercury", "2005-01-01", "--every", "10m", "--days", "1"];
    let table = printed(&range);
    let lines: Vec<&str> = table.lines().collect();
    assert_eq!(lines[0], "Mercury, 144 apparent places from 2005-01-01 00:00 TD");
    assert!(lines[2].starts_with("2005-01-01 00:00  17h 10m 10.348s   -21° 17′ 23.81″   1.05919798645"), "{table}");
    assert!(lines[145].starts_with("2005-01-01 23:50  ") && lines[146] == "Series:" && lines.len() == 149, "{table}");
    let csv = printed(&[&range[..], &["--csv"]].concat());
    let rows: Vec<&str> = csv.lines().filter(|line| !line.starts_with('#')).collect();
    assert_eq!(
        csv.lines().nth(1),
        Some("# apparent places of Mercury from 2005-01-01T00:00 TD: 144; step in milliseconds: 600000")
    );
    assert_eq!(rows[0], "td,t,right_ascension,declination,distance");
    assert_eq!(rows[1], "2005-01-01T00:00,157809600000,92715523,-7664381,105919798645");
    assert!(rows[144].starts_with("2005-01-01T23:50,157895400000,") && rows.len() == 145);
    // A step that does not divide the window ends before it does.
    assert_eq!(
        printed(&["place", "venus", "2005-01-01", "--every", "7m", "--minutes", "15", "--mount"]).lines().count(),
        3
    );
}

/// The mount gets its three doubles and nothing else, or the refusal.
#[test]
fn mount() {
    let doubles = "257.54311944444447 -21.28994722222222 1.05919798645";
    assert_eq!(printed(&["place", "mercury", "2005-01-01", "--mount"]), format!("{doubles}\n"));
    let range = ["place", "mercury", "2005-01-01", "--every", "12h", "--mount"];
    let lines = printed(&range);
    assert!(lines.starts_with(doubles) && lines.lines().count() == 2, "{lines}");
    assert!(lines.lines().all(|line| line.split(' ').filter(|word| word.parse::<f64>().is_ok()).count() == 3));
    let csv = printed(&[&range[..], &["--csv"]].concat());
    assert!(csv.contains("distance,right_ascension_degrees,declination_degrees,distance_au\n"), "{csv}");
    assert!(csv.contains(&format!(",{}\n", doubles.replace(' ', ","))), "{csv}");
    fails(&["place", "earth", "2026-02-28", "--mount"], 1, "refused 11 (0)");
}

/// A range with an instant that is refused has no answer, and the instant is told.
#[test]
fn a_range_that_is_refused() {
    let planet = file("range.txt", radial("0.10014283000", "-50.00000000000").as_bytes());
    let earth = file("range-earth.txt", radial("1.00000000000", "0.00000000000").as_bytes());
    let words = ["place", &planet, "2000-01-01", "12:00", "--every", "1h", "--days", "2", "--earth", &earth];
    fails(&words, 1, "refused 11 (0)");
    assert!(says(&words, 1).ends_with("; range at 2000-01-02 14:00 TD\n"));
}
