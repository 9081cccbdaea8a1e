//! Instants beyond two millennia, with series that are good for that and with others.

use crate::run::{fails, file, narrow, printed, radial, says, WIDE};

/// A planet that is not good for the wide range, and an Earth that is.
fn files(name: &str) -> [String; 2] {
    let earth = radial("1.00000000000", "0.00000000000");
    [file(&format!("{name}-narrow.txt"), narrow().as_bytes()), file(&format!("{name}-earth.txt"), earth.as_bytes())]
}

#[test]
fn published_series() {
    assert!(printed(&["check", "mercury"]).ends_with(WIDE));
    let said = printed(&["coordinates", "mercury", "-2001-12-19", "12:00"]);
    assert!(
        said.contains("-10434803276112400") && said.contains("636178322") && said.contains("46084112010"),
        "{said}"
    );
    let said = printed(&["coordinates", "mercury", "6000-01-31T12:00"]);
    assert!(
        said.contains("10435690770408170") && said.contains("6000-01-31 12:00 TD (t = 126230400000000 ms)"),
        "{said}"
    );
    assert!(printed(&["place", "venus", "5500-06-01"]).starts_with("Venus, apparent place, 5500-06-01 00:00 TD"));
    let said = printed(&["sun-list", "venus", "4873-05-15", "--minutes", "1440", "--keep-out", "120", "--csv"]);
    assert!(said.ends_with("\nVenus,0,682,4873-05-15T00:00,4873-05-15T11:22,683\n"), "{said}");
}

#[test]
fn a_series_that_is_not_good() {
    let [planet, earth] = files("seventeen");
    let said = printed(&["check", &planet]);
    assert!(
        said.ends_with("(text)\nIt is good for two millennia alone on either side of 2000-01-01 12h TD.\n"),
        "{said}"
    );
    assert!(printed(&["check", &planet, "--json"]).contains(r#""answer": {"terms": 3, "packed_bytes": "#));
    assert!(printed(&["check", &planet, "--json"]).contains(r#", "wide": false}"#));
    let last = ["coordinates", &planet, "4000-01-16", "12:00"];
    assert!(printed(&last).contains("t = 63115200000000 ms"));
    let words = "the instant 63115200000001 ms is more than two millennia from 2000-01-01 12h TD, and a series is not good for that";
    let past = ["coordinates", &planet, "4000-01-16", "12:00:00.001"];
    let at = format!("{planet} is good for two millennia alone");
    assert_eq!(says(&past, 1), format!("stephylax: refused 17 (63115200000001): {words}; {at}\n"));
    fails(&["coordinates", &planet, "6001-01-01"], 1, "refused 2 (");
    // Whichever series is at fault is named.
    for words in [[&planet[..], "4000-01-17", "--earth", &earth], [&earth, "4000-01-17", "--earth", &planet]] {
        let said = says(&[&["place"], &words[..]].concat(), 1);
        assert!(
            said.starts_with("stephylax: refused 17 (63115243200000): ") && said.ends_with(&format!("; {at}\n")),
            "{said}"
        );
    }
}

/// The figure is the first instant of the window beyond two millennia, also of one that is longer than a day.
#[test]
fn lists() {
    let [planet, earth] = files("seventeen-lists");
    let list = |from: &str, time: &str, more: [&str; 2], figure: i64| {
        let words = ["sun-list", &planet, from, time, more[0], more[1], "--earth", &earth];
        fails(&words, 1, &format!("refused 17 ({figure}): "));
        assert!(says(&words, 1).ends_with(&format!("; {planet} is good for two millennia alone\n")));
    };
    list("4000-01-16", "11:58", ["--minutes", "4"], 63_115_200_060_000);
    list("4000-01-16", "11:58:30", ["--minutes", "1440"], 63_115_200_030_000);
    list("3999-12-31", "00:00", ["--days", "40"], 63_115_200_060_000);
    list("3000-01-01", "00:00:00.500", ["--days", "400000"], 63_115_200_000_500);
    list("-0001-12-17", "00:00", ["--days", "5"], -63_115_416_000_000);
    list("-0001-12-17", "00:00", ["--days", "1500000"], -63_115_416_000_000);
    // A planet that is good is not worked before one that is not is judged: nine thousand days would take an hour.
    for from in ["3990-01-01", "-0002-01-01"] {
        let both = ["sun-list", "mercury", &planet, from, "--days", "9000", "--earth", &earth];
        fails(&both, 1, "refused 17 (");
    }
    let near = ["sun-list", &planet, "4000-01-15", "12:01", "--minutes", "1440", "--earth", &earth, "--quiet"];
    assert_eq!(says(&near, 4), "");
}
