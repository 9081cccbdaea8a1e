//! JSON, read by a parser that is not ours.

use crate::run::{command, file, published_file, radial, run_with, scratch, text};
use std::process::{Command, Stdio};

/// Reads a document, sees that it has the one form, and prints what `sys.argv[1]` picks from it.
const READER: &str = "\
import json, sys
d = json.load(sys.stdin)
assert list(d) == ['command', 'outcome', 'answer', 'refusal', 'error', 'window', 'sources', 'version'], list(d)
assert d['version']['stephylax'] == sys.argv[2]
assert d['outcome'] in ('answered', 'refused', 'wrong use', 'failed')
assert (d['refusal'] is not None) == (d['outcome'] == 'refused')
assert (d['error'] is not None) == (d['outcome'] in ('wrong use', 'failed'))
print(json.dumps(eval(sys.argv[1])))
";

/// What an expression picks from the JSON that a command prints, with this status.
fn picked(words: &[&str], status: i32, expression: &str) -> String {
    let output = run_with(b"", command(&[words, &["--json"]].concat()));
    assert_eq!(output.status.code(), Some(status), "{words:?}: {}", text(&output.stderr));
    assert_eq!(output.stderr.is_empty(), status == 0, "{words:?}");
    let mut python = Command::new("python3");
    python.args(["-c", READER, expression, env!("CARGO_PKG_VERSION")]);
    python.stdout(Stdio::piped()).stderr(Stdio::piped());
    let read = run_with(&output.stdout, python);
    assert!(read.status.success(), "{words:?}: {}\n{}", text(&output.stdout), text(&read.stderr));
    text(&read.stdout).trim_end().to_string()
}

#[test]
fn calendar() {
    assert_eq!(
        picked(&["day", "2000-01-01"], 0, "[d['command'], d['answer']]"),
        r#"["day", {"day_number": 2451545, "t": null}]"#
    );
    assert_eq!(picked(&["day", "2000-01-01T12:00:00.5"], 0, "d['answer']['t']"), "500");
    assert_eq!(picked(&["date", "0"], 0, "d['answer']"), r#"{"date": "-4712-01-01", "day_number": 0}"#);
    assert_eq!(picked(&["date", "--t", "1"], 0, "d['answer']"), r#"{"td": "2000-01-01T12:00:00.001", "t": 1}"#);
    assert_eq!(
        picked(&["--version"], 0, "[d['command'], d['answer'], sorted(d['version'])]"),
        r#"[null, null, ["commit", "stephylax", "toolchain"]]"#
    );
}

#[test]
fn lists() {
    let words = ["sun-list", "mercury", "venus", "2019-11-11", "--keep-out", "60"];
    let run = r#"{"first_minute": 296, "last_minute": 1439, "first_td": "2019-11-11T04:56", "last_td": "2019-11-11T23:59", "minutes": 1144}"#;
    assert_eq!(
        picked(&words, 0, "d['answer']['lists']"),
        format!(
            r#"[{{"planet": "Mercury", "listed_minutes": 1144, "runs": [{run}]}}, {{"planet": "Venus", "listed_minutes": 0, "runs": []}}]"#
        )
    );
    assert_eq!(
        picked(&words, 0, "d['window']"),
        r#"{"t0": 626702400000, "from_td": "2019-11-11T00:00", "minutes": 1440, "keep_out": 60}"#
    );
    let sources =
        "[[s['role'], s['name'], s['kind'], s['terms'], s['packed_bytes'], len(s['fnv1a64'])] for s in d['sources']]";
    assert_eq!(
        picked(&words, 0, sources),
        r#"[["planet", "Mercury", "text", 6827, 103809, 16], ["planet", "Venus", "text", 1682, 26247, 16], ["earth", "Earth", "text", 2425, 37786, 16]]"#
    );
    assert_eq!(picked(&words, 0, "d['sources'][2]['file']"), format!("\"{}\"", published_file("earth")));
}

#[test]
fn places_and_coordinates() {
    let place = ["place", "mercury", "2005-01-01"];
    let figures = r#""t": 157809600000, "td": "2005-01-01T00:00", "right_ascension": 92715523, "declination": -7664381, "distance": 105919798645"#;
    assert_eq!(picked(&place, 0, "[d['window'], d['answer']]"), format!(r#"[null, {{"places": [{{{figures}}}]}}]"#));
    let range = [&place[..], &["--every", "12h"]].concat();
    assert_eq!(
        picked(&range, 0, "[d['window'], len(d['answer']['places'])]"),
        r#"[{"t0": 157809600000, "from_td": "2005-01-01T00:00", "minutes": 1440, "every_ms": 43200000}, 2]"#
    );
    let mount = [&place[..], &["--mount"]].concat();
    let degrees =
        "[d['answer']['places'][0][k] for k in ('right_ascension_degrees', 'declination_degrees', 'distance_au')]";
    assert_eq!(picked(&mount, 0, degrees), "[257.54311944444447, -21.28994722222222, 1.05919798645]");
    let coordinates = ["coordinates", "earth", "2000-01-01", "12:00"];
    assert_eq!(
        picked(&coordinates, 0, "d['answer']"),
        r#"{"t": 0, "td": "2000-01-01T12:00", "longitude": 175192386810, "latitude": -396556, "radius": 98332768187}"#
    );
}

#[test]
fn packing() {
    let packed = scratch("json.packed");
    let path = packed.to_str().unwrap();
    let answer = format!(r#"{{"file": "{path}", "bytes": 26247}}"#);
    assert_eq!(picked(&["pack", &published_file("venus"), path], 0, "d['answer']"), answer);
    assert_eq!(
        picked(&["check", path], 0, "[d['answer'], d['sources'][0]['kind']]"),
        r#"[{"terms": 1682, "packed_bytes": 26247, "wide": true}, "packed"]"#
    );
    let to = scratch("json.txt");
    assert_eq!(picked(&["unpack", path, to.to_str().unwrap()], 0, "d['sources'][0]['role']"), "\"input\"");
    assert_eq!(std::fs::read(to).unwrap(), crate::common::published("venus"));
    assert_eq!(picked(&["pack", &published_file("venus")], 2, "d['outcome']"), "\"wrong use\"");
}

/// What was written is told of a refused text too.
#[test]
fn mending() {
    let good = radial("1.00000000000", "0.00000000000");
    let (from, to) = (file("json-mend.txt", good.replace('\n', "\r\n\n").as_bytes()), scratch("json-mended.txt"));
    let to = to.to_str().unwrap();
    let kinds = r#"[{"what": "carriage return dropped", "count": 20, "lines": [[1, 1], [3, 3]"#;
    let answer = picked(&["mend", &from, to], 0, "d['answer']");
    let head = format!(r#"{{"file": "{to}", "changes_file": null, "bytes": 120, "changes": 40, "kinds": {kinds}"#);
    assert!(answer.starts_with(&head) && answer.ends_with(r#", [40, 40]]}], "packed_bytes": 29}"#), "{answer}");
    let source = "[d['sources'][0][k] for k in ('role', 'file', 'kind', 'terms', 'packed_bytes')]";
    assert_eq!(picked(&["mend", &from, to], 0, source), format!(r#"["input", "{from}", "text", 2, 29]"#));
    let bad = file("json-mend-bad.txt", b"05\t\n");
    let seen = "[d['answer'], d['refusal']['number'], d['refusal']['at'], d['sources']]";
    let kinds = r#"[{"what": "tab dropped", "count": 1, "lines": [[1, 1]]}]"#;
    let list = scratch("json-mend.list");
    let list = list.to_str().unwrap();
    let files = format!(r#""file": "{to}", "changes_file": "{list}""#);
    let answer = format!(r#"{{{files}, "bytes": 3, "changes": 1, "kinds": {kinds}, "packed_bytes": null}}"#);
    let at = format!("line 1, column 2 of the clean text, line 1 of {bad}");
    assert_eq!(picked(&["mend", &bad, to, "--changes", list], 1, seen), format!(r#"[{answer}, 3, "{at}", []]"#));
    let dry = "[d['answer']['file'], d['answer']['changes_file'], d['answer']['changes']]";
    assert_eq!(picked(&["mend", &from, "--dry-run"], 0, dry), "[null, null, 40]");
    assert_eq!(picked(&["mend", &bad], 2, "d['outcome']"), "\"wrong use\"");
    assert_eq!(picked(&["mend", &bad, "/dev/stdout"], 2, "d['outcome']"), "\"wrong use\"");
    assert_eq!(picked(&["mend", &bad, to, "--changes", "/dev/stdout"], 2, "d['outcome']"), "\"wrong use\"");
    assert_eq!(picked(&["mend", &bad, to, "--changes", "-"], 2, "d['outcome']"), "\"wrong use\"");
    assert_eq!(picked(&["mend", &bad, &bad], 2, "d['error'].endswith('it is never overwritten')"), "true");
}

/// Refusals, wrong use and failures have the same form.
#[test]
fn no_answer() {
    assert_eq!(
        picked(&["day", "2026-02-31"], 1, "d['refusal']"),
        r#"{"number": 1, "figure": 3, "words": "the month has no such day (5 to 14 October 1582 do not exist either)", "at": null}"#
    );
    let planet = file("json-shrinking.txt", radial("0.10014283000", "-50.00000000000").as_bytes());
    let earth = file("json-resting.txt", radial("1.00000000000", "0.00000000000").as_bytes());
    let list = ["sun-list", &planet, "2000-01-01", "12:00", "--days", "3", "--earth", &earth];
    let seen = "[d['refusal']['number'], d['refusal']['figure'], d['refusal']['at'], d['window']['minutes'], len(d['sources'])]";
    assert_eq!(picked(&list, 1, seen), r#"[11, 1503, "json-shrinking at 2000-01-02 13:03 TD", 4320, 2]"#);
    let window = ["sun-list", "venus", "2019-11-11", "--days", "3", "--keep-out", "59"];
    assert_eq!(
        picked(&window, 1, "d['refusal']"),
        r#"{"number": 12, "figure": 0, "words": "the keep-out angle is outside 60 to 2,700 arcminutes, or the window has no minute", "at": null}"#
    );
    // A packed series that is refused has no count of terms.
    let bad = file("json.bad", b"\x80\x00");
    assert_eq!(picked(&["check", &bad], 1, "[d['refusal']['number'], d['sources'][0]['terms']]"), "[10, null]");
    assert_eq!(picked(&["dance"], 2, "[d['command'], d['error']]"), r#"["dance", "there is no command `dance`"]"#);
    assert_eq!(picked(&["sun-list", "venus", "--csv"], 2, "d['error']"), r#""give --json or --csv, not both""#);
    assert_eq!(picked(&["sun-list", "venus", "--svg", "-"], 2, "d['outcome']"), "\"wrong use\"");
    assert_eq!(picked(&["check", "pluto"], 3, "d['outcome']"), "\"failed\"");
    assert_eq!(picked(&["check", "./a\"b\\c\nd"], 3, "d['error'].split(' cannot')[0]"), r#""./a\"b\\c\nd""#);
}
