//! The picture, read by an XML parser that is not ours.

use crate::run::{command, fails, file, printed, radial, run_with, scratch, text};
use std::process::{Command, Stdio};

/// Reads an SVG and prints what `sys.argv[1]` picks: `of(class)` are the elements of a class, `texts` all texts with their place.
const READER: &str = "\
import json, sys, xml.etree.ElementTree as tree
root = tree.parse(sys.stdin).getroot()
name = lambda e: e.tag.split('}')[1]
of = lambda c: [e for e in root.iter() if e.get('class') == c]
texts = [(float(e.get('x')), float(e.get('y')), ''.join(e.itertext())) for e in root.iter() if name(e) == 'text']
print(json.dumps(eval(sys.argv[1])))
";

fn picked(words: &[&str], expression: &str) -> String {
    let svg = run_with(b"", command(&[&["sun-list"], words, &["--svg", "-"]].concat()));
    assert_eq!(svg.status.code(), Some(0), "{words:?}: {}", text(&svg.stderr));
    let mut python = Command::new("python3");
    python.args(["-c", READER, expression]).stdout(Stdio::piped()).stderr(Stdio::piped());
    let read = run_with(&svg.stdout, python);
    assert!(read.status.success(), "{words:?}: {}", text(&read.stderr));
    text(&read.stdout).trim_end().to_string()
}

/// A picture in a file goes beside the list; it is the one that standard output would get.
#[test]
fn in_a_file() {
    let day = ["sun-list", "mercury", "2019-11-11", "--keep-out", "60"];
    let picture = scratch("list.svg");
    let list = printed(&[&day[..], &["--svg", picture.to_str().unwrap()]].concat());
    assert_eq!(list, printed(&day));
    let svg = std::fs::read_to_string(&picture).unwrap();
    assert!(svg.starts_with("<svg") && svg.ends_with("</svg>\n"));
    assert_eq!(svg, printed(&[&day[..], &["--svg", "-"]].concat()));
    printed(&[&day[..], &["--quiet", "--svg", picture.to_str().unwrap()]].concat());
    assert_eq!(svg, std::fs::read_to_string(&picture).unwrap());
    fails(&["sun-list", "mercury", "2019-02-31", "--svg", "-"], 1, "refused 1 (3)");
}

/// The listed minutes are where the list says, the sources stand below.
#[test]
fn what_it_shows() {
    let day = ["mercury", "2019-11-11", "--keep-out", "60"];
    let span = "[(float(e.get('x')) - 74) / 838 * 1440 for e in of('listed')][:1]";
    assert!(picked(&day, span).starts_with("[29"), "{}", picked(&day, span));
    let sources = "[''.join(e.itertext()).split(', from')[0].split(', fnv')[0] for e in of('source')]";
    assert_eq!(
        picked(&day, sources),
        concat!(
            r#"["Mercury: 6,827 terms, 103,809 bytes packed", "Earth: 2,425 terms, 37,786 bytes packed", "stephylax "#,
            env!("CARGO_PKG_VERSION"),
            "\"]"
        )
    );
}

/// Each planet has a band, with a curve and the keep-out; its label stands right of the plots, where no curve is.
#[test]
fn bands() {
    let words = ["mercury", "venus", "2019-11-11", "--keep-out", "60"];
    assert_eq!(picked(&words, "[len(of(c)) for c in ('frame', 'curve', 'angle')]"), "[2, 3, 2]");
    let right = "max(float(p.split(',')[0]) for e in of('curve') for p in (e.get('points') or '').split())";
    assert_eq!(picked(&words, right), "912.0");
    assert_eq!(
        picked(&words, "[t for x, y, t in texts if 912 < x]"),
        r#"["keep-out", "1\u00b000\u2032", "keep-out", "1\u00b000\u2032"]"#
    );
    let apart = "(lambda f: float(f[0].get('y')) + float(f[0].get('height')) < float(f[1].get('y')))(of('frame'))";
    assert_eq!(picked(&words, apart), "true");
}

/// Dates stand on the axis of windows of any length, and no two labels of a row touch.
#[test]
fn dates_on_the_axis() {
    // A planet at rest is quickly listed; Earth rests in the current folder.
    let planet = file("axis.txt", radial("0.50000000000", "0.00000000000").as_bytes());
    let asked = |window: &[&str], expression: &str| {
        picked(&[&[planet.as_str(), "--earth", "./earth", "2019-11-11"], window].concat(), expression)
    };
    let dates = "[t[8:] for x, y, t in texts if t[:8] == '2019-11-']";
    assert_eq!(asked(&[], dates), r#"["11"]"#);
    assert_eq!(asked(&["12:00", "--days", "2"], dates), r#"["11", "12", "13"]"#);
    assert_eq!(asked(&["23:00", "--days", "2"], dates), r#"["12", "13"]"#);
    assert_eq!(asked(&["--days", "3"], dates), r#"["11", "12", "13"]"#);
    assert_eq!(asked(&["--days", "5"], dates), r#"["11", "12", "13", "14", "15"]"#);
    let rows = "(lambda r: all(a[1] != b[1] or b[0] - a[0] > 7 * len(a[2]) for a, b in zip(r, r[1:])))\
        (sorted([t for t in texts if t[2][:1].isdigit() and '°' not in t[2]], key=lambda t: (t[1], t[0])))";
    for minutes in [1, 7, 59, 1000, 1500, 2880, 4000, 8000, 9000, 20_000, 60_000, 200_000] {
        for start in ["00:00", "17:59:30"] {
            assert_eq!(asked(&[start, "--minutes", &minutes.to_string()], rows), "true", "{minutes} from {start}");
        }
    }
}
