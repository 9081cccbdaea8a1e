//! The plain program for published files against its vectors, without the proved library.

mod common;

use common::{unhex, vectors};
use reference::layout::{joined, records};
use reference::plain::packed::parse;
use reference::plain::published::read_published;
use reference::plain::text::read_text;
use std::path::Path;

#[test]
fn every_line() {
    let mut cases = 0;
    for (at, line) in
        vectors("requests/c11_published.txt").lines().enumerate().filter(|(_, line)| !line.starts_with('#'))
    {
        let words: Vec<&str> = line.split(' ').collect();
        let [room, input, number, figure, output] = words[..] else { panic!("line {}: {line}", at + 1) };
        let (number, figure): (u64, i64) = (number.parse().unwrap(), figure.parse().unwrap());
        let mut wanted = unhex(output);
        wanted.resize(room.parse().unwrap(), 0xA5);
        let mut packed = vec![0xA5; wanted.len()];
        let answer = match read_published(&unhex(input), &mut packed) {
            Ok(length) => (0, length as i64),
            Err(refusal) => (refusal.number, refusal.figure),
        };
        assert_eq!(answer, (number, figure), "line {}: {line}", at + 1);
        assert_eq!(packed, wanted, "line {}: {line}", at + 1);
        cases += 1;
    }
    assert_eq!(cases, 62);
}

/// Each series laid out as published packs to the bytes of its text, with headings of empty blocks or without.
#[test]
fn planets() {
    for (planet, length) in [("mercury", 103_809), ("venus", 26_247), ("earth", 37_786)] {
        let path = Path::new(env!("CARGO_MANIFEST_DIR")).join(format!("../../data/vsop87d/{planet}.txt"));
        let text = std::fs::read(&path).unwrap_or_else(|error| panic!("{}: {error}", path.display()));
        let mut wanted = vec![0; length];
        assert_eq!(read_text(&text, &mut wanted), Ok(length), "{planet}");
        let series = parse(&wanted).expect("what was packed is good");
        for with_empty in [false, true] {
            let file = joined(&records(&series, |_| with_empty));
            let mut packed = vec![0; length];
            assert_eq!(read_published(&file, &mut packed), Ok(length), "{planet}");
            assert_eq!(packed, wanted, "{planet}");
        }
    }
}
