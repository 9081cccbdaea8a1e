//! The plain program on whether a series is good for the wide range, against its vectors, without the proved library.

mod common;

use common::{unhex, vectors};
use reference::plain::packed::{check, Checked};
use reference::plain::Refused;

/// The bytes of a line of either kind: as they are, or N and then N times how often and which bytes.
fn packed<'a>(mut words: impl Iterator<Item = &'a str>) -> (Vec<u8>, Vec<i64>) {
    let mut word = || words.next().expect("a field more");
    let bytes = match word() {
        "packed" => unhex(word()),
        _ => (0..word().parse().unwrap())
            .flat_map(|_| {
                let times = word().parse().unwrap();
                unhex(word()).repeat(times)
            })
            .collect(),
    };
    (bytes, words.map(|word| word.parse().unwrap()).collect())
}

#[test]
fn every_line() {
    let mut seen = [0; 2];
    for (at, line) in vectors("goodness.txt").lines().enumerate().filter(|(_, line)| !line.starts_with('#')) {
        let (bytes, wanted) = packed(line.split(' '));
        let wanted = match wanted[..] {
            [0, terms, wide] => {
                seen[wide as usize] += 1;
                Ok(Checked { terms, wide: wide == 1 })
            }
            [number, figure] => Err(Refused { number: number as u64, figure }),
            _ => panic!("line {}: {line}", at + 1),
        };
        assert_eq!(check(&bytes), wanted, "line {}: {line}", at + 1);
    }
    assert_eq!(seen, [108, 135]);
}
