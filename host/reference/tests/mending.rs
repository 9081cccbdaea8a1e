//! The plain program for mending against its vectors, without the proved library.

mod common;

use common::{unhex, vectors};
use reference::plain::mending::mend;

/// With just the room that each takes.
#[test]
fn every_line() {
    let mut cases = 0;
    for (at, line) in vectors("requests/c17_mend.txt").lines().enumerate().filter(|(_, line)| !line.starts_with('#')) {
        let words: Vec<&str> = line.split(' ').collect();
        let [input, output, count, ref changes @ .., number, figure] = words[..] else { panic!("line {}", at + 1) };
        let (input, output, count): (_, _, usize) = (unhex(input), unhex(output), count.parse().unwrap());
        let changes: Vec<u64> = changes.iter().map(|word| word.parse().unwrap()).collect();
        let (mut out, mut list) = (vec![0; output.len()], vec![0; 2 * count]);
        let mended = mend(&input, &mut out, &mut list).unwrap();
        let verdict = mended.verdict.map_or_else(|refused| (refused.number, refused.figure), |n| (0, n as i64));
        assert_eq!((mended.length, mended.changes), (output.len(), count), "line {}: {line}", at + 1);
        assert_eq!(verdict, (number.parse().unwrap(), figure.parse().unwrap()), "line {}: {line}", at + 1);
        assert_eq!((out, list), (output, changes), "line {}: {line}", at + 1);
        cases += 1;
    }
    assert_eq!(cases, 46);
}
