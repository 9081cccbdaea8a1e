//! The coarseness rule at its limit (RULES, "Series, as text and packed"): a coordinate whose sum is the limit is accepted, and one with
//! the next greater sum is refused 6; packed, as a text and as a published file.

mod common;

use common::calls::Outcome;
use common::coarse::{all_moving, ACCEPTED, FORMER, LIMIT, TERM};
use common::{hex, rounds, same, same_output, Random};
use reference::layout;
use reference::plain::packed::{pack, text_of, Series};

/// What the library and the independent implementation answer to a series: packed, as a text, and as a published file.
fn judged(series: &Series) -> [Outcome<()>; 3] {
    let (bytes, text, file) = (pack(series), text_of(series), layout::published(series));
    let (room, input) = (vec![0; bytes.len()], || hex(&bytes));
    [
        same(|calls| (calls.check)(&bytes), input).map(|_| ()),
        same_output(&room, |calls, out| (calls.read_text)(&text, out), input).0.map(|_| ()),
        same_output(&room, |calls, out| (calls.read_published)(&file, out), input).0.map(|_| ()),
    ]
}

/// Three terms in one block alone, whichever it is: with three the limit can be reached for every power. One part more is too much.
#[test]
fn one_block_at_the_limit() {
    let mut random = Random(51);
    for block in 0..18 {
        let total = ((LIMIT - ACCEPTED.base) / (1 << (block % 6)) - 3 * TERM) / ACCEPTED.share;
        let mut series = Series::default();
        series.blocks[block] = all_moving(&mut random, 3, total);
        let coordinate = block / 6 * 6..block / 6 * 6 + 6;
        assert_eq!(ACCEPTED.sum(&series.blocks[coordinate.clone()]), LIMIT);
        assert_eq!(judged(&series), [Ok(()); 3], "block {block}");
        let last = &mut series.blocks[block][2];
        last.a += if last.a < 0 { -1 } else { 1 };
        assert_eq!(ACCEPTED.sum(&series.blocks[coordinate]), LIMIT + (ACCEPTED.share << (block % 6)));
        // After these terms come empty blocks: a byte each, or a line of two, or nothing.
        let empty = 17 - block;
        let ends = [pack(&series).len() - empty, text_of(&series).len() - 2 * empty, layout::published(&series).len()];
        assert_eq!(judged(&series), ends.map(|end| Err((6, end as i64 - 1))), "block {block}");
    }
}

/// Each coordinate has a sum of its own, so that all three may reach the limit, and none may pass it. All sums are even.
#[test]
fn every_coordinate_at_the_limit() {
    let mut random = Random(52);
    for _ in 0..rounds(5_000) {
        let mut series = Series::default();
        for blocks in series.blocks.chunks_mut(6) {
            blocks.clone_from_slice(&ACCEPTED.coordinate_of(&mut random, LIMIT));
        }
        assert_eq!(judged(&series), [Ok(()); 3], "{}", hex(&pack(&series)));
        let first = random.pick(&[0, 6, 12]);
        series.blocks[first..first + 6].clone_from_slice(&ACCEPTED.coordinate_of(&mut random, LIMIT + 2));
        let answers = judged(&series).map(|answer| answer.map_err(|(number, _)| number));
        assert_eq!(answers, [Err(6); 3], "{}", hex(&pack(&series)));
    }
}

/// With one part more than the former share allowed, a series is accepted.
#[test]
fn what_the_former_share_refused() {
    let mut random = Random(53);
    for block in 0..18 {
        let power = block % 6;
        let total = ((LIMIT - FORMER.base) / (1 << power) - TERM) / FORMER.share + 1;
        let mut series = Series::default();
        series.blocks[block] = all_moving(&mut random, 1, total);
        let former = FORMER.sum(&series.blocks[block - power..block - power + 6]);
        assert!((LIMIT + 1..=LIMIT + (FORMER.share << power)).contains(&former), "{former}");
        assert_eq!(judged(&series), [Ok(()); 3], "block {block}");
    }
}
