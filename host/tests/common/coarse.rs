//! The coarseness rule (RULES, "Series, as text and packed"), and series whose sums lie at its limit; and series at both limits of the wide
//! range.

use super::Random;
use reference::plain::packed::{Series, Term};
use reference::plain::PARTS;

/// What the sum of a coordinate may reach, and what each term counts beside its |a| if it is not constant.
pub const LIMIT: i128 = 200_000_000_000_000;
pub const TERM: i128 = 1_000_000_000;

/// What each part of |a| counts, what a coordinate begins with, and what its terms are times for each power more; and the greatest total
/// |a| of a block beside it.
#[derive(Clone, Copy)]
pub struct Rule {
    pub share: i128,
    pub base: i128,
    pub factor: i128,
    pub total: i64,
}

/// The rule by which series are accepted, the same when the turn had fewer figures, and that of the wide range.
pub const ACCEPTED: Rule = Rule { share: 6, base: 32_000_000_000, factor: 2, total: 100_000 * PARTS };
pub const FORMER: Rule = Rule { share: 14, ..ACCEPTED };
pub const WIDE: Rule = Rule { share: 6, base: 342_000_000_000, factor: 4, total: 50_000 * PARTS };

pub fn constant(a: i64) -> Term {
    Term { a, b: 0, c: 0 }
}

/// A term that is not constant, with this |a|.
fn moving(random: &mut Random, size: i64) -> Term {
    let (b, c) = (random.between(1, 10 * PARTS - 1), random.between(1, 1_000_000 * PARTS - 1));
    let (b, c) = random.pick(&[(b, c), (b, -c), (b, 0), (0, c), (0, 1), (1, 0), (0, -1)]);
    Term { a: random.pick(&[-1, 1]) * size, b, c }
}

/// So many such terms, whose |a| have this total.
pub fn all_moving(random: &mut Random, count: i128, total: i128) -> Vec<Term> {
    let mut left = total as i64;
    let mut terms = Vec::new();
    for _ in 1..count {
        let size = random.between(0, left);
        terms.push(moving(random, size));
        left -= size;
    }
    terms.push(moving(random, left));
    terms
}

impl Rule {
    /// The sum of one coordinate's six blocks.
    pub fn sum(&self, blocks: &[Vec<Term>]) -> i128 {
        let mut sum = self.base;
        for (power, block) in (0..).zip(blocks) {
            let terms = block.iter().filter(|term| !term.constant());
            sum += terms.map(|term| self.share * term.a.abs() as i128 + TERM).sum::<i128>() * self.factor.pow(power);
        }
        sum
    }

    /// A coordinate with terms of every power, constant ones too, and with this sum, which is even and near the limit.
    pub fn coordinate_of(&self, random: &mut Random, wanted: i128) -> Vec<Vec<Term>> {
        let mut blocks = vec![Vec::new(); 6];
        let largest = if self.factor == 4 { PARTS / 30 } else { PARTS };
        let most = random.pick(&[1, PARTS / 1000, largest]);
        for block in &mut blocks[1..] {
            for _ in 0..random.below(4) {
                let size = random.between(0, most);
                block.push(if random.one_in(3) { constant(size) } else { moving(random, size) });
            }
        }
        // One, two or three terms of power 0 take up the rest.
        let left = |count: i128| wanted - self.sum(&blocks) - count * TERM;
        let count = (1..=3).find(|&count| left(count) % self.share == 0).expect("3 divides one of three");
        blocks[0] = all_moving(random, count, left(count) / self.share);
        blocks[0].insert(0, constant(self.total - 1000 * PARTS));
        assert_eq!(self.sum(&blocks), wanted);
        blocks
    }
}

/// A block's total |a|.
fn total(block: &[Term]) -> i64 {
    block.iter().map(|term| term.a.abs()).sum()
}

/// Fills a block up to this total with constant terms, a few of them.
pub fn fill(random: &mut Random, block: &mut Vec<Term>, wanted: i64) {
    let mut left = wanted - total(block);
    while 0 < left {
        let size = if random.one_in(2) { left } else { random.between(1, left) };
        block.push(constant(random.pick(&[-1, 1]) * size));
        left -= size;
    }
}

/// The rule of the wide range that a series is at the limit of.
#[derive(Clone, Copy, Debug, PartialEq)]
pub enum Edge {
    /// The total of a block.
    Total,
    /// The coarseness of a coordinate.
    Coarseness,
}

/// A series at a limit of the wide range: just good for it, or as little past it as can be. Any block or coordinate may be the one.
pub fn at_wide_limit(random: &mut Random, edge: Edge, wide: bool) -> Series {
    let mut series = Series::default();
    match edge {
        Edge::Total => {
            let first = random.below(18) as usize;
            for block in [first, random.below(18) as usize] {
                let moving = random.below(3) as i128;
                series.blocks[block] = if moving == 0 { Vec::new() } else { all_moving(random, moving, 1000) };
                fill(random, &mut series.blocks[block], WIDE.total);
            }
            if !wide {
                let last = series.blocks[first].last_mut().expect("a block that is full");
                last.a += last.a.signum();
            }
        }
        Edge::Coarseness => {
            let first = random.below(3);
            for (i, blocks) in (0..).zip(series.blocks.chunks_mut(6)) {
                if i == first || random.one_in(3) {
                    let past = if i == first && !wide { 2 } else { 0 };
                    blocks.clone_from_slice(&WIDE.coordinate_of(random, LIMIT + past));
                }
            }
        }
    }
    series
}
