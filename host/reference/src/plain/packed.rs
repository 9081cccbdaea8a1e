//! Packed numbers, the limits of a series, packed series, and the printer.

use super::{is_far, refused, Refused, PARTS, U};

/// The coarseness sum of a coordinate: what each part of |a| counts, what the sum begins with, and what it may reach.
const COARSE_SHARE: i128 = 6;
const COARSE_BASE: i128 = 32 * U as i128;
const COARSE_LIMIT: i128 = 200_000_000_000_000;
/// What the sum begins with in the wide range, where each power has 4 for 2; and the greatest total |a| of a block there.
const WIDE_BASE: i128 = 342 * U as i128;
const WIDE_TOTAL: i64 = 50_000 * PARTS;

/// A term a cos(b + c tau), all three in parts.
#[derive(Clone, Copy, Debug, PartialEq, Eq)]
pub struct Term {
    pub a: i64,
    pub b: i64,
    pub c: i64,
}

impl Term {
    pub fn constant(self) -> bool {
        self.b == 0 && self.c == 0
    }
}

/// The eighteen blocks: powers 0 to 5 of L, then of B, then of R.
#[derive(Clone, Debug, Default, PartialEq, Eq)]
pub struct Series {
    pub blocks: [Vec<Term>; 18],
}

/// The coarseness sum of one coordinate's six blocks in the wide range.
fn wide_coarseness(blocks: &[Vec<Term>]) -> i128 {
    let counts = |term: &Term| if term.constant() { 0 } else { COARSE_SHARE * term.a.abs() as i128 + U as i128 };
    let of_power = |(power, block): (u32, &Vec<Term>)| 4_i128.pow(power) * block.iter().map(counts).sum::<i128>();
    WIDE_BASE + (0..).zip(blocks).map(of_power).sum::<i128>()
}

impl Series {
    /// Whether it is good for the wide range.
    pub fn is_wide(&self) -> bool {
        let total = |block: &Vec<Term>| block.iter().map(|term| term.a.abs()).sum::<i64>();
        self.blocks.iter().all(|block| total(block) <= WIDE_TOTAL)
            && self.blocks.chunks(6).all(|blocks| wide_coarseness(blocks) <= COARSE_LIMIT)
    }
}

/// Refusal 17, for the first instant beyond the near range where a series is not good for the wide one.
pub fn not_too_far(series: &[&Series], instants: impl IntoIterator<Item = i64>) -> Result<(), Refused> {
    match instants.into_iter().find(|&t| is_far(t)) {
        Some(t) if !series.iter().all(|series| series.is_wide()) => refused(17, t),
        _ => Ok(()),
    }
}

pub fn fold(v: i64) -> u64 {
    if 0 <= v {
        2 * v as u64
    } else {
        2 * v.unsigned_abs() - 1
    }
}

pub fn unfold(v: u64) -> i64 {
    if v.is_multiple_of(2) {
        (v / 2) as i64
    } else {
        -((v / 2) as i64) - 1
    }
}

/// Appends a number in groups of seven bits, lowest group first.
pub fn put_number(out: &mut Vec<u8>, mut v: u64) {
    while 128 <= v {
        out.push((v % 128) as u8 + 128);
        v /= 128;
    }
    out.push(v as u8);
}

pub fn put_term(out: &mut Vec<u8>, term: Term) {
    put_number(out, fold(term.a));
    put_number(out, term.b as u64);
    put_number(out, fold(term.c));
}

/// The packed form of a series, whether or not it keeps the limits.
pub fn pack(series: &Series) -> Vec<u8> {
    let mut out = Vec::new();
    for block in &series.blocks {
        put_number(&mut out, block.len() as u64);
        for term in block {
            put_term(&mut out, *term);
        }
    }
    out
}

/// What is judged over the part of a series read so far. Each call answers the number of its refusal, or 0.
#[derive(Clone, Debug)]
pub struct Judge {
    blocks_begun: usize,
    terms_left: i64,
    declared: i64,
    block_total: i64,
    coarseness: i128,
    last_a: i64,
    last_b: i64,
}

impl Judge {
    pub fn new() -> Judge {
        Judge { blocks_begun: 0, terms_left: 0, declared: 0, block_total: 0, coarseness: 0, last_a: 0, last_b: 0 }
    }

    /// All of block 18 has come.
    pub fn done(&self) -> bool {
        self.blocks_begun == 18 && self.terms_left == 0
    }

    pub fn wants_count(&self) -> bool {
        self.terms_left == 0
    }

    pub fn count(&mut self, n: u64) -> u64 {
        if 4096 < n || 8192 < self.declared + n as i64 {
            return 4;
        }
        if self.blocks_begun.is_multiple_of(6) {
            self.coarseness = COARSE_BASE;
        }
        self.blocks_begun += 1;
        self.declared += n as i64;
        self.terms_left = n as i64;
        self.block_total = 0;
        0
    }

    /// The refusal of a term of a line, or 0: its numbers are judged before what they add to.
    pub fn line_term(&mut self, Term { a, b, c }: Term) -> u64 {
        if !Judge::a_in_limit(a) || !Judge::b_in_limit(b) || !Judge::c_in_limit(c) {
            return 4;
        }
        [self.a(a), self.b(b), self.c(c)].into_iter().find(|&refusal| refusal != 0).unwrap_or(0)
    }

    fn a_in_limit(a: i64) -> bool {
        a.abs() < 100_000 * PARTS
    }

    fn b_in_limit(b: i64) -> bool {
        (0..10 * PARTS).contains(&b)
    }

    fn c_in_limit(c: i64) -> bool {
        c.abs() < 1_000_000 * PARTS
    }

    pub fn a(&mut self, a: i64) -> u64 {
        if !Judge::a_in_limit(a) {
            return 4;
        }
        self.block_total += a.abs();
        self.last_a = a;
        if 100_000 * PARTS < self.block_total {
            return 5;
        }
        0
    }

    pub fn b(&mut self, b: i64) -> u64 {
        if !Judge::b_in_limit(b) {
            return 4;
        }
        self.last_b = b;
        0
    }

    pub fn c(&mut self, c: i64) -> u64 {
        if !Judge::c_in_limit(c) {
            return 4;
        }
        self.terms_left -= 1;
        if self.last_b != 0 || c != 0 {
            let power = (self.blocks_begun - 1) % 6;
            self.coarseness += (COARSE_SHARE * self.last_a.abs() as i128 + U as i128) << power;
        }
        if COARSE_LIMIT < self.coarseness {
            return 6;
        }
        0
    }
}

impl Default for Judge {
    fn default() -> Judge {
        Judge::new()
    }
}

/// Where the next number is read; a number is answered with the offset of its last byte.
struct Cursor<'a> {
    bytes: &'a [u8],
    at: usize,
}

impl Cursor<'_> {
    fn number(&mut self) -> Result<(u64, i64), Refused> {
        let mut value = 0;
        for group in 0..9 {
            let Some(&byte) = self.bytes.get(self.at) else {
                return refused(8, self.bytes.len() as i64);
            };
            let offset = self.at as i64;
            self.at += 1;
            value += (byte as u64 % 128) << (7 * group);
            if byte < 128 {
                if byte == 0 && 0 < group {
                    return refused(10, offset);
                }
                return Ok((value, offset));
            }
        }
        refused(4, self.at as i64 - 1)
    }
}

fn accept(refusal: u64, offset: i64) -> Result<(), Refused> {
    if refusal != 0 {
        return refused(refusal, offset);
    }
    Ok(())
}

/// The series of packed bytes.
pub fn parse(bytes: &[u8]) -> Result<Series, Refused> {
    let mut cursor = Cursor { bytes, at: 0 };
    let mut judge = Judge::new();
    let mut series = Series::default();
    for block in &mut series.blocks {
        let (count, offset) = cursor.number()?;
        accept(judge.count(count), offset)?;
        for _ in 0..count {
            let (a, offset) = cursor.number()?;
            accept(judge.a(unfold(a)), offset)?;
            let (b, offset) = cursor.number()?;
            accept(judge.b(b as i64), offset)?;
            let (c, offset) = cursor.number()?;
            accept(judge.c(unfold(c)), offset)?;
            block.push(Term { a: unfold(a), b: b as i64, c: unfold(c) });
        }
    }
    if cursor.at < bytes.len() {
        return refused(9, cursor.at as i64);
    }
    Ok(series)
}

/// How many terms a series has, and whether it is good for the wide range.
#[derive(Clone, Copy, Debug, PartialEq, Eq)]
pub struct Checked {
    pub terms: i64,
    pub wide: bool,
}

pub fn check(bytes: &[u8]) -> Result<Checked, Refused> {
    let series = parse(bytes)?;
    Ok(Checked { terms: series.blocks.iter().map(|block| block.len() as i64).sum(), wide: series.is_wide() })
}

fn put_decimal(out: &mut Vec<u8>, v: i64) {
    let sign = if v < 0 { "-" } else { "" };
    let (whole, parts) = (v.abs() / PARTS, v.abs() % PARTS);
    out.extend_from_slice(format!("{sign}{whole}.{parts:011}").as_bytes());
}

/// The plain text of a series: single spaces, none leading.
pub fn text_of(series: &Series) -> Vec<u8> {
    let mut out = Vec::new();
    for block in &series.blocks {
        out.extend_from_slice(format!("{}\n", block.len()).as_bytes());
        for term in block {
            put_decimal(&mut out, term.a);
            out.push(b' ');
            put_decimal(&mut out, term.b);
            out.push(b' ');
            put_decimal(&mut out, term.c);
            out.push(b'\n');
        }
    }
    out
}

/// Prints packed bytes into `text`: the length, or a refusal that leaves it untouched.
pub fn print(bytes: &[u8], text: &mut [u8]) -> Result<usize, Refused> {
    let printed = text_of(&parse(bytes)?);
    if text.len() < printed.len() {
        return refused(7, printed.len() as i64);
    }
    text[..printed.len()].copy_from_slice(&printed);
    Ok(printed.len())
}
