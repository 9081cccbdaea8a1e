//! The published files (docs/RULES.md, "Published files"), line by line over the whole input.

use super::packed::{put_number, put_term, Judge, Term};
use super::{refused, Refused};

/// First and last column of a figure, counted from 1.
type Columns = (usize, usize);

const VERSION: Columns = (18, 18);
const COORDINATE: Columns = (42, 42);
const POWER: Columns = (60, 60);
const COUNT: Columns = (61, 67);

const NUMBER: Columns = (6, 10);
const A: Columns = (80, 97);
const B: Columns = (98, 111);
const C: Columns = (112, 131);

/// How long a count, the whole part of a decimal, and what follows its point may be.
const COUNT_DIGITS: usize = 4;
const WHOLE_DIGITS: usize = 6;
const PART_DIGITS: usize = 11;

/// The bytes of a figure that have come, and how many columns it has in all.
#[derive(Clone, Copy)]
struct Figure<'a> {
    bytes: &'a [u8],
    width: usize,
}

/// A figure's value, if all of it came. Else which of its bytes is the first that no good figure has there.
type Taken = Result<Option<i64>, usize>;

fn figure(line: &[u8], (first, last): Columns) -> Figure<'_> {
    let end = last.min(line.len());
    Figure { bytes: &line[(first - 1).min(end)..end], width: last - first + 1 }
}

impl Figure<'_> {
    fn digit(self) -> Taken {
        match self.bytes {
            [] => Ok(None),
            [byte @ b'0'..=b'9', ..] => Ok(Some((byte - b'0') as i64)),
            _ => Err(0),
        }
    }

    /// How many spaces stand on the left.
    fn spaces(self) -> usize {
        self.bytes.iter().take_while(|&&byte| byte == b' ').count()
    }

    /// Reads the digits from `at` to before `end`. The first may be a zero only if it is alone, where `leading` says so.
    fn digits(self, at: usize, end: usize, leading: bool, value: &mut i64) -> Result<(), usize> {
        for (i, &byte) in self.bytes.iter().enumerate().take(end).skip(at) {
            let zero_first = leading && i == at && byte == b'0' && at + 1 < end;
            if !byte.is_ascii_digit() || zero_first {
                return Err(i);
            }
            *value = 10 * *value + (byte - b'0') as i64;
        }
        Ok(())
    }

    /// All of it has come.
    fn whole(self) -> bool {
        self.bytes.len() == self.width
    }

    /// A count stands on the right: where it begins says how many digits it has.
    fn count(self) -> Taken {
        let at = self.spaces();
        if at == self.width {
            return Err(at - 1);
        }
        if at < self.bytes.len() && COUNT_DIGITS < self.width - at {
            return Err(at);
        }
        let mut value = 0;
        self.digits(at, self.width, true, &mut value)?;
        Ok(self.whole().then_some(value))
    }

    /// A decimal stands on the right, with its point at a place of its own: where it begins says how many digits are before it.
    fn decimal(self) -> Taken {
        let point = self.width - PART_DIGITS - 1;
        let spaces = self.spaces();
        if point <= spaces {
            return Err(point - 1);
        }
        let negative = self.bytes.get(spaces) == Some(&b'-');
        let at = spaces + negative as usize;
        if spaces < self.bytes.len() && !(1..=WHOLE_DIGITS).contains(&(point - at)) {
            return Err(spaces);
        }
        let mut value = 0;
        self.digits(at, point, true, &mut value)?;
        if self.bytes.get(point).is_some_and(|&byte| byte != b'.') {
            return Err(point);
        }
        self.digits(point + 1, self.width, false, &mut value)?;
        if self.whole() && negative && value == 0 {
            return Err(self.width - 1);
        }
        Ok(self.whole().then_some(if negative { -value } else { value }))
    }
}

/// Where a figure stands in a line, and how it is read.
type Field = (Columns, fn(Figure) -> Taken);

/// The figures of a line, if it has all its columns. Else which of its bytes is the first that cannot stand there.
fn figures<const N: usize>(line: &[u8], fields: [Field; N]) -> Result<Option<[i64; N]>, usize> {
    let mut values = [0; N];
    let mut all = true;
    for (value, (columns, take)) in values.iter_mut().zip(fields) {
        match take(figure(line, columns)) {
            Ok(Some(taken)) => *value = taken,
            Ok(None) => all = false,
            Err(at) => return Err(columns.0 - 1 + at),
        }
    }
    Ok(all.then_some(values))
}

fn heading(line: &[u8]) -> Result<Option<[i64; 4]>, usize> {
    let digit: fn(Figure) -> Taken = |figure| figure.digit();
    figures(line, [(VERSION, digit), (COORDINATE, digit), (POWER, digit), (COUNT, |figure| figure.count())])
}

fn term(line: &[u8]) -> Result<Option<[i64; 4]>, usize> {
    let decimal: fn(Figure) -> Taken = |figure| figure.decimal();
    let values = figures(line, [(NUMBER, |figure| figure.count()), (A, decimal), (B, decimal), (C, decimal)])?;
    match line.iter().skip(C.1).position(|&byte| byte != b' ') {
        Some(after) => Err(C.1 + after),
        None => Ok(values),
    }
}

/// What has been read of a file, and its output.
struct File<'a> {
    judge: Judge,
    /// Blocks that are written, those without a heading too.
    blocks: usize,
    left: i64,
    number: i64,
    written: usize,
    packed: &'a mut [u8],
}

impl File<'_> {
    /// Writes all of these bytes, or none: 7.
    fn write(&mut self, bytes: &[u8]) -> u64 {
        let end = self.written + bytes.len();
        if self.packed.len() < end {
            return 7;
        }
        self.packed[self.written..end].copy_from_slice(bytes);
        self.written = end;
        0
    }

    /// The refusal of a heading whose columns are good, or 0.
    fn heading(&mut self, [version, coordinate, power, count]: [i64; 4]) -> u64 {
        if version != 4 || !(1..=3).contains(&coordinate) || !(0..=5).contains(&power) {
            return 13;
        }
        let block = (6 * (coordinate - 1) + power) as usize;
        if block < self.blocks {
            return 13;
        }
        let mut bytes = vec![0; block - self.blocks];
        for _ in self.blocks..block {
            self.judge.count(0);
        }
        let refusal = self.judge.count(count as u64);
        if refusal != 0 {
            return refusal;
        }
        put_number(&mut bytes, count as u64);
        (self.blocks, self.left, self.number) = (block + 1, count, 0);
        self.write(&bytes)
    }

    /// The refusal of a term whose columns are good, or 0.
    fn term(&mut self, [number, a, b, c]: [i64; 4]) -> u64 {
        self.number += 1;
        self.left -= 1;
        if number != self.number {
            return 14;
        }
        let refusal = self.judge.line_term(Term { a, b, c });
        if refusal != 0 {
            return refusal;
        }
        let mut bytes = Vec::new();
        put_term(&mut bytes, Term { a, b, c });
        self.write(&bytes)
    }

    fn is_over(&self) -> bool {
        self.blocks == 18 && self.left == 0
    }

    /// A line that begins at an offset, with its line feed if it has one.
    fn line(&mut self, at: usize, line: &[u8]) -> Result<(), Refused> {
        if self.is_over() {
            return refused(9, at as i64);
        }
        let (bytes, ended) = line.strip_suffix(b"\n").map_or((line, false), |bytes| (bytes, true));
        let is_heading = self.left == 0;
        let values = match if is_heading { heading(bytes) } else { term(bytes) } {
            Ok(values) => values,
            Err(bad) => return refused(3, (at + bad) as i64),
        };
        let feed = (at + bytes.len()) as i64;
        if !ended {
            return refused(8, feed);
        }
        let Some(values) = values else {
            return refused(3, feed);
        };
        match if is_heading { self.heading(values) } else { self.term(values) } {
            0 => Ok(()),
            refusal => refused(refusal, feed),
        }
    }
}

/// A published file, whole, and its end: how many bytes of `packed` it took.
pub fn read_published(input: &[u8], packed: &mut [u8]) -> Result<usize, Refused> {
    let mut file = File { judge: Judge::new(), blocks: 0, left: 0, number: 0, written: 0, packed };
    let mut at = 0;
    for line in input.split_inclusive(|&byte| byte == b'\n') {
        file.line(at, line)?;
        at += line.len();
    }
    if 0 < file.left {
        return refused(8, at as i64);
    }
    let skipped = vec![0; 18 - file.blocks];
    match file.write(&skipped) {
        0 => Ok(file.written),
        refusal => refused(refusal, at as i64),
    }
}
