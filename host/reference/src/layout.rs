//! Published files, written: the records of VSOP87D (docs/RULES.md, "Published files") of a series.

use crate::plain::packed::Series;
use crate::plain::PARTS;

/// A line of a published file, without its line feed.
#[derive(Clone, Debug)]
pub struct Record {
    pub heading: bool,
    pub line: Vec<u8>,
}

impl Record {
    /// Whether a column, counted from 1, may hold any byte but a line feed.
    pub fn is_free(&self, column: usize) -> bool {
        if self.heading {
            return !matches!(column, 18 | 42 | 60..=67);
        }
        !matches!(column, 6..=10 | 80..)
    }
}

fn decimal(parts: i64) -> String {
    let sign = if parts < 0 { "-" } else { "" };
    format!("{sign}{}.{:011}", parts.abs() / PARTS, parts.abs() % PARTS)
}

/// The heading of a block, the first block being 0.
pub fn heading(block: usize, count: usize) -> Record {
    let (coordinate, power) = (block / 6 + 1, block % 6);
    let line = format!(
        " VSOP87 VERSION D4    VENUS     VARIABLE {coordinate} (LBR)       *T**{power}{count:>7} TERMS    \
         HELIOCENTRIC DYNAMICAL ECLIPTIC AND EQUINOX OF THE DATE"
    );
    Record { heading: true, line: line.into_bytes() }
}

/// The records of a series, blocks with no terms only where `with_empty` says so.
pub fn records(series: &Series, mut with_empty: impl FnMut(usize) -> bool) -> Vec<Record> {
    let mut records = Vec::new();
    for (block, terms) in series.blocks.iter().enumerate() {
        if terms.is_empty() && !with_empty(block) {
            continue;
        }
        records.push(heading(block, terms.len()));
        for (i, term) in terms.iter().enumerate() {
            let (coordinate, power, number) = (block / 6 + 1, block % 6, i + 1);
            let [a, b, c] = [term.a, term.b, term.c].map(decimal);
            let multipliers = "  0".repeat(12);
            let waves = format!("{:>15}{:>18}", "0.00000000000", "0.00000000000");
            let line = format!(" 42{coordinate}{power}{number:>5}{multipliers}{waves}{a:>18}{b:>14}{c:>20} ");
            records.push(Record { heading: false, line: line.into_bytes() });
        }
    }
    records
}

/// The file of these records.
pub fn joined(records: &[Record]) -> Vec<u8> {
    let mut file = Vec::new();
    for record in records {
        file.extend_from_slice(&record.line);
        file.push(b'\n');
    }
    file
}

/// A series as it is published: no record of a block with no terms.
pub fn published(series: &Series) -> Vec<u8> {
    joined(&records(series, |_| false))
}
