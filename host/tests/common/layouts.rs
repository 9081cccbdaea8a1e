//! Published files in many layouts: any bytes in the free columns, long and short lines, headings of empty blocks, and damage.

use super::generate::{orbit, series};
use super::Random;
use reference::layout::{heading, joined, records, Record};
use reference::plain::packed::Series;
use reference::plain::PARTS;

/// Any byte but a line feed.
fn free_byte(random: &mut Random) -> u8 {
    let byte = if random.one_in(3) { random.pick(b"\0\r\t 0123456789.-\x7F\x80\xFF") } else { random.next() as u8 };
    if byte == b'\n' {
        return b'\r';
    }
    byte
}

/// Fills the free columns, and gives the line another end.
fn fill(random: &mut Random, record: &mut Record) {
    for column in 1..=record.line.len() {
        if record.is_free(column) {
            record.line[column - 1] = free_byte(random);
        }
    }
    let longer = random.below(4) as usize * random.below(90) as usize;
    if record.heading {
        record.line.truncate(67 + random.below(66) as usize);
        record.line.extend((0..longer).map(|_| free_byte(random)));
    } else {
        record.line.resize(131 + longer, b' ');
    }
}

/// The records of a series with any bytes where any may stand.
pub fn filled(random: &mut Random, series: &Series) -> Vec<Record> {
    let with_empty = random.below(4);
    let mut records = records(series, |_| random.below(4) < with_empty);
    if !random.one_in(4) {
        records.iter_mut().for_each(|record| fill(random, record));
    }
    records
}

/// Puts a figure into its columns, on the right; what is too long for them pushes the rest on.
fn put(record: &mut Record, (first, last): (usize, usize), figure: &str) {
    let end = last.min(record.line.len());
    let figure = format!("{figure:>width$}", width = last + 1 - first);
    record.line.splice((first - 1).min(end)..end, figure.bytes());
}

fn odd_count(random: &mut Random) -> String {
    match random.below(8) {
        0 => random.pick(&["", "0", "01", "-1", "1 ", "+1", "1.", "00", "4096", "4097", "8192", "9999"]).to_string(),
        1 => random.below(100_000).to_string(),
        2 => random.below(12_000).to_string(),
        _ => random.below(8).to_string(),
    }
}

fn odd_decimal(random: &mut Random) -> String {
    let whole =
        random.pick(&["0", "1", "12", "-1", "-12", "00", "-0", "-", "", "99999", "100000", "999999", "1000000"]);
    let part = random.pick(&["00000000000", "00000000001", "99999999999", "0000000000", " 0000000000", "5000000000x"]);
    format!("{whole}.{part}")
}

/// Writes something else into the figures of a record.
fn spoil(random: &mut Random, record: &mut Record) {
    if record.heading {
        match random.below(3) {
            0 => put(record, (61, 67), &odd_count(random)),
            _ => put(record, random.pick(&[(18, 18), (42, 42), (60, 60)]), &random.below(10).to_string()),
        }
        return;
    }
    match random.below(4) {
        0 => put(record, (6, 10), &odd_count(random)),
        _ => put(record, random.pick(&[(80, 97), (98, 111), (112, 131)]), &odd_decimal(random)),
    }
}

/// Drops, repeats, moves or spoils lines.
fn damage_lines(random: &mut Random, records: &mut Vec<Record>) {
    let at = |random: &mut Random, n: usize| random.below(n as u64) as usize;
    if records.is_empty() {
        return;
    }
    let (i, j) = (at(random, records.len()), at(random, records.len()));
    match random.below(8) {
        0 => drop(records.remove(i)),
        1 => records.insert(j, records[i].clone()),
        2 => records.swap(i, j),
        3 => records.insert(i, heading(random.below(18) as usize, random.below(3) as usize)),
        4 => records[i].line.truncate(random.below(140) as usize),
        5 => records[i].line.push(random.pick(b"\r0 ")),
        _ => spoil(random, &mut records[i]),
    }
}

/// Cuts the file, or changes, adds or takes a byte.
fn damage_bytes(random: &mut Random, file: &mut Vec<u8>) {
    let at = random.below(file.len() as u64 + 1) as usize;
    let byte = random.pick(b"0123456789.- \n\r");
    match random.below(6) {
        0 => file.truncate(at),
        1 => file.insert(at, byte),
        2 if at < file.len() => drop(file.remove(at)),
        3 if at < file.len() => file[at] = byte,
        4 if at < file.len() => file[at] = random.next() as u8,
        _ => file.push(byte),
    }
}

/// A published file, good or damaged.
pub fn published_file(random: &mut Random) -> Vec<u8> {
    let series = if random.one_in(3) { orbit(random, PARTS) } else { series(random) };
    let mut records = filled(random, &series);
    if random.one_in(2) {
        damage_lines(random, &mut records);
    }
    let mut file = joined(&records);
    if random.one_in(3) {
        damage_bytes(random, &mut file);
    }
    file
}
