//! Random input: instants and dates near every edge, series that are good or nearly so, damaged bytes, texts in odd layouts.

use super::coarse::{at_wide_limit, constant, fill, Edge, WIDE};
use super::Random;
use reference::plain::packed::{pack, put_number, Series, Term};
use reference::plain::place::Vector;
use reference::plain::series::Coordinates;
use reference::plain::{MILLENNIUM, NEAR_LIMIT, PARTS, T_LIMIT};

/// Any number of 64 bits, small ones and the ends as often as others.
pub fn any_number(random: &mut Random) -> i64 {
    match random.below(6) {
        0 => random.between(-3, 3),
        1 => random.pick(&[i64::MIN, i64::MIN + 1, i64::MAX, i64::MAX - 1]),
        2 => random.between(-10_000_000, 10_000_000),
        _ => random.next() as i64 >> random.below(64),
    }
}

/// Any instant, those near the limit of t and near that of the near range as often as others. Up to so many milliseconds after a limit
/// light from a usable place may have left before it.
pub fn instant(random: &mut Random) -> i64 {
    let limit = random.pick(&[NEAR_LIMIT, T_LIMIT]);
    match random.below(14) {
        0 => any_number(random),
        1 => random.pick(&[-limit, limit]) + random.between(-3, 3),
        2 => -limit + random.between(0, 70_000_000),
        3 => limit - random.between(0, 90_000_000),
        4 => NEAR_LIMIT + random.between(0, 70_000_000),
        5 => random.between(-5, 5),
        6 => random.pick(&[-1, 1]) * MILLENNIUM / random.between(1, 9),
        7..=9 => random.between(-NEAR_LIMIT, NEAR_LIMIT),
        _ => random.between(-T_LIMIT, T_LIMIT),
    }
}

/// The first instant of a window of at most a day, anywhere within the limit of t.
pub fn window_start(random: &mut Random) -> i64 {
    random.between(-T_LIMIT, T_LIMIT - 86_400_000)
}

/// Year, month, day and milliseconds, most of them near what exists.
pub fn date(random: &mut Random) -> [i64; 4] {
    let year = match random.below(6) {
        0 => random.between(-4716, -4708),
        1 => random.between(9995, 10_002),
        2 => random.pick(&[1582, 1500, 1600, 1700, 1900, 2000, 0, -1, -4, -100, 4000, -2001, 6000]),
        3 => random.between(-4800, 10_100),
        4 => random.between(-2003, 6003),
        _ => random.between(1550, 1620),
    };
    let month = random.between(1, 12);
    let day = random.between(1, 31);
    let ms = random.between(0, 86_399_999);
    let mut date = [year, month, day, ms];
    match random.below(8) {
        0 => date[1] = random.pick(&[0, 13, 14, -1]),
        1 => date[2] = random.pick(&[0, 29, 30, 31, 32]),
        2 => date[3] = random.pick(&[-1, 86_400_000, 86_399_999, 0]),
        3 => date[random.below(4) as usize] = any_number(random),
        _ => {}
    }
    date
}

/// A whole number of at most `limit`, of any size.
fn of_any_size(random: &mut Random, limit: i64) -> i64 {
    match random.below(8) {
        0 => 0,
        1 => limit - random.between(0, 2),
        _ => (random.below(limit as u64 + 1) as i64) >> random.below(58),
    }
}

fn signed(random: &mut Random, v: i64) -> i64 {
    if random.one_in(2) {
        -v
    } else {
        v
    }
}

/// A term within its limits, small enough in most cases that sums stay within theirs.
fn term(random: &mut Random, largest: i64) -> Term {
    let a = of_any_size(random, largest);
    let b = of_any_size(random, 10 * PARTS - 1);
    let c = of_any_size(random, 1_000_000 * PARTS - 1);
    let constant = random.one_in(5);
    let (a, c) = (signed(random, a), signed(random, c));
    if constant {
        return Term { a, b: 0, c: 0 };
    }
    Term { a, b, c }
}

/// A good series of a few terms, or nearly good: sums may pass their limits.
pub fn series(random: &mut Random) -> Series {
    let mut series = Series::default();
    let most = random.pick(&[0, 1, 1, 2, 3, 8]);
    let largest = random.pick(&[PARTS, 1000 * PARTS, 1_000_000_000, 100_000 * PARTS - 1, 40]);
    for block in &mut series.blocks {
        let count = if random.one_in(2) { 0 } else { random.below(most + 1) };
        for _ in 0..count {
            block.push(term(random, largest));
        }
    }
    series
}

/// A body that moves fast enough for a window of minutes to show something. Now and then its radius is at an edge.
pub fn orbit(random: &mut Random, radius: i64) -> Series {
    let mut series = Series::default();
    let wave = |random: &mut Random, a: i64| {
        let (b, c) = (random.between(0, 10 * PARTS - 1), of_any_size(random, 1_000_000 * PARTS - 1));
        Term { a: random.between(-a, a), b, c: signed(random, c) }
    };
    series.blocks[0].push(constant(random.between(0, 7 * PARTS)));
    let size = random.pick(&[PARTS / 100, PARTS / 5, 2 * PARTS]);
    series.blocks[0].push(wave(random, size));
    let speed = random.pick(&[0, 1000 * PARTS, 99_000 * PARTS]);
    series.blocks[1].push(constant(random.between(-speed, speed)));
    series.blocks[6].push(wave(random, PARTS / 30));
    let radius = match random.below(12) {
        0 => random.pick(&[PARTS / 10, 64 * PARTS]) + random.between(-2, 2),
        1 => random.between(-PARTS, 70 * PARTS),
        _ => radius + random.between(-radius / 4, radius / 4),
    };
    series.blocks[12].push(constant(radius));
    if random.one_in(2) {
        let size = random.pick(&[10, PARTS / 1000, PARTS / 10]);
        series.blocks[12].push(wave(random, size));
    }
    if random.one_in(4) {
        let power = random.below(18) as usize;
        let size = random.pick(&[1000, PARTS / 100]);
        series.blocks[power].push(wave(random, size));
    }
    if random.one_in(4) {
        fill_to_wide_limit(random, &mut series);
    }
    series
}

/// Fills a block of the longitude or the latitude up to the total of the wide range, or to one part more; one that has more stays.
pub fn fill_to_wide_limit(random: &mut Random, series: &mut Series) {
    let block = random.below(12) as usize;
    let past = random.between(0, 1);
    fill(random, &mut series.blocks[block], WIDE.total + past);
}

/// Packed bytes of a series, damaged in one of many ways.
pub fn damaged(random: &mut Random, series: &Series) -> Vec<u8> {
    let mut bytes = pack(series);
    let at = random.below(bytes.len() as u64 + 1) as usize;
    match random.below(8) {
        0 => bytes.truncate(at),
        1 => bytes.insert(at, random.next() as u8),
        2 if at < bytes.len() => drop(bytes.remove(at)),
        3 if at < bytes.len() => bytes[at] ^= 1 << random.below(8),
        4 if at < bytes.len() => bytes[at] = random.next() as u8,
        5 => {
            let mut number = Vec::new();
            put_number(&mut number, random.next() >> random.below(64));
            bytes.splice(at..at, number);
        }
        6 => {
            let continued = random.pick(&[0x80, 0xFF]);
            let mut long = vec![continued; random.below(11) as usize];
            long.push(random.pick(&[0, 1, 0x7F]));
            bytes.splice(at..at, long);
        }
        _ => bytes.extend_from_slice(&vec![random.next() as u8; random.below(4) as usize]),
    }
    bytes
}

/// Packed bytes: a good series, one at a limit of the wide range, a nearly good one, a damaged one, or any bytes.
pub fn packed(random: &mut Random) -> Vec<u8> {
    match random.below(11) {
        0 => (0..random.below(40)).map(|_| random.next() as u8).collect(),
        1 => (0..random.below(60)).map(|_| random.pick(&[0, 0, 0, 1, 2, 0x80, 0xFF])).collect(),
        2..=4 => {
            let series = series(random);
            damaged(random, &series)
        }
        5 | 6 => pack(&orbit(random, PARTS)),
        7 => {
            let edge = random.pick(&[Edge::Total, Edge::Coarseness]);
            let wide = random.one_in(2);
            pack(&at_wide_limit(random, edge, wide))
        }
        _ => pack(&series(random)),
    }
}

/// Two packed series of bodies that may be seen together; now and then one is anything.
pub fn bodies(random: &mut Random) -> (Vec<u8>, Vec<u8>) {
    let far = random.pick(&[PARTS / 3, PARTS * 3 / 4, 2 * PARTS, 40 * PARTS]);
    let mut planet = pack(&orbit(random, far));
    let mut earth = pack(&orbit(random, PARTS));
    if random.one_in(12) {
        planet = packed(random);
    }
    if random.one_in(12) {
        earth = packed(random);
    }
    (planet, earth)
}

/// L, B and R of planet and Earth, in line with the Sun and as near to each other as is usable, or a part or two beside: their distance is
/// 0.1 AU, or a sixteenth of the sum of both radii. Either is the inner one.
pub fn as_near_as_is_usable(random: &mut Random) -> [[i64; 3]; 2] {
    let (longitude, latitude) = (random.between(0, 7 * PARTS), random.between(-3 * PARTS / 2, 3 * PARTS / 2));
    let place = |radius: i64| Vector::of_coordinates(Coordinates { longitude, latitude, radius });
    // Up to 0.75 AU a distance of 0.1 AU is enough.
    let near = random.one_in(2);
    let inner = if near { random.between(PARTS / 10, PARTS * 7 / 10) } else { random.between(PARTS, 56 * PARTS) };
    let mut outer = if near { inner + PARTS / 10 } else { inner * 17 / 15 };
    for _ in 0..2 {
        // Cosines are rounded, so the distance is not quite the difference of the radii.
        let distance = place(outer).minus(place(inner)).length();
        outer += if near { PARTS / 10 - distance } else { (inner + outer - 16 * distance) / 15 };
    }
    outer += random.between(-2, 2);
    let [inner, outer] = [inner, outer].map(|radius| [longitude, latitude, radius]);
    random.pick(&[[inner, outer], [outer, inner]])
}

/// A decimal in parts, mostly as the grammar has it.
fn put_decimal(random: &mut Random, out: &mut Vec<u8>, v: i64) {
    let sign = if v < 0 { "-" } else { "" };
    let text = format!("{sign}{}.{:011}", v.abs() / PARTS, v.abs() % PARTS);
    let text = match random.below(400) {
        0 => format!("0{text}"),
        1 => format!("-{text}"),
        2 => text.replace('.', ","),
        3 => text.replace('.', ""),
        4 => format!("{text}0"),
        5 => text[..text.len() - 1].to_string(),
        6 => format!("+{text}"),
        7 => "-0.00000000000".to_string(),
        8 => format!("{}{text}", random.below(1_000_000)),
        9 => format!("-{}.00000000001", random.below(20)),
        _ => text,
    };
    out.extend_from_slice(text.as_bytes());
}

fn put_spaces(random: &mut Random, out: &mut Vec<u8>, least: u64) {
    let count = if random.one_in(6) { least + random.below(4) } else { least };
    out.resize(out.len() + count as usize, b' ');
}

/// The text of a series, with odd spaces, and now and then with a fault.
pub fn text(random: &mut Random) -> Vec<u8> {
    let series = if random.one_in(3) { orbit(random, PARTS) } else { series(random) };
    let mut out = Vec::new();
    for block in &series.blocks {
        let count = match random.below(300) {
            0 => format!("0{}", block.len()),
            1 => format!(" {}", block.len()),
            2 => format!("{}", random.below(12_000)),
            _ => format!("{}", block.len()),
        };
        out.extend_from_slice(count.as_bytes());
        out.push(b'\n');
        for term in block {
            put_spaces(random, &mut out, 0);
            put_decimal(random, &mut out, term.a);
            put_spaces(random, &mut out, 1);
            put_decimal(random, &mut out, term.b);
            put_spaces(random, &mut out, 1);
            put_decimal(random, &mut out, term.c);
            let end = if random.one_in(500) { random.pick(&["\r\n", " \n", "\n\n", ""]) } else { "\n" };
            out.extend_from_slice(end.as_bytes());
        }
    }
    let at = random.below(out.len() as u64 + 1) as usize;
    match random.below(24) {
        0 => out.truncate(at),
        1 => out.insert(at, random.next() as u8),
        2 if at < out.len() => drop(out.remove(at)),
        3 if at < out.len() => out[at] = random.pick(b"0123456789.- \n"),
        4 => out.push(random.pick(b"0 \n")),
        _ => {}
    }
    out
}
