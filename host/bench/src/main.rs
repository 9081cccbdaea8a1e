//! The benchmark: the proved library, the plain exact implementation and plain f64, interleaved in one run.
//!
//! `cargo run --release --bin bench` takes half a minute; `-- --quick` a quarter of it; other words choose the lines that
//! have them. Output buffers are not cleared between calls, times are of the processor. The f64 program works from tables that are
//! unpacked beforehand; the two others get packed bytes.

use reference::floating::{self, Tables};
use reference::layout;
use reference::plain::mending::mend;
use reference::plain::packed::{pack, parse, Series};
use reference::plain::published::read_published;
use reference::plain::{self, text};
use std::hint::black_box;

/// Keeps the compiler from leaving out the work whose answer this is.
fn used<A>(answer: A) {
    black_box(answer);
}

#[repr(C)]
struct TimeSpec {
    seconds: i64,
    nanoseconds: i64,
}

extern "C" {
    fn clock_gettime(clock: i32, time: *mut TimeSpec) -> i32;
}

/// Seconds of processor time that this thread has used, so that others on the machine are not counted.
fn processor_seconds() -> f64 {
    const THREAD_CLOCK: i32 = 3;
    let mut time = TimeSpec { seconds: 0, nanoseconds: 0 };
    // SAFETY: the system writes the time of this thread's clock into the struct that it is given.
    let status = unsafe { clock_gettime(THREAD_CLOCK, &mut time) };
    assert_eq!(status, 0, "Linux has a clock for each thread");
    time.seconds as f64 + time.nanoseconds as f64 * 1e-9
}

/// One program's share of a measurement.
type Program<'a> = Option<Box<dyn FnMut() + 'a>>;

/// What is measured: how many units one call works, and the three programs.
struct Measurement<'a> {
    name: String,
    units: f64,
    unit: &'static str,
    per: f64,
    library: Program<'a>,
    plain: Program<'a>,
    floating: Program<'a>,
}

fn seconds(program: &mut Program, calls: u32) -> Option<f64> {
    let work = program.as_mut()?;
    let start = processor_seconds();
    for _ in 0..calls {
        work();
    }
    Some((processor_seconds() - start) / calls as f64)
}

/// Enough calls for a reading of a few milliseconds.
fn calls_for(program: &mut Program) -> u32 {
    match seconds(program, 1) {
        Some(once) => (0.004 / once.max(1e-9)).clamp(1.0, 100_000.0) as u32,
        None => 1,
    }
}

fn median(readings: &mut [f64]) -> Option<f64> {
    readings.sort_by(f64::total_cmp);
    readings.get(readings.len() / 2).copied()
}

fn figure(value: Option<f64>) -> String {
    value.map_or("-".to_string(), |v| if v < 100.0 { format!("{v:.2}") } else { format!("{v:.0}") })
}

fn line(name: &str, unit: &str, [library, plain, floating]: [String; 3], [to_plain, to_floating]: [String; 2]) {
    println!("{name:<40}{unit:>5}{library:>11}{plain:>11}{floating:>11}{to_plain:>10}{to_floating:>9}");
}

impl Measurement<'_> {
    /// One round takes a reading of each program in turn: the medians of all rounds, unless other lines are chosen.
    fn medians(&mut self, rounds: usize) -> Option<[Option<f64>; 3]> {
        let chosen: Vec<String> = std::env::args().skip(1).filter(|word| !word.starts_with("--")).collect();
        if !chosen.is_empty() && !chosen.iter().any(|word| self.name.contains(word)) {
            return None;
        }
        let programs = [&mut self.library, &mut self.plain, &mut self.floating];
        let calls = programs.map(calls_for);
        let mut readings = [Vec::new(), Vec::new(), Vec::new()];
        for _ in 0..rounds {
            let programs = [&mut self.library, &mut self.plain, &mut self.floating];
            for (i, program) in programs.into_iter().enumerate() {
                readings[i].extend(seconds(program, calls[i]));
            }
        }
        Some(readings.map(|mut r| median(&mut r).map(|s| s / self.units * self.per)))
    }

    /// Prints the medians.
    fn run(&mut self, rounds: usize) {
        let Some([library, plain, floating]) = self.medians(rounds) else {
            return;
        };
        let ratio = |other: Option<f64>| figure(library.zip(other).map(|(library, other)| library / other));
        line(&self.name, self.unit, [library, plain, floating].map(figure), [plain, floating].map(ratio));
    }
}

/// A planet in every form.
struct Planet {
    name: &'static str,
    text: Vec<u8>,
    /// As it is published.
    file: Vec<u8>,
    packed: Vec<u8>,
    series: Series,
    tables: Tables,
}

fn planet(name: &'static str) -> Planet {
    let path = format!("{}/../../data/vsop87d/{name}.txt", env!("CARGO_MANIFEST_DIR"));
    let text = std::fs::read(&path).unwrap_or_else(|error| panic!("{path}: {error}"));
    let mut packed = vec![0; text.len()];
    let length = stephylax::read_text(&text, &mut packed).expect("the published series is good");
    packed.truncate(length);
    of_series(name, text, parse(&packed).expect("what was packed is good"))
}

fn of_series(name: &'static str, text: Vec<u8>, series: Series) -> Planet {
    Planet { name, text, file: layout::published(&series), packed: pack(&series), tables: Tables::of(&series), series }
}

fn terms(planet: &Planet) -> f64 {
    planet.series.blocks.iter().map(Vec::len).sum::<usize>() as f64
}

/// The series with its first terms only, as many of each block in proportion.
fn shortened(planet: &Planet, share: f64) -> Planet {
    let mut series = planet.series.clone();
    for block in &mut series.blocks {
        block.truncate((block.len() as f64 * share).ceil() as usize);
    }
    of_series(planet.name, Vec::new(), series)
}

const T: i64 = 157_809_600_000;
const DAY: i64 = 86_400_000;
const NS: f64 = 1e9;
const US: f64 = 1e6;
const MS: f64 = 1e3;

/// The instants of successive calls, one step after another. With no step every call asks for the same instant, whose every
/// branch the processor soon knows by heart.
fn instants(step: i64) -> impl FnMut() -> i64 {
    let mut t = T - step;
    move || {
        t += step;
        black_box(t)
    }
}

fn coordinates(name: String, p: &Planet, step: i64) -> Measurement<'_> {
    let (mut library, mut plain, mut floating) = (instants(step), instants(step), instants(step));
    Measurement {
        name,
        units: terms(p),
        unit: "ns",
        per: NS,
        library: Some(Box::new(move || used(stephylax::coordinates_at(&p.packed, library())))),
        plain: Some(Box::new(move || used(plain::series::coordinates_at(&p.packed, plain())))),
        floating: Some(Box::new(move || used(p.tables.coordinates(floating())))),
    }
}

fn place<'a>(name: String, p: &'a Planet, e: &'a Planet, step: i64) -> Measurement<'a> {
    let (mut library, mut plain, mut floating) = (instants(step), instants(step), instants(step));
    Measurement {
        name,
        units: 1.0,
        unit: "us",
        per: US,
        library: Some(Box::new(move || used(stephylax::apparent_place(&p.packed, &e.packed, library())))),
        plain: Some(Box::new(move || used(plain::place::apparent_place(&p.packed, &e.packed, plain())))),
        floating: Some(Box::new(move || used(floating::place(&p.tables, &e.tables, floating())))),
    }
}

fn list<'a>(name: String, p: &'a Planet, e: &'a Planet, minutes: i64) -> Measurement<'a> {
    Measurement {
        name,
        units: 1.0,
        unit: "ms",
        per: MS,
        library: Some(Box::new(move || {
            let mut runs = [0; 1440];
            used(stephylax::sun_list(&p.packed, &e.packed, black_box(T), minutes, 1200, &mut runs));
        })),
        plain: Some(Box::new(move || {
            let mut runs = [0; 1440];
            used(plain::sun_list::sun_list(&p.packed, &e.packed, black_box(T), minutes, 1200, &mut runs));
        })),
        floating: Some(Box::new(move || used(floating::sun_list(&p.tables, &e.tables, black_box(T), minutes, 1200)))),
    }
}

fn read_whole(p: &Planet) -> Measurement<'_> {
    let (mut library, mut plain) = (vec![0; p.text.len()], vec![0; p.text.len()]);
    Measurement {
        name: format!("text read and packed, {}, a byte", p.name),
        units: p.text.len() as f64,
        unit: "ns",
        per: NS,
        library: Some(Box::new(move || used(stephylax::read_text(black_box(&p.text), &mut library)))),
        plain: Some(Box::new(move || used(text::read_text(black_box(&p.text), &mut plain)))),
        floating: Some(Box::new(|| used(parsed(black_box(&p.text))))),
    }
}

/// What a plain f64 program does with a text: every word parsed.
fn parsed(text: &[u8]) -> Vec<f64> {
    let text = std::str::from_utf8(text).expect("ASCII");
    text.split_ascii_whitespace().map(|word| word.parse().expect("a number")).collect()
}

fn read_pieces(p: &Planet) -> Measurement<'_> {
    let (mut library, mut plain) = (vec![0; p.text.len()], vec![0; p.text.len()]);
    Measurement {
        name: format!("text in pieces of 4096, {}, a byte", p.name),
        units: p.text.len() as f64,
        unit: "ns",
        per: NS,
        library: Some(Box::new(move || {
            let mut reader = stephylax::TextReader::new(&mut library);
            for piece in black_box(&p.text).chunks(4096) {
                used(reader.piece(piece));
            }
            used(reader.end());
        })),
        plain: Some(Box::new(move || {
            let mut reader = text::Reader::start();
            for piece in black_box(&p.text).chunks(4096) {
                reader.piece(piece, &mut plain);
            }
            reader.end();
            used(reader.answer());
        })),
        floating: None,
    }
}

fn published_whole(p: &Planet) -> Measurement<'_> {
    let (mut library, mut plain) = (vec![0; p.file.len()], vec![0; p.file.len()]);
    Measurement {
        name: format!("published file read, {}, a byte", p.name),
        units: p.file.len() as f64,
        unit: "ns",
        per: NS,
        library: Some(Box::new(move || used(stephylax::read_published(black_box(&p.file), &mut library)))),
        plain: Some(Box::new(move || used(read_published(black_box(&p.file), &mut plain)))),
        floating: Some(Box::new(|| used(parsed_columns(black_box(&p.file))))),
    }
}

/// What a plain f64 program does with a published file: the three figures of every term parsed, by their columns.
fn parsed_columns(file: &[u8]) -> Vec<f64> {
    let file = std::str::from_utf8(file).expect("ASCII");
    let columns = |line: &str| [(79, 97), (97, 111), (111, 131)].map(|(first, end)| line[first..end].trim().parse());
    let terms = file.lines().filter(|line| !line.starts_with(" VSOP87"));
    terms.flat_map(columns).map(|figure| figure.expect("a number")).collect()
}

fn published_pieces(p: &Planet) -> Measurement<'_> {
    let mut library = vec![0; p.file.len()];
    Measurement {
        name: format!("published in pieces, {}, a byte", p.name),
        units: p.file.len() as f64,
        unit: "ns",
        per: NS,
        library: Some(Box::new(move || {
            let mut reader = stephylax::PublishedReader::new(&mut library);
            for piece in black_box(&p.file).chunks(4096) {
                used(reader.piece(piece));
            }
            used(reader.end());
        })),
        plain: None,
        floating: None,
    }
}

/// The published reader, the text reader on the same series as text, and the plain program for published files.
fn reading_speed(p: &Planet, rounds: usize) {
    let (mut library, mut text, mut plain) = (vec![0; p.file.len()], vec![0; p.text.len()], vec![0; p.file.len()]);
    let mut measurement = Measurement {
        name: format!("published file, {}", p.name),
        units: 1.0,
        unit: "MB/s",
        per: 1.0,
        library: Some(Box::new(move || used(stephylax::read_published(black_box(&p.file), &mut library)))),
        plain: Some(Box::new(move || used(stephylax::read_text(black_box(&p.text), &mut text)))),
        floating: Some(Box::new(move || used(read_published(black_box(&p.file), &mut plain)))),
    };
    let (name, unit) = (measurement.name.clone(), measurement.unit);
    let Some([library, text, plain]) = measurement.medians(rounds) else {
        return;
    };
    let speed = |bytes: &[u8], seconds: Option<f64>| Some(bytes.len() as f64 * 1e-6 / seconds?);
    let (library, text, plain) = (speed(&p.file, library), speed(&p.text, text), speed(&p.file, plain));
    let ratio = |other: Option<f64>| figure(library.zip(other).map(|(library, other)| library / other));
    line(&name, unit, [library, text, plain].map(figure), [text, plain].map(ratio));
}

/// The text as a mail program may leave it: each line ends with a carriage return too, and each space is a tab.
fn damaged(text: &[u8]) -> Vec<u8> {
    let text = std::str::from_utf8(text).expect("ASCII");
    text.replace('\n', "\r\n").replace(' ', "\t").into_bytes()
}

/// A text mended in one call with room enough, beside the text reader on the clean text, and mended by the plain program.
fn mending<'a>(name: String, p: &'a Planet, text: &'a [u8]) -> Measurement<'a> {
    let rooms = || (vec![0; text.len()], vec![0; 2 * text.len()]);
    let ((mut library, mut list), (mut plain, mut plain_list)) = (rooms(), rooms());
    let mut packed = vec![0; p.text.len()];
    Measurement {
        name,
        units: 1.0,
        unit: "us",
        per: US,
        library: Some(Box::new(move || used(stephylax::mend(black_box(text), &mut library, &mut list)))),
        plain: Some(Box::new(move || used(stephylax::read_text(black_box(&p.text), &mut packed)))),
        floating: Some(Box::new(move || used(mend(black_box(text), &mut plain, &mut plain_list)))),
    }
}

fn print(p: &Planet) -> Measurement<'_> {
    let (mut library, mut plain) = (vec![0; p.text.len()], vec![0; p.text.len()]);
    Measurement {
        name: format!("printed, {}, a byte of text", p.name),
        units: p.text.len() as f64,
        unit: "ns",
        per: NS,
        library: Some(Box::new(move || used(stephylax::print(black_box(&p.packed), &mut library)))),
        plain: Some(Box::new(move || used(plain::packed::print(black_box(&p.packed), &mut plain)))),
        floating: None,
    }
}

fn check(p: &Planet) -> Measurement<'_> {
    Measurement {
        name: format!("checked, {}, a packed byte", p.name),
        units: p.packed.len() as f64,
        unit: "ns",
        per: NS,
        library: Some(Box::new(|| used(stephylax::check(black_box(&p.packed))))),
        plain: Some(Box::new(|| used(plain::packed::check(black_box(&p.packed))))),
        floating: None,
    }
}

fn main() {
    let quick = std::env::args().any(|word| word == "--quick");
    let rounds = if quick { 5 } else { 15 };
    let list_rounds = if quick { 3 } else { 7 };
    let (mercury, venus, earth) = (planet("mercury"), planet("venus"), planet("earth"));
    line("medians", "unit", ["library", "plain", "f64"].map(String::from), ["to plain", "to f64"].map(String::from));
    for p in [&mercury, &venus] {
        coordinates(format!("coordinates, {}, a term", p.name), p, DAY).run(rounds);
        coordinates(format!("  the same instant again, {}", p.name), p, 0).run(rounds);
        place(format!("apparent place, {}", p.name), p, &earth, DAY).run(rounds);
        place(format!("  the same place again, {}", p.name), p, &earth, 0).run(rounds);
        list(format!("day's list, {}", p.name), p, &earth, 1440).run(list_rounds);
        read_whole(p).run(rounds);
        read_pieces(p).run(rounds);
        published_whole(p).run(rounds);
        published_pieces(p).run(rounds);
        print(p).run(rounds);
        check(p).run(rounds);
    }
    println!("\nHow many bytes are read in a second: a published file, the same as text, and published in plain Rust");
    line("", "", ["published", "text", "plain"].map(String::from), ["to text", "to plain"].map(String::from));
    for p in [&mercury, &venus, &earth] {
        reading_speed(p, rounds);
    }
    println!("\nHow long mending takes: the whole call, the text reader on the clean text, and mending in plain Rust");
    line("", "", ["mended", "text", "plain"].map(String::from), ["to text", "to plain"].map(String::from));
    for p in [&mercury, &venus] {
        let damaged = damaged(&p.text);
        mending(format!("mended, {}, as it is", p.name), p, &p.text).run(rounds);
        mending(format!("mended, {}, with returns and tabs", p.name), p, &damaged).run(rounds);
    }
    println!("\nHow a list grows with its minutes (Mercury)");
    for minutes in [1, 10, 60, 240, 720, 1440] {
        list(format!("list of {minutes} minutes"), &mercury, &earth, minutes).run(list_rounds);
    }
    println!("\nHow a list of 120 minutes grows with the terms of both series");
    for share in [0.05, 0.2, 0.5, 1.0] {
        let (p, e) = (shortened(&mercury, share), shortened(&earth, share));
        list(format!("{} terms", terms(&p) + terms(&e)), &p, &e, 120).run(list_rounds);
    }
}
