//! Random input, long, short, good and damaged: the library, through the wrapper and through the C interface itself, and the
//! independent implementation must give the same answers and leave the same memory. A failure prints the input; the seed of each
//! test is fixed.

mod common;

use common::calls::{Outcome, LIBRARY, PLAIN};
use common::edges::Window;
use common::generate::{any_number, bodies, date, instant, packed, series, text, window_start};
use common::layouts::{filled, published_file};
use common::raw::RAW;
use common::{cut, hex, published, rounds, same, same_output, Random};
use reference::layout;
use reference::plain::packed::{pack, parse, Series, Term};
use reference::plain::sun_list::threshold;
use reference::plain::PARTS;

/// How often each refusal came, 0 for an answer: a test whose input never meets a case shows nothing of it.
#[derive(Default)]
struct Seen([u64; 18]);

impl Seen {
    fn note<A>(&mut self, outcome: &Outcome<A>) {
        let number = outcome.as_ref().map_or_else(|refusal| refusal.0, |_| 0);
        self.0[number as usize] += 1;
    }

    /// Each of these came, and often enough in a full run.
    fn all(&self, numbers: &[usize]) {
        println!("answers, then refusals 1 to 17: {:?}", self.0);
        for &number in numbers {
            assert!(rounds(100) == 1 || 40 <= self.0[number], "refusal {number} came {} times", self.0[number]);
        }
    }
}

#[test]
fn dates_and_day_numbers() {
    let mut random = Random(11);
    let mut seen = Seen::default();
    for _ in 0..rounds(400_000) {
        let [year, month, day, ms] = date(&mut random);
        let input = || format!("{year} {month} {day} {ms}");
        let answer = same(|calls| (calls.day_of_date)(year, month, day), input);
        seen.note(&same(|calls| (calls.instant_of_date)([year, month, day, ms]), input));
        if let Ok(n) = answer {
            assert_eq!((PLAIN.date_of_day)(n), Ok([year, month, day]), "{n}");
        }
        let n = if random.one_in(8) { any_number(&mut random) } else { random.between(-2, 5_373_486) };
        let _ = same(|calls| (calls.date_of_day)(n), || n.to_string());
        let t = instant(&mut random);
        if let Ok(date) = same(|calls| (calls.date_of_instant)(t), || t.to_string()) {
            assert_eq!((PLAIN.instant_of_date)(date), Ok(t), "{t}");
        }
    }
    seen.all(&[0, 1, 2]);
}

/// Every day number there is.
#[test]
fn every_day() {
    let step = if rounds(100) == 1 { 1000 } else { 1 };
    for n in (0..=5_373_484).step_by(step) {
        let [year, month, day] = (LIBRARY.date_of_day)(n).unwrap_or_else(|refusal| panic!("{n}: {refusal:?}"));
        assert_eq!((LIBRARY.day_of_date)(year, month, day), Ok(n), "{year} {month} {day}");
    }
}

#[test]
fn texts() {
    let mut random = Random(12);
    let mut seen = Seen::default();
    for _ in 0..rounds(150_000) {
        let text = text(&mut random);
        let needed = text.len() / 2;
        let room = if random.one_in(4) { random.below(needed as u64 + 2) as usize } else { needed + 40 };
        let fill = random.next() as u8;
        let input = || format!("room {room} text {}", hex(&text));
        let whole = same_output(&vec![fill; room], |calls, out| (calls.read_text)(&text, out), input);
        let pieces = cut(&text, &mut random);
        let input = || format!("room {room} pieces {:?}", pieces.iter().map(|piece| hex(piece)).collect::<Vec<_>>());
        let cut = same_output(&vec![fill; room], |calls, out| (calls.read_pieces)(&pieces, out), input);
        assert!(whole == cut, "whole and in {}", input());
        seen.note(&whole.0);
    }
    seen.all(&[0, 3, 4, 5, 6, 7, 8, 9]);
}

/// Published files with any bytes in their free columns, and with every kind of damage.
#[test]
fn published_files() {
    let mut random = Random(22);
    let mut seen = Seen::default();
    for _ in 0..rounds(30_000) {
        let file = published_file(&mut random);
        let room = if random.one_in(4) { random.below(200) as usize } else { file.len() / 4 + 40 };
        let whole = same_published(&file, room, &mut random);
        seen.note(&whole);
        // As many bytes as it takes do, and one less does not.
        if let (Ok(length), true) = (whole, random.one_in(8)) {
            assert_eq!(same_published(&file, length, &mut random), Ok(length), "{}", hex(&file));
            let less = same_published(&file, length - 1, &mut random);
            assert!(matches!(less, Err((7, _))), "{less:?} with one byte less: {}", hex(&file));
        }
    }
    seen.all(&[0, 3, 13, 14, 4, 5, 6, 7, 8, 9]);
}

/// The answer to a published file, whole and in pieces.
fn same_published(file: &[u8], room: usize, random: &mut Random) -> Outcome<usize> {
    let fill = random.next() as u8;
    let input = || format!("room {room} file {}", hex(file));
    let whole = same_output(&vec![fill; room], |calls, out| (calls.read_published)(file, out), input);
    let pieces = cut(file, random);
    let input = || format!("room {room} pieces {:?}", pieces.iter().map(|piece| hex(piece)).collect::<Vec<_>>());
    let cut = same_output(&vec![fill; room], |calls, out| (calls.published_pieces)(&pieces, out), input);
    assert!(whole == cut, "whole and in {}", input());
    whole.0
}

/// Every byte in every column of a heading and of a term, with short figures, long ones and negative ones.
#[test]
fn every_byte_in_every_column() {
    let step = if rounds(100) == 1 { 17 } else { 1 };
    let long = Term { a: 99_999 * PARTS, b: 9 * PARTS, c: 999_999 * PARTS };
    for term in
        [Term { a: 1, b: 2, c: 3 }, long, Term { a: -long.a, b: 1, c: -long.c }, Term { a: -1, b: 0, c: -PARTS }]
    {
        let mut series = Series::default();
        series.blocks[0] = vec![Term { a: 0, ..term }, term];
        let file = layout::published(&series);
        for (at, byte) in (0..file.len()).flat_map(|at| (0..=255).step_by(step).map(move |byte| (at, byte))) {
            let mut file = file.clone();
            file[at] = byte;
            let input = || format!("byte {byte} at {at} in {}", hex(&file));
            let _ = same_output(&[7; 80], |calls, out| (calls.read_published)(&file, out), input);
        }
    }
}

/// Lines that are longer than any that is published: a heading goes on with anything, a term with spaces.
#[test]
fn long_lines_of_published_files() {
    let mut random = Random(24);
    let mut series = Series::default();
    series.blocks[17] = vec![Term { a: PARTS, b: 0, c: 0 }];
    let mut lines = layout::records(&series, |_| true);
    for line in &mut lines {
        let free = if line.heading { b'9' } else { b' ' };
        line.line.resize(70_000 + random.below(9) as usize, free);
    }
    let file = layout::joined(&lines);
    assert_eq!(same_published(&file, 100, &mut random), Ok(26));
    let last = file.len() - 2;
    let damaged = [&file[..last], b"9\n"].concat();
    assert_eq!(same_published(&damaged, 100, &mut random), Err((3, last as i64)));
}

#[test]
fn packed_series_checked_and_printed() {
    let mut random = Random(13);
    let mut seen = Seen::default();
    for _ in 0..rounds(250_000) {
        let bytes = packed(&mut random);
        let _ = same(|calls| (calls.check)(&bytes), || hex(&bytes));
        let needed = match (PLAIN.print)(&bytes, &mut []) {
            Err((7, length)) => length as u64,
            _ => 60,
        };
        let room = if random.one_in(3) { random.below(needed + 2) } else { needed + random.below(3) } as usize;
        let input = || format!("room {room} packed {}", hex(&bytes));
        let before = vec![random.next() as u8; room];
        let (answer, printed) = same_output(&before, |calls, out| (calls.print)(&bytes, out), input);
        seen.note(&answer);
        if let Ok(length) = answer {
            let mut again = vec![0; bytes.len()];
            assert_eq!((LIBRARY.read_text)(&printed[..length], &mut again), Ok(bytes.len()), "{}", hex(&bytes));
            assert_eq!(again, bytes, "printed and read again");
        }
    }
    seen.all(&[0, 4, 5, 6, 7, 8, 9, 10]);
}

#[test]
fn coordinates() {
    let mut random = Random(14);
    let mut seen = Seen::default();
    for _ in 0..rounds(250_000) {
        let bytes = packed(&mut random);
        let t = instant(&mut random);
        let input = || format!("t {t} packed {}", hex(&bytes));
        seen.note(&same(|calls| (calls.coordinates_at)(&bytes, t), input));
    }
    seen.all(&[0, 2, 4, 5, 6, 8, 9, 10, 17]);
}

#[test]
fn places() {
    let mut random = Random(15);
    let mut seen = Seen::default();
    for _ in 0..rounds(60_000) {
        let (planet, earth) = bodies(&mut random);
        let t = instant(&mut random);
        let input = || format!("t {t} planet {} earth {}", hex(&planet), hex(&earth));
        seen.note(&same(|calls| (calls.apparent_place)(&planet, &earth, t), input));
        let _ = same(|calls| (calls.mount_place)(&planet, &earth, t).map(|m| m.map(f64::to_bits)), input);
    }
    seen.all(&[0, 2, 4, 5, 6, 8, 9, 10, 11, 17]);
}

/// Windows and bodies of any kind: every refusal, and lists that are mostly empty.
#[test]
fn sun_lists() {
    let mut random = Random(16);
    let mut seen = Seen::default();
    let mut listed = 0;
    for _ in 0..rounds(40_000) {
        let (planet, earth) = bodies(&mut random);
        let t0 = if random.one_in(4) { instant(&mut random) } else { window_start(&mut random) };
        let minutes = match random.below(40) {
            0 => any_number(&mut random),
            1 => random.pick(&[0, 1440, 1441, -1]),
            2 => random.between(1, 1440),
            _ => random.between(1, 60),
        };
        let keep_out = match random.below(20) {
            0 => any_number(&mut random),
            1 => random.pick(&[59, 60, 2700, 2701]),
            _ => random.between(60, 2700),
        };
        let room = if random.one_in(3) { random.below(6) } else { 1440 } as usize;
        let window = [t0, minutes, keep_out];
        let input = || format!("{window:?} room {room} planet {} earth {}", hex(&planet), hex(&earth));
        let before = vec![random.next(); room];
        let (answer, _) = same_output(&before, |calls, runs| (calls.sun_list)(&planet, &earth, window, runs), input);
        seen.note(&answer);
        listed += matches!(answer, Ok(count) if 0 < count) as u64;
    }
    seen.all(&[0, 2, 4, 5, 6, 7, 8, 9, 10, 11, 12, 17]);
    assert!(rounds(40_000) / 50 < listed, "the windows show too little: {listed}");
}

/// A window with all the room that a list may need, or now and then with as many numbers as it needs, or one less.
fn same_list(window: &Window, random: &mut Random) -> (Outcome<usize>, Vec<u64>) {
    let (planet, earth) = (pack(&window.planet), pack(&window.earth));
    let figures = [window.t0, window.minutes, window.keep_out];
    let list = |room: usize, fill: u64| {
        let input = || format!("{figures:?} room {room} planet {} earth {}", hex(&planet), hex(&earth));
        same_output(&vec![fill; room], |calls, runs| (calls.sun_list)(&planet, &earth, figures, runs), input)
    };
    let (answer, mut runs) = list(1440, random.next());
    let count = answer.unwrap_or(0);
    runs.truncate(count);
    if 0 < count && random.one_in(8) {
        assert_eq!(list(count, 0), (Ok(count), runs.clone()), "{figures:?} with room for {count} numbers");
        assert_eq!(list(count - 1, 7), (Err((7, count as i64)), vec![7; count - 1]), "{figures:?} with one less");
    }
    (answer, runs)
}

/// How many windows were tried, and how their lists lay in them.
#[derive(Debug, Default)]
struct Lists {
    windows: u64,
    partial: u64,
    several_runs: u64,
    near_threshold: u64,
    most_runs: usize,
}

impl Lists {
    fn try_all(windows: u64, random: &mut Random, draw: fn(&mut Random) -> Window) -> Lists {
        let mut lists = Lists { windows, ..Lists::default() };
        for _ in 0..windows {
            let window = draw(random);
            let (answer, runs) = same_list(&window, random);
            if answer.is_err() {
                continue;
            }
            let shape = window.shape(&runs);
            lists.partial += shape.partial as u64;
            lists.several_runs += (1 < shape.runs) as u64;
            lists.near_threshold += shape.near as u64;
            lists.most_runs = lists.most_runs.max(shape.runs);
        }
        println!("{lists:?}");
        lists
    }
}

/// Bodies that move and a threshold that they pass inside the window: three lists of four are partial and end within an
/// arcminute of the threshold, and one of three has several runs.
#[test]
fn sun_lists_at_their_edges() {
    let lists = Lists::try_all(rounds(16_000), &mut Random(19), Window::of_movement);
    assert!(3 * lists.windows < 4 * lists.partial, "{lists:?}");
    assert!(lists.windows < 3 * lists.several_runs, "{lists:?}");
    assert!(3 * lists.windows < 4 * lists.near_threshold, "{lists:?}");
}

/// Bodies that stay at the threshold, where the last digit of a cosine, a root or a quotient decides: three lists of four have
/// several runs, and a long one has hundreds.
#[test]
fn sun_lists_that_rounding_decides() {
    let lists = Lists::try_all(rounds(8_000), &mut Random(20), Window::of_rounding);
    assert!(3 * lists.windows < 4 * lists.several_runs, "{lists:?}");
    assert!(rounds(100) == 1 || 300 < lists.most_runs, "{lists:?}");
}

/// A squared separation that is the threshold itself is listed, and the minute before or after it, a billionth of a radian
/// farther out, is not: for every keep-out there is.
#[test]
fn sun_lists_on_the_threshold() {
    let mut random = Random(21);
    let step = if rounds(100) == 1 { 100 } else { 1 };
    for keep_out in (60..=2700).step_by(step) {
        let sides = random.between(6, 60);
        for (growing, runs) in [(1, [0, 4]), (-1, [4, 8])] {
            let window = Window::at_the_threshold(keep_out, sides, 0, growing);
            assert_eq!(window.squared_separation(4), Some(threshold(keep_out)), "keep-out {keep_out} sides {sides}");
            assert_eq!(same_list(&window, &mut random), (Ok(2), runs.to_vec()), "keep-out {keep_out} sides {sides}");
        }
    }
}

/// Long input: as many terms as a block and a series can have, and one more.
#[test]
fn long_series() {
    let mut random = Random(17);
    for _ in 0..rounds(40).max(2) {
        let mut long = series(&mut random);
        let constant = random.one_in(2);
        let first = random.below(18) as usize;
        for (block, count) in [(first, 4096), ((first + 7) % 18, random.pick(&[4090, 4096, 4097]))] {
            let term = Term { a: 1, b: !constant as i64, c: 0 };
            long.blocks[block] = vec![term; count];
        }
        long_case(&pack(&long), &long, &mut random);
    }
}

fn long_case(bytes: &[u8], long: &Series, random: &mut Random) {
    let input = || format!("counts {:?}", long.blocks.iter().map(Vec::len).collect::<Vec<_>>());
    let _ = same(|calls| (calls.check)(bytes), input);
    let t = instant(random);
    let _ = same(|calls| (calls.coordinates_at)(bytes, t), input);
    let (printed, text) = same_output(&vec![0x5A; 600_000], |calls, out| (calls.print)(bytes, out), input);
    if let Ok(length) = printed {
        let pieces = cut(&text[..length], random);
        same_output(&vec![1; 50_000], |calls, out| (calls.read_pieces)(&pieces, out), input).0.unwrap();
    }
}

/// Series that are laid out as published, with any bytes in the free columns, give the packed bytes of their texts.
#[test]
fn planets_as_published() {
    let mut random = Random(23);
    for (planet, length) in [("mercury", 103_809), ("venus", 26_247), ("earth", 37_786)] {
        let mut wanted = vec![0xA5; 120_000];
        assert_eq!((LIBRARY.read_text)(&published(planet), &mut wanted), Ok(length), "{planet}");
        let series = parse(&wanted[..length]).expect("what was packed is good");
        let mut files = vec![layout::published(&series)];
        files.extend((0..rounds(5)).map(|_| layout::joined(&filled(&mut random, &series))));
        for file in files {
            let mut packed = vec![0xA5; 120_000];
            assert_eq!((LIBRARY.read_published)(&file, &mut packed), Ok(length), "{planet}");
            assert!(packed == wanted, "{planet}");
            let mut packed = vec![0xA5; 120_000];
            assert_eq!((RAW.published_pieces)(&cut(&file, &mut random), &mut packed), Ok(length), "{planet}");
            assert!(packed == wanted, "{planet}, cut");
        }
    }
}

/// The published texts in random cuttings.
#[test]
fn published_texts_in_pieces() {
    let mut random = Random(18);
    for planet in ["mercury", "venus", "earth"] {
        let text = published(planet);
        let mut whole = vec![0xA5; 120_000];
        let length = (PLAIN.read_text)(&text, &mut whole).unwrap();
        for _ in 0..rounds(10) {
            let pieces = cut(&text, &mut random);
            let mut packed = vec![0xA5; 120_000];
            assert_eq!((LIBRARY.read_pieces)(&pieces, &mut packed), Ok(length), "{planet}");
            assert_eq!(packed, whole, "{planet}");
        }
    }
}
