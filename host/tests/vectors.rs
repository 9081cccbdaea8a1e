//! The vectors of every public call.

mod common;

use common::calls::{Calls, Outcome, LIBRARY, PLAIN};
use common::{cut, expected, hash, numbers, packed_series, published, two_series, vectors, Fields, Random};

fn calendar(calls: &Calls) {
    for (number, line) in vectors("calendar_days.txt") {
        let fields = &mut Fields::of(&line);
        if fields.word() == "day" {
            let [year, month, day] = numbers(fields);
            let answer = (calls.day_of_date)(year, month, day);
            assert_eq!(answer, expected(fields, |fields| fields.number()), "line {number}: {line}");
        } else {
            let answer = (calls.date_of_day)(fields.number());
            assert_eq!(answer, expected(fields, numbers), "line {number}: {line}");
        }
        assert!(fields.done(), "line {number}: {line}");
    }
    for (number, line) in vectors("calendar_instants.txt") {
        let fields = &mut Fields::of(&line);
        if fields.word() == "t" {
            let answer = (calls.instant_of_date)(numbers(fields));
            assert_eq!(answer, expected(fields, |fields| fields.number()), "line {number}: {line}");
        } else {
            let answer = (calls.date_of_instant)(fields.number());
            assert_eq!(answer, expected(fields, numbers), "line {number}: {line}");
        }
        assert!(fields.done(), "line {number}: {line}");
    }
}

/// What an output holds beforehand.
const UNTOUCHED: u8 = 0xA5;

/// An input, the room for its packed form, and what must come of them.
struct Case<'a> {
    room: usize,
    input: &'a [u8],
    answer: Outcome<usize>,
    output: &'a [u8],
}

impl Case<'_> {
    /// The output that an answer must leave: what is packed, then the bytes that were there.
    fn is_answered(&self, read: impl Fn(&mut [u8]) -> Outcome<usize>) {
        let mut wanted = vec![UNTOUCHED; self.room];
        wanted[..self.output.len()].copy_from_slice(self.output);
        let mut packed = vec![UNTOUCHED; self.room];
        assert_eq!(read(&mut packed), self.answer);
        assert_eq!(packed, wanted);
    }
}

fn text_case(calls: &Calls, case: Case, random: &mut Random) {
    case.is_answered(|packed| (calls.read_text)(case.input, packed));
    let pieces = cut(case.input, random);
    case.is_answered(|packed| (calls.read_pieces)(&pieces, packed));
}

fn text(calls: &Calls) {
    let mut random = Random(1);
    for (number, line) in vectors("text.txt") {
        println!("line {number}: {line}");
        let fields = &mut Fields::of(&line);
        match fields.word() {
            "text" => {
                let (room, text) = (fields.number() as usize, fields.bytes());
                let answer = expected(fields, |fields| fields.number() as usize);
                text_case(calls, Case { room, input: &text, answer, output: &fields.bytes() }, &mut random);
            }
            "rule" => {
                let (room, text) = (fields.number() as usize, fields.repeated());
                let answer = expected(fields, |fields| fields.number() as usize);
                text_case(calls, Case { room, input: &text, answer, output: &fields.repeated() }, &mut random);
            }
            _ => {
                let (text, room) = (published(fields.word()), fields.number() as usize);
                let answer = expected(fields, |fields| fields.number() as usize);
                let mut packed = vec![0xA5; room];
                assert_eq!((calls.read_text)(&text, &mut packed), answer);
                let end = packed.iter().rposition(|&byte| byte != 0xA5).map_or(0, |at| at + 1);
                assert_eq!(hash(&packed[..end]), u64::from_str_radix(fields.word(), 16).unwrap());
                let wanted = packed[..end].to_vec();
                text_case(calls, Case { room, input: &text, answer, output: &wanted }, &mut random);
            }
        }
        assert!(fields.done());
    }
}

/// What a list of changes holds beforehand.
const UNTOUCHED_NUMBER: u64 = 0xA5A5_A5A5_A5A5_A5A5;

/// With just the room that it takes, and with more.
fn mending(calls: &Calls) {
    let mut cases = 0;
    for (number, line) in vectors("requests/c17_mend.txt") {
        let fields = &mut Fields::of(&line);
        let (input, output, count) = (fields.bytes(), fields.bytes(), fields.number() as usize);
        let changes: Vec<u64> = (0..2 * count).map(|_| fields.number() as u64).collect();
        let verdict = expected(fields, |fields| fields.number() as usize);
        assert!(fields.done(), "line {number}: {line}");
        for more in [0, 1, 5] {
            let (mut out, mut list) = (vec![UNTOUCHED; output.len() + more], vec![UNTOUCHED_NUMBER; 2 * count + more]);
            let answer = (calls.mend)(&input, &mut out, &mut list);
            assert_eq!(answer, Ok((output.len(), count, verdict)), "line {number}: {line}");
            let (clean, past) = out.split_at(output.len());
            assert!(clean == output && past.iter().all(|&byte| byte == UNTOUCHED), "line {number}: {line}");
            let (made, past) = list.split_at(2 * count);
            assert!(made == changes && past.iter().all(|&n| n == UNTOUCHED_NUMBER), "line {number}: {line}");
        }
        cases += 1;
    }
    assert_eq!(cases, 46);
}

/// Whole, cut at random, and, as all are short, cut in two at every place.
fn published_files(calls: &Calls) {
    let mut random = Random(2);
    let mut cases = 0;
    for (number, line) in vectors("requests/c11_published.txt") {
        println!("line {number}: {line}");
        let fields = &mut Fields::of(&line);
        let (room, input) = (fields.number() as usize, fields.bytes());
        let answer = expected(fields, |fields| fields.number() as usize);
        let case = Case { room, input: &input, answer, output: &fields.bytes() };
        case.is_answered(|packed| (calls.read_published)(&input, packed));
        for _ in 0..20 {
            let pieces = cut(&input, &mut random);
            case.is_answered(|packed| (calls.published_pieces)(&pieces, packed));
        }
        for at in 0..=input.len() {
            let (first, rest) = input.split_at(at);
            case.is_answered(|packed| (calls.published_pieces)(&[first, rest], packed));
        }
        assert!(fields.done());
        cases += 1;
    }
    assert_eq!(cases, 62);
}

fn packed(calls: &Calls) {
    for (number, line) in vectors("packed.txt") {
        let fields = &mut Fields::of(&line);
        let bytes = if fields.word() == "rule" { fields.repeated() } else { fields.bytes() };
        let answer = (calls.check)(&bytes).map(|(terms, _)| terms);
        assert_eq!(answer, expected(fields, |fields| fields.number()), "line {number}: {line}");
        assert!(fields.done(), "line {number}: {line}");
    }
}

fn goodness(calls: &Calls) {
    let mut cases = [0; 2];
    for (number, line) in vectors("goodness.txt") {
        let fields = &mut Fields::of(&line);
        let bytes = if fields.word() == "rule" { fields.repeated() } else { fields.bytes() };
        let wanted = expected(fields, |fields| (fields.number(), fields.number() == 1));
        assert_eq!((calls.check)(&bytes), wanted, "line {number}: {line}");
        assert!(fields.done(), "line {number}: {line}");
        if let Ok((_, wide)) = wanted {
            cases[wide as usize] += 1;
        }
    }
    assert_eq!(cases, [108, 135]);
}

fn print(calls: &Calls) {
    let series = packed_series();
    for (number, line) in vectors("print.txt") {
        let fields = &mut Fields::of(&line);
        let (named, bytes, room) = if fields.word() == "name" {
            let bytes = series[fields.word()].clone();
            (true, bytes, fields.number() as usize)
        } else {
            let room = fields.number() as usize;
            (false, fields.bytes(), room)
        };
        let mut text = vec![0xA5; room];
        let answer = (calls.print)(&bytes, &mut text);
        let wanted = expected(fields, |fields| fields.number() as usize);
        assert_eq!(answer, wanted, "line {number}: {line}");
        let length = wanted.unwrap_or(0);
        if wanted.is_ok() && named {
            assert_eq!(hash(&text[..length]), u64::from_str_radix(fields.word(), 16).unwrap(), "line {number}");
        } else if wanted.is_ok() {
            assert_eq!(text[..length], fields.bytes(), "line {number}: {line}");
        }
        assert!(text[length..].iter().all(|&byte| byte == 0xA5), "line {number}: {line}");
        assert!(fields.done(), "line {number}: {line}");
    }
}

fn coordinates(calls: &Calls) {
    let series = packed_series();
    for (number, line) in vectors("lbr.txt") {
        let fields = &mut Fields::of(&line);
        let bytes = if fields.word() == "name" { series[fields.word()].clone() } else { fields.bytes() };
        let answer = (calls.coordinates_at)(&bytes, fields.number());
        assert_eq!(answer, expected(fields, numbers), "line {number}: {line}");
        assert!(fields.done(), "line {number}: {line}");
    }
}

fn place(calls: &Calls) {
    let series = packed_series();
    for (number, line) in vectors("place.txt") {
        let fields = &mut Fields::of(&line);
        if line.starts_with("light") {
            continue;
        }
        let (planet, earth) = two_series(fields, &series);
        let t = fields.number();
        let answer = (calls.apparent_place)(&planet, &earth, t);
        let mount = (calls.mount_place)(&planet, &earth, t);
        let wanted = expected(fields, |fields| {
            let _: [i64; 11] = numbers(fields);
            numbers(fields)
        });
        assert_eq!(answer, wanted, "line {number}: {line}");
        let mount_wanted = match wanted {
            Ok(_) => Ok([0; 3].map(|_| u64::from_str_radix(fields.word(), 16).unwrap())),
            Err((refusal, _)) => Err(refusal),
        };
        assert_eq!(mount.map(|figures| figures.map(f64::to_bits)), mount_wanted, "line {number}: {line}");
        assert!(fields.done(), "line {number}: {line}");
    }
}

fn sun_list(calls: &Calls) {
    let series = packed_series();
    for (number, line) in vectors("sunlist.txt") {
        let fields = &mut Fields::of(&line);
        let (planet, earth) = two_series(fields, &series);
        let window = numbers(fields);
        let untouched = 0xA5A5_A5A5_A5A5_A5A5;
        let mut runs = vec![untouched; fields.number() as usize];
        let answer = (calls.sun_list)(&planet, &earth, window, &mut runs);
        let wanted = expected(fields, |fields| fields.number() as usize);
        assert_eq!(answer, wanted, "line {number}: {line}");
        let count = wanted.unwrap_or(0);
        let wanted_runs: Vec<u64> = (0..count).map(|_| fields.number() as u64).collect();
        assert_eq!(runs[..count], wanted_runs, "line {number}: {line}");
        assert!(runs[count..].iter().all(|&v| v == untouched), "line {number}: {line}");
        assert!(fields.done(), "line {number}: {line}");
    }
}

macro_rules! vectors_of {
    ($module:ident, $calls:expr) => {
        mod $module {
            #[test]
            fn calendar() {
                super::calendar(&$calls);
            }
            #[test]
            fn text() {
                super::text(&$calls);
            }
            #[test]
            fn mending() {
                super::mending(&$calls);
            }
            #[test]
            fn published_files() {
                super::published_files(&$calls);
            }
            #[test]
            fn packed() {
                super::packed(&$calls);
            }
            #[test]
            fn goodness() {
                super::goodness(&$calls);
            }
            #[test]
            fn print() {
                super::print(&$calls);
            }
            #[test]
            fn coordinates() {
                super::coordinates(&$calls);
            }
            #[test]
            fn place() {
                super::place(&$calls);
            }
            #[test]
            fn sun_list() {
                super::sun_list(&$calls);
            }
        }
    };
}

vectors_of!(plain, super::PLAIN);
vectors_of!(library, super::LIBRARY);
vectors_of!(raw, super::common::raw::RAW);
