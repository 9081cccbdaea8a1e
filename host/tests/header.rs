//! include/stephylax.h against the library: C and C++ programs read the answers that Rust reads, a dropped answer is warned of,
//! and the refusals have the host's names and numbers.

mod common;

use common::repository;
use std::fmt::Write;
use std::path::PathBuf;
use std::process::{Command, Output};
use stephylax::ffi;
use stephylax::Refusal;

/// The compilers and the language that each is told: C99, C++ before and after it has the mark of its own.
const COMPILERS: [(&str, &[&str]); 3] =
    [("gcc", &["-std=c99", "-pedantic"]), ("g++", &["-std=c++11", "-x", "c++"]), ("g++", &["-std=c++17", "-x", "c++"])];

/// Those of them that are here; a machine need not have C++.
fn compilers() -> Vec<(&'static str, &'static [&'static str])> {
    let here = |compiler: &str| compiler == "gcc" || Command::new(compiler).arg("--version").output().is_ok();
    COMPILERS.into_iter().filter(|(compiler, _)| here(compiler)).collect()
}

/// Compiles a file of `tests/c` to `output`, with every warning an error.
fn compiled(compiler: &str, language: &[&str], name: &str, more: &[&str], output: &PathBuf) -> Output {
    let mut command = Command::new(compiler);
    command.args(language).args(["-Wall", "-Wextra", "-Werror", "-O2"]).arg("-I").arg(repository("include"));
    command.arg(repository("host/tests/c").join(name)).args(["-x", "none"]).args(more).arg("-o").arg(output);
    command.output().unwrap_or_else(|error| panic!("{compiler} runs: {error}"))
}

fn temporary(name: &str) -> PathBuf {
    PathBuf::from(env!("CARGO_TARGET_TMPDIR")).join(name)
}

/// What tests/c/every_function.c prints, by the host's own declarations.
#[derive(Default)]
struct Printed(String);

impl Printed {
    fn line<const N: usize>(&mut self, name: &str, refusal: u64, figure: i64, fields: [i64; N]) {
        write!(self.0, "\n{name} {refusal} {figure}").unwrap();
        fields.iter().for_each(|field| write!(self.0, " {field}").unwrap());
    }

    fn date(&mut self, name: &str, d: ffi::Date) {
        self.line(name, d.refusal, d.figure, [d.year, d.month, d.day, d.ms]);
    }

    // SAFETY, here and below: every function takes every number, and every slice is lent for the call with its length.
    fn calendar(&mut self, year: i64, month: i64, day: i64, ms: i64) {
        unsafe {
            let n = ffi::stephylax_day_of_date(year, month, day);
            self.line("day_of_date", n.refusal, n.figure, [n.day_number]);
            self.date("date_of_day", ffi::stephylax_date_of_day(n.day_number - 1));
            let i = ffi::stephylax_instant_of_date(year, month, day, ms);
            self.line("instant_of_date", i.refusal, i.figure, [i.t]);
            self.date("date_of_instant", ffi::stephylax_date_of_instant(i.t));
        }
    }

    fn pieces(&mut self) {
        let (zero, mut packed) = ("0\n".repeat(12), [0; 100]);
        let (zero, out, room) = (zero.as_ptr(), packed.as_mut_ptr(), packed.len());
        unsafe {
            let start = ffi::stephylax_text_start();
            let most = ffi::stephylax_text_piece(start, zero, 24, out, room);
            let all = ffi::stephylax_text_piece(most, zero, 12, out, room);
            let ended = ffi::stephylax_text_end(all, out, room);
            for state in [start, all, ended, ffi::stephylax_text_end(start, out, room)] {
                let a = ffi::stephylax_text_answer(state);
                self.line("text_answer", a.refusal, a.figure, [a.length, a.accepted]);
            }
        }
    }

    fn mend(&mut self, text: &str, numbers: usize) {
        let (mut out, mut changes) = ([b'.'; 40], [9; 8]);
        let (list, room) = (changes.as_mut_ptr(), out.len());
        let m = unsafe { ffi::stephylax_mend(text.as_ptr(), text.len(), out.as_mut_ptr(), room, list, numbers) };
        self.line("mend", m.refusal, m.figure, [m.length, m.changes, m.verdict as i64, m.place]);
        changes.iter().for_each(|number| write!(self.0, " {number}").unwrap());
        out[36..].iter().for_each(|byte| write!(self.0, " {byte}").unwrap());
    }

    fn published(&mut self, coordinate: i64) {
        let (e, mut packed) = ("", [0; 100]);
        let figures = format!("{:>18}{:>14}{:>20}", "0.40000000000", "0.00000000000", "0.00000000000");
        let file = format!("{e:17}4{e:23}{coordinate}{e:17}0{:7}\n{:10}{e:69}{figures}\n", 1, 1);
        let (file, n, out, room) = (file.as_ptr(), file.len(), packed.as_mut_ptr(), packed.len());
        unsafe {
            let w = ffi::stephylax_read_published(file, n, out, room);
            self.line("read_published", w.refusal, w.figure, [w.length]);
            let start = ffi::stephylax_published_start();
            let some = ffi::stephylax_published_piece(start, file, 100, out, room);
            let all = ffi::stephylax_published_piece(some, file.add(100), n - 100, out, room);
            let ended = [some, all].map(|state| ffi::stephylax_published_end(state, out, room));
            for state in [start, some, ended[0], all, ended[1]] {
                let a = ffi::stephylax_published_answer(state);
                self.line("published_answer", a.refusal, a.figure, [a.length, a.accepted]);
            }
        }
        packed[..22].iter().for_each(|byte| write!(self.0, " {byte}").unwrap());
    }

    fn body(&mut self, radius: &str) -> Vec<u8> {
        let (first, last) = ("0\n".repeat(12), "0\n".repeat(5));
        let text = format!("{first}1\n{radius} 0.00000000000 0.00000000000\n{last}");
        let mut packed = vec![0; 100];
        let w = unsafe { ffi::stephylax_read_text(text.as_ptr(), text.len(), packed.as_mut_ptr(), packed.len()) };
        self.line("read_text", w.refusal, w.figure, [w.length]);
        packed.truncate(w.length as usize);
        packed
    }

    fn series(&mut self, packed: &[u8], t: i64) {
        let mut text = [0; 200];
        unsafe {
            let c = ffi::stephylax_check(packed.as_ptr(), packed.len());
            self.line("check", c.refusal, c.figure, [c.terms, c.wide]);
            let w = ffi::stephylax_print(packed.as_ptr(), packed.len(), text.as_mut_ptr(), text.len());
            self.line("print", w.refusal, w.figure, [w.length]);
            let c = ffi::stephylax_coordinates_at(packed.as_ptr(), packed.len(), t);
            self.line("coordinates_at", c.refusal, c.figure, [c.longitude, c.latitude, c.radius]);
        }
    }

    fn places(&mut self, planet: &[u8], earth: &[u8], t: i64) {
        let (p, np, e, ne, mut runs) = (planet.as_ptr(), planet.len(), earth.as_ptr(), earth.len(), [7; 4]);
        unsafe {
            let a = ffi::stephylax_apparent_place(p, np, e, ne, t);
            self.line("apparent_place", a.refusal, a.figure, [a.right_ascension, a.declination, a.distance]);
            let m = ffi::stephylax_mount_place(p, np, e, ne, t);
            self.line("mount_place", m.refusal, 0, []);
            write!(self.0, " {} {} {}", m.right_ascension, m.declination, m.distance).unwrap();
            let w = ffi::stephylax_sun_list(p, np, e, ne, t, 10, 60, runs.as_mut_ptr(), runs.len());
            self.line("sun_list", w.refusal, w.figure, [w.length, runs[0] as i64, runs[1] as i64]);
        }
    }
}

/// Texts that tests/c/every_function.c mends, and how many numbers there are for their changes.
const MENDED: [(&str, usize); 3] =
    [("0\r\n\n0\n0\n0\n0\n0\n0\n0\n0\n0\n0\n0\n0\n0\n0\n0\n0\n0\n", 8), ("0 \t\n0\t5\n", 8), ("0 \t\n0\t5\n", 5)];

fn expected() -> String {
    let mut printed = Printed::default();
    printed.calendar(2019, 11, 11, 5);
    printed.calendar(1582, 10, 10, 5);
    printed.calendar(9999, 12, 31, 5);
    printed.pieces();
    for (text, numbers) in MENDED {
        printed.mend(text, numbers);
    }
    printed.published(3);
    printed.published(4);
    let planet = printed.body("0.40000000000");
    let earth = printed.body("1.00000000000");
    printed.series(&planet, 1);
    printed.series(&planet[..3], 1);
    let far = printed.body("50000.00000000000");
    printed.series(&far, 126_230_400_000_000);
    let far = printed.body("99999.00000000000");
    printed.series(&far, -63_115_200_000_001);
    printed.places(&planet, &earth, 0);
    printed.places(&earth, &earth, 0);
    printed.0 + "\n"
}

/// The same words, and numbers with a point the same double, however it is printed.
fn assert_same(printed: &str, expected: &str) {
    for (line, wanted) in printed.lines().zip(expected.lines()) {
        let double =
            |word: &str| if word.contains('.') { word.parse::<f64>().unwrap().to_string() } else { word.into() };
        let words: Vec<String> = line.split(' ').map(double).collect();
        assert_eq!(words.join(" "), wanted);
    }
    assert_eq!(printed.lines().count(), expected.lines().count());
}

#[test]
fn every_function() {
    let expected = expected();
    let of_texts = ["text_answer 0 0 18 0", "text_answer 0 0 18 1", "text_answer 8 0 0 0"];
    let of_files = [
        "published_answer 0 0 13 0",
        "published_answer 8 100 0 0",
        "published_answer 0 0 26 1",
        "published_answer 13 67 0 0",
    ];
    let of_mended =
        ["mend 0 0 36 2 0 18 1 0 3 0 9", "mend 0 0 6 3 3 3 1 0 2 0 5 1 9 9 46", "mend 7 3 0 0 0 0 9 9 9 9 9 9 9 9 46"];
    let of_range = [
        "check 0 0 1 1",
        "coordinates_at 0 0 0 0 5000000000000000",
        "check 0 0 1 0",
        "coordinates_at 17 -63115200000001 0 0 0",
    ];
    for wanted in [&of_texts[..], &of_mended, &of_files, &of_range, &["sun_list 0 0 2 0 9"]].concat() {
        assert!(expected.contains(wanted), "{wanted} is not in{expected}");
    }
    let archive = repository("target/staticlib/libstephylax.a");
    for (i, (compiler, language)) in compilers().into_iter().enumerate() {
        let program = temporary(&format!("every_function_{i}"));
        let built = compiled(compiler, language, "every_function.c", &[archive.to_str().unwrap()], &program);
        assert!(built.status.success(), "{compiler} {language:?}: {}", String::from_utf8_lossy(&built.stderr));
        let run = Command::new(&program).output().expect("the program runs");
        assert!(run.status.success());
        assert_same(&String::from_utf8_lossy(&run.stdout), &expected);
    }
}

/// Each line that drops an answer is refused, and nothing else is.
#[test]
fn dropped_answers() {
    let source = std::fs::read_to_string(repository("host/tests/c/dropped.c")).unwrap();
    let calls: Vec<usize> =
        (1..).zip(source.lines()).filter(|(_, l)| l.starts_with("    stephylax_")).map(|(i, _)| i).collect();
    let header = std::fs::read_to_string(repository("include/stephylax.h")).unwrap();
    assert_eq!(header.matches("\nSTEPHYLAX_MUST_USE\n").count(), calls.len(), "the file does not drop every answer");
    for (i, (compiler, language)) in compilers().into_iter().enumerate() {
        let object = temporary(&format!("dropped_{i}.o"));
        let built = compiled(compiler, language, "dropped.c", &["-c"], &object);
        assert!(!built.status.success(), "{compiler} {language:?} takes a dropped answer");
        let said = String::from_utf8_lossy(&built.stderr);
        let errors = said.lines().filter(|line| line.contains(": error: "));
        let refused: Vec<usize> = errors.map(|line| line.split(':').nth(1).unwrap().parse().unwrap()).collect();
        assert_eq!(refused, calls, "{compiler} {language:?}: {said}");
    }
}

/// `enum stephylax_refusal` has each case of the host's enum, with its name in capitals and its number.
#[test]
fn names_of_refusals() {
    let header = std::fs::read_to_string(repository("include/stephylax.h")).unwrap();
    let body = header.split("enum stephylax_refusal {").nth(1).expect("the enum").split("};").next().unwrap();
    let named: Vec<(String, u64)> = body
        .split(',')
        .map(|item| {
            let (name, number) = item.trim().split_once(" = ").expect("a name and a number");
            (name.to_string(), number.parse().unwrap())
        })
        .collect();
    let mut wanted = vec![("STEPHYLAX_ANSWERED".to_string(), 0)];
    for number in (1..=14).chain([17]) {
        let figure = i64::from(number == 1);
        let case = format!("{:?}", Refusal::of(number, figure));
        let mut name = "STEPHYLAX".to_string();
        for letter in case.split('(').next().unwrap().chars() {
            if letter.is_uppercase() {
                name.push('_');
            }
            name.push(letter.to_ascii_uppercase());
        }
        wanted.push((name, number));
    }
    assert_eq!(named, wanted);
}
