//! What the tests share: the repository's files, the fields of a vector line, a random source, and answers compared.
#![allow(dead_code)]

pub mod calls;
pub mod coarse;
pub mod damage;
pub mod edges;
pub mod generate;
pub mod layouts;
pub mod raw;

use calls::{Calls, Outcome, LIBRARY, PLAIN};
use raw::RAW;
use std::collections::{BTreeMap, HashMap};
use std::fmt::Debug;
use std::path::PathBuf;

pub fn repository(path: &str) -> PathBuf {
    PathBuf::from(env!("CARGO_MANIFEST_DIR")).join("..").join(path)
}

/// The case lines of a vector file, with their line numbers.
pub fn vectors(name: &str) -> Vec<(usize, String)> {
    let path = repository("vectors").join(name);
    let text = std::fs::read_to_string(&path).unwrap_or_else(|error| panic!("{}: {error}", path.display()));
    let lines = text.lines().enumerate().map(|(i, line)| (i + 1, line.to_string()));
    lines.filter(|(_, line)| !line.starts_with('#') && !line.is_empty()).collect()
}

/// The published series of a planet, as text.
pub fn published(planet: &str) -> Vec<u8> {
    let path = repository("data/vsop87d").join(format!("{planet}.txt"));
    std::fs::read(&path).unwrap_or_else(|error| panic!("{}: {error}", path.display()))
}

/// The fields of a case line, taken from left to right.
pub struct Fields<'a> {
    words: std::str::SplitAsciiWhitespace<'a>,
}

impl<'a> Fields<'a> {
    pub fn of(line: &'a str) -> Fields<'a> {
        Fields { words: line.split_ascii_whitespace() }
    }

    pub fn word(&mut self) -> &'a str {
        self.words.next().expect("a field more")
    }

    pub fn number(&mut self) -> i64 {
        self.word().parse().expect("a number of 64 bits")
    }

    pub fn bytes(&mut self) -> Vec<u8> {
        unhex(self.word())
    }

    /// N, then N times how often and which bytes.
    pub fn repeated(&mut self) -> Vec<u8> {
        let n = self.number();
        let mut bytes = Vec::new();
        for _ in 0..n {
            let times = self.number() as usize;
            bytes.extend(self.bytes().repeat(times));
        }
        bytes
    }

    pub fn done(&mut self) -> bool {
        self.words.next().is_none()
    }
}

/// A number of refusal and its figure, or 0 and what `answer` reads.
pub fn expected<A>(fields: &mut Fields, answer: impl FnOnce(&mut Fields) -> A) -> Outcome<A> {
    match fields.number() {
        0 => Ok(answer(fields)),
        number => Err((number as u64, fields.number())),
    }
}

pub fn numbers<const N: usize>(fields: &mut Fields) -> [i64; N] {
    [0; N].map(|_| fields.number())
}

/// The packed form of each published series.
pub fn packed_series() -> HashMap<&'static str, Vec<u8>> {
    let mut all = HashMap::new();
    for planet in ["mercury", "venus", "earth"] {
        let mut packed = vec![0; 200_000];
        let length = (PLAIN.read_text)(&published(planet), &mut packed).expect("the published series is good");
        packed.truncate(length);
        all.insert(planet, packed);
    }
    all
}

/// The planet's and Earth's series of a line that begins with `name PLANET` or `hex PLANET EARTH`.
pub fn two_series(fields: &mut Fields, published: &HashMap<&str, Vec<u8>>) -> (Vec<u8>, Vec<u8>) {
    match fields.word() {
        "name" => (published[fields.word()].clone(), published["earth"].clone()),
        _ => (fields.bytes(), fields.bytes()),
    }
}

pub fn unhex(word: &str) -> Vec<u8> {
    if word == "-" {
        return Vec::new();
    }
    let digits = word.as_bytes();
    assert!(digits.len().is_multiple_of(2), "an even number of hex digits");
    let digit = |d: u8| (d as char).to_digit(16).expect("a hex digit") as u8;
    digits.chunks(2).map(|pair| 16 * digit(pair[0]) + digit(pair[1])).collect()
}

pub fn hex(bytes: &[u8]) -> String {
    if bytes.is_empty() {
        return "-".to_string();
    }
    bytes.iter().map(|byte| format!("{byte:02x}")).collect()
}

/// 64-bit FNV-1a.
pub fn hash(bytes: &[u8]) -> u64 {
    bytes.iter().fold(0xcbf29ce484222325, |h, &byte| (h ^ byte as u64).wrapping_mul(0x100000001b3))
}

/// A small random source (xorshift64*), so that a failing run can be repeated from its seed.
pub struct Random(pub u64);

impl Random {
    pub fn next(&mut self) -> u64 {
        self.0 ^= self.0 >> 12;
        self.0 ^= self.0 << 25;
        self.0 ^= self.0 >> 27;
        self.0.wrapping_mul(0x2545F4914F6CDD1D)
    }

    /// From 0 to n - 1.
    pub fn below(&mut self, n: u64) -> u64 {
        self.next() % n
    }

    pub fn between(&mut self, low: i64, high: i64) -> i64 {
        low + self.below((high - low + 1) as u64) as i64
    }

    pub fn one_in(&mut self, n: u64) -> bool {
        self.below(n) == 0
    }

    pub fn pick<T: Copy>(&mut self, from: &[T]) -> T {
        from[self.below(from.len() as u64) as usize]
    }
}

/// A text cut at random into pieces, some of them empty.
pub fn cut<'a>(text: &'a [u8], random: &mut Random) -> Vec<&'a [u8]> {
    let mut pieces = Vec::new();
    let mut rest = text;
    let longest = random.pick(&[1, 2, 7, 60, 5000]);
    while !rest.is_empty() {
        let length = (random.below(longest + 1) as usize).min(rest.len());
        let (piece, after) = rest.split_at(length);
        pieces.push(piece);
        rest = after;
    }
    pieces
}

/// How many inputs a test tries: a hundredth where STEPHYLAX_SHORT is set, as under a memory checker.
pub fn rounds(n: u64) -> u64 {
    if std::env::var_os("STEPHYLAX_SHORT").is_some() {
        return n.div_ceil(100);
    }
    n
}

/// How often each kind of case came: a test whose input never meets a kind shows nothing of it.
#[derive(Debug, Default)]
pub struct Met(BTreeMap<&'static str, u64>);

impl Met {
    pub fn note(&mut self, kind: &'static str, met: bool) {
        *self.0.entry(kind).or_default() += met as u64;
    }

    /// Each kind that was looked for came, and often enough in a full run.
    pub fn all(&self) {
        println!("{:?}", self.0);
        assert!(rounds(100) == 1 || self.0.values().all(|&count| 40 <= count), "{:?}", self.0);
    }
}

/// Runs a call of the library, through the wrapper and through the C interface, and of the independent implementation: the answer
/// that all three agree on.
pub fn same<A: PartialEq + Debug>(call: impl Fn(&Calls) -> A, input: impl Fn() -> String) -> A {
    let wanted = call(&PLAIN);
    for calls in [&LIBRARY, &RAW] {
        let answer = call(calls);
        if answer != wanted {
            panic!("{} {answer:?}\nplain {wanted:?}\ninput {}", calls.name, input());
        }
    }
    wanted
}

/// The same for a call with output: all begin with what `before` holds, and must leave the same in it.
pub fn same_output<T: Copy + PartialEq + Debug>(
    before: &[T],
    call: impl Fn(&Calls, &mut [T]) -> Outcome<usize>,
    input: impl Fn() -> String,
) -> (Outcome<usize>, Vec<T>) {
    let run = |calls: &Calls| {
        let mut output = before.to_vec();
        (call(calls, &mut output), output)
    };
    same(run, input)
}
