//! Series: what a word asks for, how it is read, and what is told of it.

use crate::data;
use crate::failure::{Failure, Remedy};
use crate::json::Json;
use crate::output::read;
use crate::tables::{counted, parted};
use std::path::{Path, PathBuf};
use stephylax::{Checked, Refusal};

#[derive(Clone, Copy, PartialEq)]
pub enum Kind {
    Text,
    Published,
    Packed,
}

impl Kind {
    pub fn word(self) -> &'static str {
        match self {
            Kind::Text => "text",
            Kind::Published => "published",
            Kind::Packed => "packed",
        }
    }

    /// The kind that a word means.
    fn of(word: &str) -> Option<Kind> {
        [Kind::Text, Kind::Published, Kind::Packed].into_iter().find(|kind| kind.word() == word)
    }
}

pub struct Series {
    /// What to call it.
    pub name: String,
    /// Where it was read from.
    pub file: String,
    pub kind: Kind,
    pub packed: Vec<u8>,
    /// What the library says of it, if it is good.
    pub checked: Option<Checked>,
}

/// What a word asks for.
#[derive(PartialEq)]
enum Asked {
    Planet(String),
    /// A file, or `-`; its kind, if the word says it.
    File(PathBuf, Option<Kind>),
}

const STANDARD_INPUT: &str = "-";

/// The kind that a word begins with, if it tells one, and the file after it.
pub fn told(word: &str) -> Result<(&str, Option<Kind>), Failure> {
    match word.split_once(':').and_then(|(kind, path)| Some((path, Kind::of(kind)?))) {
        Some(("", _)) => Err(Failure::Use(format!("`{word}` wants a file name"))),
        Some((path, kind)) => Ok((path, Some(kind))),
        None => Ok((word, None)),
    }
}

fn asked(word: &str) -> Result<Asked, Failure> {
    let (path, kind) = told(word)?;
    if kind.is_some() || word == STANDARD_INPUT || word.contains('/') {
        return Ok(Asked::File(PathBuf::from(path), kind));
    }
    if !word.is_empty() && word.bytes().all(|byte| byte.is_ascii_alphabetic()) {
        return Ok(Asked::Planet(word.to_ascii_lowercase()));
    }
    Err(Failure::Use(format!("`{word}` is not a planet's name; a file is given with its path, as ./{word}")))
}

/// Wrong use if two of these words ask for the same series.
pub fn judge_different(words: &[&str]) -> Result<(), Failure> {
    let asked: Vec<Asked> = words.iter().map(|word| asked(word)).collect::<Result<_, _>>()?;
    match (1..asked.len()).find(|&i| asked[..i].contains(&asked[i])) {
        Some(i) => Err(Failure::Use(format!("`{}` is named twice", words[i]))),
        None => Ok(()),
    }
}

/// The series of these words, in their order: planets by name from the folder `data`, or files.
pub fn all(words: &[&str], data: Option<&str>) -> Result<Vec<Series>, Failure> {
    let asked: Vec<Asked> = words.iter().map(|word| asked(word)).collect::<Result<_, _>>()?;
    let from_input = |asked: &&Asked| matches!(asked, Asked::File(path, _) if path == Path::new(STANDARD_INPUT));
    if 1 < asked.iter().filter(from_input).count() {
        return Err(Failure::Use("standard input can be one series only".to_string()));
    }
    asked.into_iter().map(|asked| one(asked, data)).collect()
}

fn one(asked: Asked, data: Option<&str>) -> Result<Series, Failure> {
    match asked {
        Asked::Planet(name) => planet(&name, data),
        Asked::File(path, kind) => {
            let bytes = read(&path)?;
            of_bytes(short_name(&path), &path, kind.unwrap_or(kind_of(&bytes)), bytes)
        }
    }
}

fn planet(name: &str, data: Option<&str>) -> Result<Series, Failure> {
    let (path, kind) = data::file(&data::folder(data)?, name)?;
    of_bytes(format!("{}{}", name[..1].to_ascii_uppercase(), &name[1..]), &path, kind, read(&path)?)
}

/// A file whose first line has the columns of a published heading is a published one. No text has a control byte other than white
/// space; bytes from 128 up stand in texts of many kinds. So a damaged text, or one with a word too many, is never taken as packed.
pub fn kind_of(bytes: &[u8]) -> Kind {
    let in_texts = |byte: &u8| !byte.is_ascii_control() || (b'\t'..=b'\r').contains(byte);
    if is_published(bytes) {
        Kind::Published
    } else if bytes.iter().all(in_texts) {
        Kind::Text
    } else {
        Kind::Packed
    }
}

/// A digit stands in columns 18, 42 and 60, and a number on the right of columns 61 to 67.
pub fn is_published(bytes: &[u8]) -> bool {
    let line = bytes.split(|&byte| byte == b'\n').next().unwrap_or(&[]);
    let Some(count) = line.get(60..67) else {
        return false;
    };
    let is_digit = |byte: &u8| byte.is_ascii_digit();
    let mut number = count.iter().skip_while(|&&byte| byte == b' ');
    [18, 42, 60, 67].iter().all(|column| is_digit(&line[column - 1])) && number.all(is_digit)
}

/// The series of a file's bytes.
pub fn of_bytes(name: String, path: &Path, kind: Kind, bytes: Vec<u8>) -> Result<Series, Failure> {
    let mut series = Series { name, file: shown(path), kind, packed: bytes, checked: None };
    if kind != Kind::Packed {
        series.packed = packed(kind, &series.packed).map_err(|refusal| {
            let remedy = remedy(kind, &series.packed, refusal);
            Failure::Refused { refusal, at: Some(series.blame()), remedy }
        })?;
    }
    series.checked = stephylax::check(&series.packed).ok();
    Ok(series)
}

/// The packed form, which is always shorter than a text or a published file, but for eighteen counts.
fn packed(kind: Kind, bytes: &[u8]) -> Result<Vec<u8>, Refusal> {
    let mut packed = vec![0; bytes.len() + 18];
    let read = if kind == Kind::Published { stephylax::read_published } else { stephylax::read_text };
    let length = read(bytes, &mut packed)?;
    packed.truncate(length);
    Ok(packed)
}

/// What to do about bytes that are refused, if that is known. Mending is for texts, and is named only where the library accepts
/// the mended text.
fn remedy(kind: Kind, bytes: &[u8], refusal: Refusal) -> Option<Remedy> {
    if kind == Kind::Text && stephylax::mended(bytes).verdict.is_ok() {
        return Some(Remedy::Mend);
    }
    is_carriage_return(kind, bytes, refusal).then_some(Remedy::TakeOutReturns)
}

/// Whether what is refused is a carriage return before a line feed, which is good without it.
fn is_carriage_return(kind: Kind, bytes: &[u8], refusal: Refusal) -> bool {
    let Refusal::BadByte(at) = refusal else {
        return false;
    };
    let (before, after) = bytes.split_at(at as usize);
    after.starts_with(b"\r\n") && packed(kind, &[before, &after[1..]].concat()) != Err(refusal)
}

impl Series {
    /// 64-bit FNV-1a of the packed bytes.
    fn checksum(&self) -> String {
        let step = |sum: u64, &byte: &u8| (sum ^ byte as u64).wrapping_mul(0x100_0000_01b3);
        format!("{:016x}", self.packed.iter().fold(0xcbf2_9ce4_8422_2325, step))
    }

    /// Which file it is, and what the file was taken for.
    pub fn blame(&self) -> String {
        format!("{} was read as {}", self.file, self.kind.word())
    }

    /// What there is to say of it where a call is refused: of refusal 17 how far it may be asked.
    pub fn blame_for(&self, refusal: Refusal) -> String {
        match refusal {
            Refusal::TooFar(_) => format!("{} is good for two millennia alone", self.file),
            _ => self.blame(),
        }
    }

    /// Whether it is good for the near range alone.
    pub fn is_narrow(&self) -> bool {
        self.checked.is_some_and(|checked| !checked.wide)
    }

    fn terms(&self) -> Option<i64> {
        self.checked.map(|checked| checked.terms)
    }

    /// All that is told of a series.
    pub fn described(&self) -> String {
        let terms = self.terms().map_or("? terms".to_string(), |terms| counted(terms, "term"));
        let (bytes, sum, kind) = (parted(self.packed.len() as i64), self.checksum(), self.kind.word());
        format!("{terms}, {bytes} bytes packed, fnv1a64 {sum}, from {} ({kind})", self.file)
    }

    /// The same after its name.
    pub fn line(&self) -> String {
        format!("{}: {}", self.name, self.described())
    }

    pub fn json(&self, role: &'static str) -> Json {
        Json::Object(vec![
            ("role", role.into()),
            ("name", self.name.as_str().into()),
            ("file", self.file.as_str().into()),
            ("kind", self.kind.word().into()),
            ("terms", self.terms().into()),
            ("packed_bytes", self.packed.len().into()),
            ("fnv1a64", self.checksum().into()),
        ])
    }
}

/// A path on one line.
pub fn shown(path: &Path) -> String {
    if path == Path::new(STANDARD_INPUT) {
        return "standard input".to_string();
    }
    let plain = |letter: char| if letter.is_control() { char::REPLACEMENT_CHARACTER } else { letter };
    path.to_string_lossy().chars().map(plain).collect()
}

/// The file's name without its ending, which tells published files apart.
pub fn short_name(path: &Path) -> String {
    let name = if path.file_stem().is_some_and(|stem| stem == "VSOP87D") { path.file_name() } else { path.file_stem() };
    name.map_or(shown(path), |name| shown(Path::new(name)))
}
