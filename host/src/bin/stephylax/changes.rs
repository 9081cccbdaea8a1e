//! The changes of a mended text: listed, and told by their kinds and lines.

use crate::json::Json;
use crate::tables::counted;
use stephylax::{Change, Fate};

/// As many stretches of lines are told of each kind of change; of the rest only how many lines they are.
const STRETCHES: usize = 6;

/// Changes of one kind: how many, and the stretches of lines that have one, from first to last.
pub struct Changed {
    byte: u8,
    fate: Fate,
    count: i64,
    lines: Vec<(usize, usize)>,
}

impl Changed {
    fn add(&mut self, line: usize) {
        self.count += 1;
        match self.lines.last_mut() {
            Some((_, last)) if line <= *last + 1 => *last = line,
            _ => self.lines.push((line, line)),
        }
    }

    fn noun(&self) -> &'static str {
        match self.byte {
            b'\r' => "carriage return",
            b'\t' => "tab",
            b' ' => "space",
            _ => "blank line",
        }
    }

    /// What was done, as a sentence has it, without its lines.
    fn what(&self) -> String {
        match self.fate {
            Fate::TabToSpace if self.count == 1 => "1 tab made a space".to_string(),
            Fate::TabToSpace => format!("{} made spaces", counted(self.count, "tab")),
            Fate::Dropped => format!("{} dropped", counted(self.count, self.noun())),
        }
    }

    /// The same for programs, without its number.
    fn kind(&self) -> String {
        match self.fate {
            Fate::TabToSpace => "tab made space".to_string(),
            Fate::Dropped => format!("{} dropped", self.noun()),
        }
    }

    /// Its lines: line 7; lines 1 to 3, 5 and 9.
    fn where_it_was(&self) -> String {
        let stretch = |&(first, last): &(usize, usize)| match last - first {
            0 => first.to_string(),
            _ => format!("{first} to {last}"),
        };
        let (told, rest) = self.lines.split_at(self.lines.len().min(STRETCHES));
        let mut words: Vec<String> = told.iter().map(stretch).collect();
        let others: usize = rest.iter().map(|(first, last)| last - first + 1).sum();
        if 0 < others {
            words.push(counted(others as i64, "other"));
        }
        let noun = if matches!(self.lines[..], [(first, last)] if first == last) { "line" } else { "lines" };
        let last = words.pop().unwrap_or_default();
        if words.is_empty() {
            return format!("{noun} {last}");
        }
        format!("{noun} {} and {last}", words.join(", "))
    }

    /// What is told of it, on a line.
    pub fn told(&self) -> String {
        format!("{}, {}", self.what(), self.where_it_was())
    }

    pub fn json(&self) -> Json {
        let stretch = |&(first, last): &(usize, usize)| Json::List(vec![first.into(), last.into()]);
        let lines = Json::List(self.lines.iter().map(stretch).collect());
        Json::Object(vec![("what", self.kind().into()), ("count", self.count.into()), ("lines", lines)])
    }
}

/// The line that the byte at an offset stands in, and its column, both counted from 1.
pub fn line_and_column(bytes: &[u8], at: usize) -> (usize, usize) {
    let feeds = || bytes[..at].iter().enumerate().filter(|(_, &byte)| byte == b'\n');
    (1 + feeds().count(), at - feeds().next_back().map_or(0, |(feed, _)| feed + 1) + 1)
}

/// The changes by their kinds, in the order in which these first come.
pub fn by_kind(bytes: &[u8], changes: &[Change]) -> Vec<Changed> {
    let mut kinds: Vec<Changed> = Vec::new();
    let (mut line, mut seen) = (1, 0);
    for &Change { offset, fate } in changes {
        line += bytes[seen..offset].iter().filter(|&&byte| byte == b'\n').count();
        seen = offset;
        let byte = bytes[offset];
        let at = kinds.iter().position(|kind| (kind.byte, kind.fate) == (byte, fate)).unwrap_or_else(|| {
            kinds.push(Changed { byte, fate, count: 0, lines: Vec::new() });
            kinds.len() - 1
        });
        kinds[at].add(line);
    }
    kinds
}

/// Where the byte at an offset of the clean text stood before; for its end, the end.
pub fn before_mending(changes: &[Change], at: usize) -> usize {
    let mut offset = at;
    for change in changes.iter().filter(|change| change.fate == Fate::Dropped) {
        if offset < change.offset {
            break;
        }
        offset += 1;
    }
    offset
}

/// The list of changes as it is written.
pub fn list(changes: &[Change]) -> String {
    let kind = |fate: Fate| if fate == Fate::Dropped { 0 } else { 1 };
    changes.iter().map(|change| format!("{} {}\n", change.offset, kind(change.fate))).collect()
}
