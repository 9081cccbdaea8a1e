//! A damaged text mended, line by line.

use super::text::read_text;
use super::{refused, Refused};

/// What was written: bytes of the clean text, changes, and what the reader says of that text.
#[derive(Clone, Copy, Debug, PartialEq, Eq)]
pub struct Mended {
    pub length: usize,
    pub changes: usize,
    pub verdict: Result<usize, Refused>,
}

const DROPPED: u64 = 0;
const SPACED: u64 = 1;

/// The clean text, and two numbers for each change.
#[derive(Default)]
struct Clean {
    text: Vec<u8>,
    list: Vec<u64>,
}

impl Clean {
    /// Bytes that are kept, from an offset on; a tab becomes a space.
    fn keep(&mut self, at: usize, bytes: &[u8]) {
        let start = self.text.len();
        self.text.extend_from_slice(bytes);
        for (i, byte) in self.text[start..].iter_mut().enumerate() {
            if *byte == b'\t' {
                *byte = b' ';
                self.list.extend([(at + i) as u64, SPACED]);
            }
        }
    }

    /// Bytes that are dropped.
    fn drop(&mut self, at: usize, count: usize) {
        self.list.extend((at..at + count).flat_map(|offset| [offset as u64, DROPPED]));
    }

    /// A line that begins at an offset, with its line feed if it has one.
    fn line(&mut self, at: usize, line: &[u8]) {
        let Some(line) = line.strip_suffix(b"\n") else {
            return self.keep(at, line);
        };
        let kept = line.iter().rposition(|byte| !b"\r\t ".contains(byte)).map_or(0, |last| last + 1);
        self.keep(at, &line[..kept]);
        self.drop(at + kept, line.len() - kept);
        if kept == 0 {
            self.drop(at + line.len(), 1);
        } else {
            self.text.push(b'\n');
        }
    }
}

pub fn mend(text: &[u8], out: &mut [u8], list: &mut [u64]) -> Result<Mended, Refused> {
    let mut clean = Clean::default();
    let mut at = 0;
    for line in text.split_inclusive(|&byte| byte == b'\n') {
        clean.line(at, line);
        at += line.len();
    }
    let (length, changes) = (clean.text.len(), clean.list.len() / 2);
    if out.len() < length {
        return refused(7, length as i64);
    }
    if list.len() / 2 < changes {
        return refused(7, changes as i64);
    }
    out[..length].copy_from_slice(&clean.text);
    list[..2 * changes].copy_from_slice(&clean.list);
    // The packed form is shorter than the text.
    let verdict = read_text(&clean.text, &mut vec![0; length]);
    Ok(Mended { length, changes, verdict })
}
