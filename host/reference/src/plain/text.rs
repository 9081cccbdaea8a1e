//! The text reader, byte by byte, so that the text may come in any cutting.

use super::packed::{put_number, put_term, Judge, Term};
use super::{Refused, PARTS};

/// What stands: more is wanted, the whole text was accepted, or it was refused.
#[derive(Clone, Copy, Debug, PartialEq, Eq)]
pub enum Answer {
    More,
    Accepted,
    Refused(Refused),
}

/// Where in its line a byte stands. `Gap` is before a decimal, with a space before it where one is owed.
#[derive(Clone, Copy, Debug, PartialEq, Eq)]
enum Place {
    Gap,
    Minus,
    Whole,
    Fraction,
}

/// The line read so far: a count has its value in `value` and `digits`.
#[derive(Clone, Debug)]
struct Line {
    place: Place,
    field: usize,
    negative: bool,
    digits: u32,
    value: i64,
    fields: [i64; 3],
}

const NEW_LINE: Line = Line { place: Place::Gap, field: 0, negative: false, digits: 0, value: 0, fields: [0; 3] };

#[derive(Clone, Debug)]
pub struct Reader {
    offset: u64,
    written: usize,
    judge: Judge,
    line: Line,
    answer: Answer,
}

impl Line {
    fn add_digit(&mut self, byte: u8) {
        self.value = 10 * self.value + (byte - b'0') as i64;
        self.digits += 1;
    }

    /// A digit before the point: no digit follows a zero that stands first.
    fn whole_digit(&mut self, byte: u8, most: u32) -> bool {
        let good = byte.is_ascii_digit() && self.digits < most && (self.digits == 0 || self.value != 0);
        if good {
            self.add_digit(byte);
        }
        good
    }

    /// Takes a byte of a count line other than its line feed; false if it cannot continue the line.
    fn count_byte(&mut self, byte: u8) -> bool {
        self.whole_digit(byte, 4)
    }

    /// Takes a byte of a term line other than its line feed; false if it cannot continue the line.
    fn term_byte(&mut self, byte: u8) -> bool {
        match self.place {
            Place::Gap if byte == b' ' => true,
            Place::Gap if byte == b'-' => {
                self.negative = true;
                self.place = Place::Minus;
                true
            }
            Place::Gap | Place::Minus => {
                self.place = Place::Whole;
                self.whole_digit(byte, 6)
            }
            Place::Whole if byte == b'.' => {
                self.place = Place::Fraction;
                self.digits = 0;
                true
            }
            Place::Whole => self.whole_digit(byte, 6),
            Place::Fraction => self.fraction_byte(byte),
        }
    }

    fn fraction_byte(&mut self, byte: u8) -> bool {
        if self.digits == 11 {
            self.next_field();
            return byte == b' ' && self.field < 3;
        }
        if !byte.is_ascii_digit() {
            return false;
        }
        self.add_digit(byte);
        // A minus before the number zero is seen at its last digit, for until then another digit may come.
        !(self.digits == 11 && self.negative && self.value == 0)
    }

    fn next_field(&mut self) {
        self.fields[self.field] = if self.negative { -self.value } else { self.value };
        *self = Line { field: self.field + 1, fields: self.fields, ..NEW_LINE };
    }

    fn count_ends(&self) -> bool {
        0 < self.digits
    }

    fn term_ends(&self) -> bool {
        self.field == 2 && self.place == Place::Fraction && self.digits == 11
    }
}

impl Reader {
    pub fn start() -> Reader {
        Reader { offset: 0, written: 0, judge: Judge::new(), line: NEW_LINE, answer: Answer::More }
    }

    pub fn answer(&self) -> Answer {
        self.answer
    }

    /// How many packed bytes have been written.
    pub fn written(&self) -> usize {
        self.written
    }

    pub fn piece(&mut self, text: &[u8], packed: &mut [u8]) {
        for &byte in text {
            if self.answer != Answer::More {
                return;
            }
            let refusal = self.byte(byte, packed);
            if refusal != 0 {
                self.refuse(refusal);
            }
            self.offset += 1;
        }
    }

    /// The last call, without bytes.
    pub fn end(&mut self) {
        if self.answer != Answer::More {
            return;
        }
        if self.judge.done() {
            self.answer = Answer::Accepted;
        } else {
            self.refuse(8);
        }
    }

    fn refuse(&mut self, number: u64) {
        self.answer = Answer::Refused(Refused { number, figure: self.offset as i64 });
    }

    fn byte(&mut self, byte: u8, packed: &mut [u8]) -> u64 {
        if self.judge.done() {
            return 9;
        }
        let count = self.judge.wants_count();
        let good = match (count, byte) {
            (true, b'\n') => self.line.count_ends(),
            (false, b'\n') => self.line.term_ends(),
            (true, _) => self.line.count_byte(byte),
            (false, _) => self.line.term_byte(byte),
        };
        if !good {
            return 3;
        }
        if byte != b'\n' {
            return 0;
        }
        if count {
            self.count_line(packed)
        } else {
            self.term_line(packed)
        }
    }

    fn count_line(&mut self, packed: &mut [u8]) -> u64 {
        let count = self.line.value as u64;
        let refusal = self.judge.count(count);
        if refusal != 0 {
            return refusal;
        }
        let mut bytes = Vec::new();
        put_number(&mut bytes, count);
        self.write(&bytes, packed)
    }

    fn term_line(&mut self, packed: &mut [u8]) -> u64 {
        self.line.next_field();
        let [a, b, c] = self.line.fields;
        let refusal = self.judge.line_term(Term { a, b, c });
        if refusal != 0 {
            return refusal;
        }
        let mut bytes = Vec::new();
        put_term(&mut bytes, Term { a, b, c });
        self.write(&bytes, packed)
    }

    fn write(&mut self, bytes: &[u8], packed: &mut [u8]) -> u64 {
        self.line = NEW_LINE;
        let end = self.written + bytes.len();
        if packed.len() < end {
            return 7;
        }
        packed[self.written..end].copy_from_slice(bytes);
        self.written = end;
        0
    }
}

/// The whole text in one call, and its end.
pub fn read_text(text: &[u8], packed: &mut [u8]) -> Result<usize, Refused> {
    let mut reader = Reader::start();
    reader.piece(text, packed);
    reader.end();
    match reader.answer {
        Answer::Refused(refusal) => Err(refusal),
        _ => Ok(reader.written),
    }
}

/// A decimal of up to six digits fits: its parts stay below 10^17.
const _: () = assert!(1_000_000 * (PARTS as i128) < i64::MAX as i128);
