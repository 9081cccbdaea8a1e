//! Texts as mail programs leave them. All this damage is of the kind that mending takes out again.

use super::Random;

/// Bytes that may be put before a line feed.
const BLANKS: [u8; 3] = *b"\r\t ";

/// How often each kind of damage comes: to one line, or one space, in so many; never where it is 0.
pub struct Damage {
    pub returns: u64,
    pub doubled_returns: u64,
    pub blanks: u64,
    pub blank_lines: u64,
    pub tabs: u64,
}

/// What a mail program does that ends every line with a carriage return, and nothing else.
pub const RETURNS: Damage = Damage { returns: 1, doubled_returns: 0, blanks: 0, blank_lines: 0, tabs: 0 };

fn comes(often: u64, random: &mut Random) -> bool {
    0 < often && random.one_in(often)
}

fn some_blanks(random: &mut Random) -> Vec<u8> {
    (0..random.below(4)).map(|_| random.pick(&BLANKS)).collect()
}

impl Damage {
    /// Some of it, of each kind in most lines or in few.
    pub fn of(random: &mut Random) -> Damage {
        let [returns, doubled_returns, blanks, blank_lines, tabs] = [0; 5].map(|_| random.pick(&[0, 0, 1, 2, 9, 60]));
        Damage { returns, doubled_returns, blanks, blank_lines, tabs }
    }

    /// The damaged text. Its last line keeps its line feed, or has none as before.
    pub fn done_to(&self, text: &[u8], random: &mut Random) -> Vec<u8> {
        let mut out = Vec::new();
        self.blank_line(&mut out, random);
        for &byte in text {
            match byte {
                b' ' if comes(self.tabs, random) => out.push(b'\t'),
                b'\n' => self.feed(&mut out, random),
                _ => out.push(byte),
            }
        }
        out
    }

    fn feed(&self, out: &mut Vec<u8>, random: &mut Random) {
        if comes(self.blanks, random) {
            out.extend(some_blanks(random));
        }
        if comes(self.returns, random) {
            out.push(b'\r');
            out.extend(comes(self.doubled_returns, random).then_some(b'\r'));
        }
        out.push(b'\n');
        self.blank_line(out, random);
    }

    fn blank_line(&self, out: &mut Vec<u8>, random: &mut Random) {
        if comes(self.blank_lines, random) {
            out.extend(some_blanks(random));
            out.push(b'\n');
        }
    }
}
