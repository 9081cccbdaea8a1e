//! Texts mended, by the library and by the independent implementation: both outputs to the last byte, at every room where the
//! answer turns, and what has to hold of them.

mod common;

use common::calls::{Calls, Mended, Outcome, LIBRARY};
use common::damage::{Damage, RETURNS};
use common::{generate, hex, published, rounds, same, Random};
use stephylax::{Change, Clean, Fate};

/// So many bytes and numbers past each room must stay as they were, too.
const BEYOND: usize = 9;

const PLANETS: [&str; 3] = ["mercury", "venus", "earth"];

/// What outputs hold beforehand.
struct Fill(u8, u64);

/// What all leave in both outputs, of so many bytes and numbers, and beyond them.
fn same_mend(text: &[u8], room: usize, numbers: usize, fill: &Fill) -> (Outcome<Mended>, Vec<u8>, Vec<u64>) {
    let input = || format!("room {room} numbers {numbers} text {}", hex(text));
    let run = |calls: &Calls| {
        let (mut out, mut list) = (vec![fill.0; room + BEYOND], vec![fill.1; numbers + BEYOND]);
        let answer = (calls.mend)(text, &mut out[..room], &mut list[..numbers]);
        (answer, out, list)
    };
    same(run, input)
}

/// A refusal leaves both outputs as they were.
fn is_refused(text: &[u8], room: usize, numbers: usize, figure: usize, fill: &Fill) {
    let (answer, out, list) = same_mend(text, room, numbers, fill);
    assert_eq!(answer, Err((7, figure as i64)), "room {room} numbers {numbers} text {}", hex(text));
    let as_lent = out.iter().all(|&byte| byte == fill.0) && list.iter().all(|&number| number == fill.1);
    assert!(as_lent, "room {room} numbers {numbers} text {}", hex(text));
}

/// The changes of a list made to the text, by someone who knows nothing of lines.
fn made(text: &[u8], list: &[u64]) -> Vec<u8> {
    let mut out = Vec::new();
    let mut at = 0;
    for change in list.chunks(2) {
        let offset = change[0] as usize;
        assert!(at <= offset, "the changes are not in order: {list:?}");
        out.extend(&text[at..offset]);
        match change[1] {
            0 => {}
            1 => {
                assert_eq!(text[offset], b'\t', "{list:?}");
                out.push(b' ');
            }
            other => panic!("there is no change {other}"),
        }
        at = offset + 1;
    }
    out.extend(&text[at..]);
    out
}

/// A text with room for everything: its clean form and its changes, after all that must hold of them is seen.
fn mended(text: &[u8], fill: &Fill) -> (Vec<u8>, Vec<u64>, Outcome<usize>) {
    let (answer, mut out, mut list) = same_mend(text, text.len(), 2 * text.len(), fill);
    let (length, changes, verdict) = answer.expect("mending is refused for its room alone");
    assert!(out[length..].iter().all(|&byte| byte == fill.0), "past the text: {}", hex(text));
    assert!(list[2 * changes..].iter().all(|&number| number == fill.1), "past the changes: {}", hex(text));
    out.truncate(length);
    list.truncate(2 * changes);
    assert_eq!(made(text, &list), out, "the changes do not make the clean text: {}", hex(text));
    assert_eq!((LIBRARY.read_text)(&out, &mut vec![0; length]), verdict, "{}", hex(text));
    (out, list, verdict)
}

/// All rooms at which the answer may turn, and a second mending.
fn every_room(text: &[u8], fill: &Fill) -> Outcome<usize> {
    let (clean, list, verdict) = mended(text, fill);
    let (length, numbers) = (clean.len(), list.len());
    let wanted = Ok((length, numbers / 2, verdict));
    for (more, more_numbers) in [(0, 0), (1, 1), (0, 2), (7, 0)] {
        let (answer, out, changes) = same_mend(text, length + more, numbers + more_numbers, fill);
        assert_eq!(answer, wanted, "{}", hex(text));
        assert!(out[..length] == clean && changes[..numbers] == list, "{}", hex(text));
    }
    if 0 < length {
        is_refused(text, length - 1, numbers, length, fill);
        // Where nothing fits, the text is told first.
        is_refused(text, 0, 0, length, fill);
    }
    if 0 < numbers {
        // Half a change is no room for it.
        is_refused(text, length, numbers - 1, numbers / 2, fill);
        is_refused(text, length + 1, 0, numbers / 2, fill);
    }
    let again = mended(&clean, fill);
    assert_eq!(again, (clean.clone(), Vec::new(), verdict), "mended twice: {}", hex(text));
    if (LIBRARY.read_text)(text, &mut vec![0; text.len()]).is_ok() {
        assert!(clean == text && list.is_empty() && verdict.is_ok(), "an accepted text changed: {}", hex(text));
    }
    let fate = |kind| if kind == 0 { Fate::Dropped } else { Fate::TabToSpace };
    let changes = list.chunks(2).map(|pair| Change { offset: pair[0] as usize, fate: fate(pair[1]) }).collect();
    let whole = stephylax::mended(text);
    let told = whole.verdict.map_err(|refusal| (refusal.number(), refusal.figure()));
    assert_eq!(whole, Clean { text: clean, changes, verdict: whole.verdict }, "{}", hex(text));
    assert_eq!(told, verdict);
    verdict
}

fn fill(random: &mut Random) -> Fill {
    Fill(random.next() as u8, random.next())
}

/// Every text of up to seven of the bytes that matter and one that does not.
#[test]
fn every_short_text() {
    let longest = if rounds(100) == 1 { 4 } else { 7 };
    let fill = Fill(0xA5, 0xA5A5);
    let mut texts = vec![Vec::new()];
    for length in 0..=longest {
        for text in &texts {
            let _ = if length < 6 { every_room(text, &fill) } else { mended(text, &fill).2 };
        }
        texts = texts.iter().flat_map(|text| b"\t\n\r 0".map(|byte| [&text[..], &[byte]].concat())).collect();
    }
}

/// Each byte where a blank may stand: before a line feed, alone in its line, inside a line, and at the end.
#[test]
fn every_byte() {
    for byte in 0..=255 {
        for text in [&[b'0', byte, b'\n'][..], &[byte, b'\n', b'0'], &[b'0', byte, b'0', b'\n'], &[b'0', byte]] {
            let _ = every_room(text, &Fill(byte ^ 0xFF, 3));
        }
    }
}

/// Any bytes, most of them of those that matter.
#[test]
fn any_bytes() {
    let mut random = Random(31);
    for _ in 0..rounds(200_000) {
        let length = random.below(50);
        let plain = random.pick(&[0, 1, 3, 8]);
        let mut byte = || match random.below(8) {
            kind if kind < plain => random.next() as u8,
            7 => random.pick(b"0123456789.-"),
            _ => random.pick(b"\t\n\r "),
        };
        let text: Vec<u8> = (0..length).map(|_| byte()).collect();
        let _ = every_room(&text, &fill(&mut random));
    }
}

/// Generated texts, good and bad: what a mail program does to one is mended to what the text itself is mended to.
#[test]
fn damaged_texts() {
    let mut random = Random(32);
    let mut seen = [0; 10];
    for _ in 0..rounds(20_000) {
        let text = generate::text(&mut random);
        let damaged = Damage::of(&mut random).done_to(&text, &mut random);
        let fill = fill(&mut random);
        let verdict = every_room(&damaged, &fill);
        let (clean, _, wanted) = mended(&text, &fill);
        assert_eq!((mended(&damaged, &fill).0, verdict), (clean, wanted), "{}", hex(&damaged));
        seen[verdict.map_or_else(|refusal| refusal.0, |_| 0) as usize] += 1;
        // Without its last line feed it is another text, and the blanks at its end stay.
        let last = damaged.iter().rposition(|&byte| byte == b'\n').unwrap_or(0);
        let _ = every_room(&damaged[..last], &fill);
    }
    println!("verdicts 0 to 9: {seen:?}");
    for number in [0, 3, 4, 5, 6, 8, 9] {
        assert!(rounds(100) == 1 || 10 <= seen[number], "verdict {number} came {} times", seen[number]);
    }
    assert_eq!(seen[7], 0);
}

/// The published series come out of any such damage as they were.
#[test]
fn planets() {
    let mut random = Random(33);
    for planet in PLANETS {
        let text = published(planet);
        let fill = fill(&mut random);
        let wanted = (LIBRARY.read_text)(&text, &mut vec![0; text.len()]);
        assert!(wanted.is_ok());
        assert_eq!(mended(&text, &fill), (text.clone(), Vec::new(), wanted), "{planet}");
        let with_returns = RETURNS.done_to(&text, &mut random);
        let lines = text.iter().filter(|&&byte| byte == b'\n').count();
        let (clean, list, verdict) = mended(&with_returns, &fill);
        assert!(clean == text && list.len() == 2 * lines && verdict == wanted, "{planet}");
        for _ in 0..rounds(12) {
            let damaged = Damage::of(&mut random).done_to(&text, &mut random);
            assert_eq!(every_room(&damaged, &fill), wanted, "{planet}");
            assert!(mended(&damaged, &fill).0 == text, "{planet}");
            // A last line without its line feed is refused, and every byte of it kept.
            let cut = &damaged[..damaged.iter().rposition(u8::is_ascii_digit).unwrap() + 1];
            assert_eq!(every_room(cut, &fill), Err((8, text.len() as i64 - 1)), "{planet}");
        }
    }
}

/// Long runs of blanks, and long texts without a line.
#[test]
fn long_runs() {
    let fill = Fill(1, 2);
    for blanks in [b" ".as_slice(), b"\t", b"\r", b" \t\r"] {
        let run = blanks.repeat(70_000);
        for text in
            [run.clone(), [&run[..], b"\n"].concat(), [b"0", &run[..], b"\n"].concat(), [&run[..], b"0"].concat()]
        {
            let _ = every_room(&text, &fill);
        }
    }
    let _ = every_room(&b"\n".repeat(100_000), &fill);
    let _ = every_room(&b"0\t".repeat(100_000), &fill);
}
